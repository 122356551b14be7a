#!/bin/sh
# Runs a program of crates/ on standard input, proved and compiled first as far as that is not done:
#
#   tests/program.sh NAME < INPUT
#
# Programs are for x86-64; on another processor they need Debian's emulator.
set -eu

root=$(cd "$(dirname "$0")/.." && pwd -P)
kit=$(dirname "$(dirname "$(readlink -f "$(command -v rt)")")")
tools=$kit/toolchain
emulator=
[ "$(uname -m)" = x86_64 ] || emulator=qemu-x86_64

# whether a program is missing or older than a source
stale() {
    [ ! -x "$1" ] || [ -n "$(find crates.txt crates -path 'crates/*/out' -prune -o -type f -newer "$1" -print | head -n 1)" ]
}

# proves, compiles and runs it without input; rt leaves the stamp where that was done
build() {
    made=crates/$1/out/$1
    ! stale "$made" || {
        rm -f "$made.stamp"
        said=$(cd "crates/$1" && rt run </dev/null 2>&1 >/dev/null) || :
        [ -f "$made.stamp" ] || {
            printf '%s\n' "$said" | tail -n 5 >&2
            exit 2
        }
        touch "$made"
    }
}

# `built` before the name: it was proved and compiled a moment ago
if [ "$1" = built ]; then shift; else (cd "$root" && build "$1"); fi
exec ${emulator:+"$emulator"} "$tools/lib/ld-linux-x86-64.so.2" --library-path "$tools/lib" "$root/crates/$1/out/$1"
