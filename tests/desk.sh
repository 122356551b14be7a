#!/bin/sh
# Tests the desk tool: every command and status, standard output and standard error byte for byte, on the samples, on damaged and generated files, on
# inputs and outputs that fail. What is expected comes from 01 and 02, from samples/make.py and from the independent implementation in Rust.
#
#   tests/desk.sh
#
# Builds the tool first, as far as that is not done; SP3_TOOL=PATH tests another build of it. Needs python3 and rustc. Prints `desk: N tests passed`;
# at the first difference prints what was expected and what came, and ends with 1.
set -eu

root=$(cd "$(dirname "$0")/.." && pwd -P)
cd "$root"
for needed in python3 rustc; do
    command -v "$needed" >/dev/null || { echo "$needed is missing" >&2; exit 2; }
done
desk/build.sh
. tests/x86.sh
export X86_EMULATOR="$x86_emulator"

made=$(mktemp -d)
trap 'rm -rf "$made"' EXIT
chmod 755 "$made"
mkdir "$made/tool"
if [ -n "${SP3_TOOL:-}" ]; then
    cp "$SP3_TOOL" "$made/tool/sp3"
else
    cp target/desk/sp3* "$made/tool/"
fi
x86_cc -std=c11 -Wall -Wextra -Werror -O2 -c -o "$made/failing.o" tests/desk/failing.c
x86_cc -std=c11 -Wall -Wextra -Werror -O2 -Dread=tested_read -Dmalloc=tested_malloc -Drealloc=tested_realloc -o "$made/failing" desk/*.c \
    "$made/failing.o" target/staticlib/libsp3.a
for oracle in files forms divide; do
    rustc -O --edition 2021 -o "$made/$oracle" "tests/$oracle.rs"
done
python3 samples/make.py check
PYTHONDONTWRITEBYTECODE=1 python3 tests/desk/run.py "$made"
