#!/bin/sh
# Runs every command that README.md and docs/USING.md show after a `$` and compares what it prints with the page:
#
#   tests/using.sh
#
# The desk tool and the archive are built first where that is not done. On a processor other than x86-64 the commands that compile for it or run what
# was compiled (gcc, target/rows, cargo) are left out, and said to be. Ends with 1 at a difference.
set -eu

root=$(cd "$(dirname "$0")/.." && pwd -P)
cd "$root"
desk/build.sh 2>/dev/null
made=$(mktemp -d)
trap 'rm -rf "$made"' EXIT

# the commands of a page with what they print: command K in K.sh, its lines in K.out; their number
commands_of() {
    awk -v made="$made" '
        /^    \$ / { k++; print substr($0, 7) > (made "/" k ".sh"); printf "" > (made "/" k ".out"); shown = 1; next }
        /^    / && shown { print substr($0, 5) > (made "/" k ".out"); next }
        { shown = 0 }
        END { print k + 0 }' "$1"
}

# whether a command can be run on this processor
is_run() {
    [ "$(uname -m)" = x86_64 ] || ! grep -qE '^gcc|^target/rows|cargo' "$1"
}

# runs the commands of a page
try_page() {
    page=$1 k=0 run=0
    count=$(commands_of "$page")
    while [ "$k" -lt "$count" ]; do
        k=$((k + 1))
        is_run "$made/$k.sh" || continue
        sh "$made/$k.sh" >"$made/said" || :
        cmp -s "$made/said" "$made/$k.out" || {
            echo "$page: $(cat "$made/$k.sh")" >&2
            diff "$made/$k.out" "$made/said" >&2 || :
            exit 1
        }
        run=$((run + 1))
    done
    [ "$run" -gt 0 ]
    if [ "$run" = "$count" ]; then left=; else left=", $((count - run)) are for x86-64 alone"; fi
    echo "using: $run commands of $page print what it says$left"
}

try_page README.md
try_page docs/USING.md
