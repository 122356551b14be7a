#!/bin/sh
# Runs the program of crates/rewrite on the inputs of tests/rewrite, on large ones that are made by rule (800 and 801 comments, 65,536 and 65,537
# bytes, of the file and of its form, 952 and 999 satellites, as many rows as there can be, ..) and on generated ones, and compares what it prints,
# byte for byte, with what tests/rewrite.rs says:
#
#   tests/rewrite.sh [SEED [COUNT]]
#
# A seed always makes the same files; without one, seed 1 and 300 of them. Each input is given once as a file and once through a pipe, in pieces. The
# program is proved and compiled first, as far as that is not done. Prints how many inputs agree; at a difference it prints the input's name and
# the first byte that differs, and ends with 1.
set -eu

root=$(cd "$(dirname "$0")/.." && pwd -P)
seed=${1:-1}
count=${2:-300}

made=$(mktemp -d)
trap 'rm -rf "$made"' EXIT
rustc -O --edition 2021 -o "$made/oracle" "$root/tests/rewrite.rs"
"$made/oracle" self-test
"$made/oracle" check "$root/tests/rewrite"
cmp "$root/tests/rewrite/00-paper.sp3" "$root/crates/rewrite/stdin"
cmp "$root/tests/rewrite/00-paper.out" "$root/crates/rewrite/stdout"

mkdir "$made/inputs"
"$made/oracle" make "$made/inputs"
"$made/oracle" make-large "$made/inputs"
"$made/oracle" make-random "$seed" "$count" "$made/inputs"
"$root/tests/program.sh" rewrite </dev/null >/dev/null

# what was printed must be what the oracle says of the input
agree() {
    cmp "$made/printed" "${1%.sp3}.out" >&2 || {
        echo "rewrite: $(basename "$1" .sp3), given $2, is not answered as it must be" >&2
        exit 1
    }
}

inputs=0
for input in "$made"/inputs/*.sp3; do
    "$root/tests/program.sh" built rewrite <"$input" >"$made/printed"
    agree "$input" "as a file"
    dd if="$input" bs=1000 2>/dev/null | "$root/tests/program.sh" built rewrite >"$made/printed"
    agree "$input" "through a pipe"
    inputs=$((inputs + 1))
done
echo "rewrite: $inputs inputs agree"
