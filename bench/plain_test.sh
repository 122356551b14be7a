#!/usr/bin/env bash
# Compares the plain C of reader.c and writer.c with tests/files.rs (reading), tests/forms.rs (tables written) and tests/divide.rs (dividing), on
# their stored cases and on generated ones: plain_test.sh [SEED [COUNT]]. The column of a refusal is left out: plain C has none. Clocks are compared
# with what was worked out by hand as well. Needs gcc and rustc.
set -euo pipefail
bench=$(cd "$(dirname "$0")" && pwd -P)
work=$(mktemp -d)
trap 'rm -rf "$work"' EXIT
cd "$work"
seed=${1:-1} count=${2:-2000}

for side in reader writer; do
    gcc -std=c11 -O2 -g -Wall -Wextra -Werror -fsanitize=address,undefined -o "$side" "$bench/${side}_test.c"
    "./$side" clocks <"$bench/../samples/paper.sp3"
done

# same ORACLE OURS..: the answers of OURS to both batches are those of the oracle, of which `kept` prints the lines that OURS gives too
same() {
    oracle=$1
    shift
    rustc -O --edition 2021 -o "$oracle" "$bench/../tests/$oracle.rs"
    "./$oracle" cases >stored
    "./$oracle" generate "$seed" "$count" >generated
    for batch in stored generated; do
        kept <"$batch" >right
        "$@" <"$batch" >said
        cmp right said
        awk -v what="$oracle, $batch" '/^(case|table) / { n++ } /^(read|write|divide) 0 / { good++ }
            END { printf "%s: %d cases, %d of them without refusal, same answers\n", what, n, good }' said
    done
}

kept() {
    ./files answer | awk '/^case / { on = 0 } /^read / { on = 1 } /^read_front/ { on = 0 }
        /^(front|whole|read) / { print $1, $2, $3, $5, substr($0, index($0, "|")) }
        /^case / || on && /^(sums|mode|start8|epochs|interval8|texts|type|time|bases|satellites|comments) /'
}
same files ./reader files

kept() { ./divide answer | awk '/^case / { on = 1 } /^divide / { print $1, $2, $3, $5, $6; next } on; /^kept$/ { on = 0 }'; }
same divide ./reader divide

kept() { ./forms answer-tables; }
same forms ./writer
