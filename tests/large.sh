#!/bin/sh
# Compares the doors for C with the independent implementation on large inputs, byte for byte: judged, read with its whole table, written again,
# divided, walked:
#
#   tests/large.sh [SEED]
#
# The inputs: a file of 100,000 epochs (accepted), the same with its last epoch a second late (9), a file of 100,001 epochs (7 at line 1, column 33),
# one of 999 satellites with velocities, in SP3-c one of 85 and one of 86 (7 at line 3, column 4), 8,000 files of both versions laid end to end by
# turns, one line of 50 MB with and without its LF and with a wrong byte (3, 1, 2 at line 1; column 81, none, 50,000,000), a comment of 50 MB (3 at
# line 20, column 81; in SP3-c one of 61 bytes, column 61), 10 MB of random bytes made by the seed (1 where none is given).
# Ends with 1 at a difference, and where a file is not judged as said here.
set -eu

root=$(cd "$(dirname "$0")/.." && pwd -P)
seed=${1:-1}
most_satellites=$(sed -n 's/^#define SP3_MOST_SATELLITES //p' "$root/include/sp3.h")
"$root/tests/compare.sh" build
made=$root/target/compare
work=$(mktemp -d)
trap 'rm -rf "$work"' EXIT
cd "$work"

# both sides answer the batch in a format, by the oracle of this name
both() {
    "$made/$2" answer <batch >wanted
    "$root/tests/compare.sh" run "$1" <batch >found || echo "doors ended with $?" >>found
    cmp -s wanted found && return
    echo "$1: the oracle (-) and the doors (+) differ:"
    diff wanted found | head -n 10
    exit 1
}

# the lines of the answers that begin with one of these words, each once
answered() {
    grep -aE "^($1) " wanted | awk '!said[$0]++ { print "    " $0 }'
}

# so many bytes of one kind
repeated() {
    head -c "$2" /dev/zero | tr '\0' "$1"
}

# the letter of a file's version as a number: c is 99, d is 100
version_of() {
    if [ "$(head -c 2 "$1" | tr -d '\0')" = '#c' ]; then echo 99; else echo 100; fi
}

# NAME, how the file `input` is judged as a whole, and its satellites; it is read with the room that it needs, then with one number of rows less
compare_input() {
    bytes=$(($(wc -c <input)))
    comments=$(grep -ac '^/\*' input || :)
    numbers=$((23 * $(grep -ac '^[PV]' input || :)))
    asked="3 99999 0 $name"
    echo "$1, $bytes bytes"
    {
        echo "$bytes $3 $3 $((77 * comments)) $numbers $asked"
        cat input
        echo "$bytes $3 $3 $((77 * comments)) $((numbers > 0 ? numbers - 1 : 0)) $asked"
        cat input
    } >batch
    both tables files
    answered 'whole|read'
    grep -aq "^whole $2 " wanted || { echo "$1: not judged as $2"; exit 1; }
    { echo "2 $(version_of input) $bytes $bytes"; cat input; } >batch
    both forms forms
    answered write
    { echo "8000 1 $most_satellites 1 $bytes $name"; cat input; } >batch
    both divide divide
    answered 'divide|begin|refused'
}

# the satellite of a file that has one, as a number: 7107 for G07
name_of() {
    satellite=$(sed -n '3{s/^.........\(...\).*/\1/p;q;}' "$1")
    number=${satellite#?}
    echo $(($(printf %d "'$satellite") * 100 + ${number#0}))
}

"$made/files" file P 1 1 >one
"$made/files" file P 1 1 c >older
name=$(name_of one)

"$made/files" file P 1 100000 >input
compare_input "100,000 epochs" "0 0 0" 1

last=$(grep -an '^\*' input | tail -n 1 | cut -d : -f 1)
sed "${last}s/ 0.00000000\$/ 1.00000000/" input >late && mv late input
compare_input "the last of 100,000 epochs a second late" "9 $last 0" 1

"$made/files" file P 1 100001 >input
compare_input "100,001 epochs" "7 1 33" 1

"$made/files" file V "$most_satellites" 24 >input
compare_input "$most_satellites satellites with velocities" "0 0 0" "$most_satellites"

"$made/files" file V 85 24 c >input
compare_input "85 satellites with velocities in SP3-c" "0 0 0" 85

"$made/files" file V 86 24 c >input
compare_input "86 satellites with velocities in SP3-c" "7 3 4" 86

yes 'one older' | head -n 4000 | xargs cat >input
compare_input "8,000 files of both versions laid end to end" "11 $(($(wc -l <one) + 1)) 0" 1

repeated x 50000000 >input
compare_input "a line of 50 MB without its LF" "1 1 0" 1

echo >>input
compare_input "a line of 50 MB" "3 1 81" 1

{ repeated x 49999999; printf '\177\n'; } >input
compare_input "a line of 50 MB with a wrong byte" "2 1 50000000" 1

{ head -n 19 one; printf '/* '; repeated x 50000000; echo; tail -n +21 one; } >input
compare_input "a comment of 50 MB" "3 20 81" 1

{ head -n 19 older; printf '/* '; repeated x 58; echo; tail -n +21 older; } >input
compare_input "a comment of 61 bytes in SP3-c" "3 20 61" 1

"$made/files" bytes "$seed" 10000000 >input
compare_input "10 MB of random bytes, seed $seed" "[124] 1 [0-9]*" 1

echo "large inputs agree"
