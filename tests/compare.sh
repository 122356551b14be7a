#!/bin/sh
# Compares the library with an implementation that shares no code with it (tests/files.rs, forms.rs, divide.rs and dates.rs, written from the
# documents) on generated inputs, valid and damaged, batch by batch and byte for byte.
#
#   tests/compare.sh [SEED [COUNT]]
#
# compares the doors for C (tests/doors.c over target/staticlib/libsp3.a) in all four formats, first on the cases worked out by hand (`hand`, below),
# then on generated inputs: without arguments seed 1 and 20,000 inputs, of which 8,000 are files (`tables`), 5,000 files and tables to be written
# (`forms`), 6,000 stretches to be divided, walked and read by lines (`divide`) and 1,000 dates, instants and identifiers (`dates`). A seed always
# makes the same inputs. Of the files two in five are in SP3-c, and half of the writings are. Prints the seed, how often each number was the answer to
# each question, and in all. Ends with 1 at a difference, and, for 20,000 inputs or more, where one of the numbers 1 to 13 and 17 was the answer fewer
# than 50 times.
#
#   tests/compare.sh case FORMAT SEED NUMBER       shows one of these inputs and what both sides answer
#
#   tests/compare.sh hand
#   tests/compare.sh case FORMAT hand NUMBER
#
# compares the doors on the cases that the oracles of `tables`, `forms` and `divide` have worked out by hand from the documents, also those that are
# not stored, up to 999 satellites. A difference is shown at once; the second shows any.
#
#   tests/compare.sh columns
#   tests/compare.sh case columns NUMBER
#
# compares the doors on some 39,000 files that differ from an accepted one in one line: in a row, an EP or an EV every class of bytes in each of its
# columns, and pairs of bytes side by side; some bytes in each column of the other lines; identifiers that make the same number; a line once more.
# They are always the same. A difference is shown at once; the second shows any.
#
#   tests/compare.sh tables|forms|divide [SEED [COUNT]]
#
# compares the proved program `cases_..` of that name in the same way, on inputs that it has room for: 2,000 of them, or COUNT.
#
# What is missing is built first, in target/: the archive (tests/archive.sh), the driver, the oracles. `tests/compare.sh build` does that
# alone; `tests/compare.sh run FORMAT < BATCH` runs the driver.
set -eu

root=$(cd "$(dirname "$0")/.." && pwd -P)
archive=$root/target/staticlib/libsp3.a
made=$root/target/compare

. "$root/tests/x86.sh"

# whether a file is missing or older than one of the others
stale() {
    [ ! -e "$1" ] || [ -n "$(find "$@" -newer "$1" -print | head -n 1)" ]
}

# stops with the way it is called where a word is no number
numbers() {
    for word in "$@"; do
        case $word in '' | *[!0-9]*) usage ;; esac
    done
}

usage() {
    sed -n 's/^#   //p' "$0" >&2
    exit 2
}

oracle_of() {
    if [ "$1" = tables ]; then echo files; else echo "$1"; fi
}

build_driver() {
    if stale "$made/doors" "$archive" "$root/include/sp3.h" "$root/tests/doors.c" "$root/tests/doors"; then
        x86_cc -std=c11 -Wall -Wextra -Werror -O2 -I "$root/include" -o "$made/doors.new" "$root/tests/doors.c" "$root"/tests/doors/*.c "$archive"
        mv "$made/doors.new" "$made/doors"
    fi
}

# an oracle stands on others by their paths; it is first compared with what was worked out by hand
build_oracle() {
    if stale "$made/$1" "$root/tests/lines.rs" "$root/tests/files.rs" "$root/tests/$1.rs"; then
        rustc -O --edition 2021 -o "$made/$1.new" "$root/tests/$1.rs"
        "$made/$1.new" self-test >/dev/null
        mv "$made/$1.new" "$made/$1"
    fi
}

build() {
    mkdir -p "$made"
    "$root/tests/archive.sh" &
    proving=$!
    for oracle in files forms divide dates; do build_oracle "$oracle"; done
    wait "$proving"
    build_driver
}

run() {
    ${x86_emulator:+"$x86_emulator"} "$made/doors" "$1"
}

# builds what is missing, and makes a folder that is gone at the end
begin() {
    build
    work=$(mktemp -d)
    trap 'rm -rf "$work"' EXIT
}

# one format of the doors, on the inputs that the words after it ask its oracle for; what is printed is kept for the sum
compare_format() {
    format=$1
    shift
    echo "$format"
    if ! "$made/$(oracle_of "$format")" "$@" ${x86_emulator:+"$x86_emulator"} "$made/doors" "$format" >"$work/said"; then
        cat "$work/said"
        sed -n "s/^seed \([0-9]*\) case \([0-9]*\):.*/tests\/compare.sh case $format \1 \2 shows it/p" "$work/said"
        return 1
    fi
    tee -a "$work/all" <"$work/said"
}

# the sum over all formats and questions, and whether each refusal occurred often enough
sum_up() {
    awk -v count="$1" '
        NF == 16 && $1 == "number" { for (n = 2; n <= 16; n++) number[n] = $n }
        NF == 16 && $1 != "number" { for (n = 2; n <= 16; n++) sum[n] += $n }
        END {
            printf "number    "; for (n = 2; n <= 16; n++) printf "%7d", number[n]; print ""
            printf "in all    "; for (n = 2; n <= 16; n++) printf "%7d", sum[n]; print ""
            for (n = 3; n <= 16; n++) if (count >= 20000 && sum[n] < 50) { print number[n] " was the answer fewer than 50 times"; few = 1 }
            exit few
        }' "$work/all"
}

# a format of the doors, on the cases of its oracle that this word names; a difference is shown
compare_list() {
    compare_format "$1" "$2" compare && return
    number=$(sed -n "s/^$2 case \([0-9]*\):.*/\1/p" "$work/said")
    [ -z "$number" ] || show_case "$1" "$2" case "$number"
    exit 1
}

compare_hand() {
    echo "doors, cases worked out by hand"
    for format in tables forms divide; do compare_list "$format" hand; done
    rm "$work/all"
}

compare_doors() {
    numbers "$@"
    seed=${1:-1}
    count=${2:-20000}
    begin
    compare_hand
    echo "doors, seed $seed, $count inputs"
    compare_format tables any compare "$seed" $((count * 8 / 20))
    compare_format forms any compare "$seed" $((count * 5 / 20))
    compare_format dates any compare "$seed" $((count / 20))
    compare_format divide any compare "$seed" $((count - count * 8 / 20 - count * 5 / 20 - count / 20))
    sum_up "$count"
    echo "doors, seed $seed: $count inputs agree"
}

compare_columns() {
    begin
    echo "doors, lines with other bytes in their columns"
    compare_list tables columns
}

compare_program() {
    numbers "${2:-1}" "${3:-1}"
    mkdir -p "$made"
    build_oracle "$(oracle_of "$1")"
    "$root/tests/program.sh" "cases_$1" </dev/null
    echo "$1, seed ${2:-1}"
    exec "$made/$(oracle_of "$1")" compare "${2:-1}" "${3:-2000}" "$root/tests/program.sh" built "cases_$1"
}

# the input of a format that the words after it ask its oracle for, and what both sides answer
show_case() {
    format=$1
    shift
    oracle=$made/$(oracle_of "$format")
    "$oracle" "$@" | tee "$work/case"
    "$oracle" answer <"$work/case" >"$work/wanted"
    run "$format" <"$work/case" >"$work/found" || echo "doors ended with $?"
    echo
    if cmp -s "$work/wanted" "$work/found"; then
        echo "both answer:"
        cat "$work/wanted"
    else
        echo "the oracle (-) and the doors (+) answer:"
        diff -u "$work/wanted" "$work/found" || exit 1
    fi
}

case "$# ${1:-} ${2:-}" in
"2 run "*) run "$2" ;;
"1 build ") build ;;
"1 columns ") compare_columns ;;
"1 hand ")
    begin
    compare_hand
    ;;
"3 case columns")
    numbers "$3"
    begin
    show_case tables columns case "$3"
    ;;
"4 case tables" | "4 case forms" | "4 case divide" | "4 case dates")
    [ "$3" = hand ] || numbers "$3"
    numbers "$4"
    begin
    if [ "$3" = hand ]; then show_case "$2" hand case "$4"; else show_case "$2" any case "$3" "$4"; fi
    ;;
[1-3]" tables "* | [1-3]" forms "* | [1-3]" divide "*) compare_program "$@" ;;
[0-2]" "*) compare_doors "$@" ;;
*) usage ;;
esac
