#!/bin/sh
# Runs the cases that docs/CONFORMANCE.md and docs/NUMBERS.md cite, and compares what the library answers with what the paper says:
#
#   tests/conformance.sh            all cases of tests/conformance/cases.txt (files) and calls.txt (calls)
#   tests/conformance.sh NAME       prints the file of one case, to be tried by hand
#
# Needs GNU sed, awk and a C compiler for x86-64; target/staticlib/libsp3.a is built where that is not done.
set -eu
LC_ALL=C
export LC_ALL

root=$(cd "$(dirname "$0")/.." && pwd -P)
here=$root/tests/conformance
paper=$root/samples/paper.sp3
archive=$root/target/staticlib/libsp3.a
work=$(mktemp -d)
trap 'rm -rf "$work"' EXIT

fail() {
    echo "conformance: $1" >&2
    exit 1
}

# the lines of a table that are cases
lines_of() {
    sed -e '/^#/d' -e '/^$/d' "$here/$1"
}

# part K of a case's line
part() {
    printf '%s\n' "$2" | awk -F ' [|] ' -v k="$1" '{ print $k }'
}

# the settings of a rule, without `with` and the colon; nothing where it has none
settings_of() {
    printf '%s\n' "$1" | sed -n 's/^with \([^:]*\):.*/\1/p'
}

# the expression of a rule
expression_of() {
    printf '%s\n' "$1" | sed 's/^with [^:]*: *//'
}

# the paper's file grown by settings
base_of() {
    wanted=$1
    shift
    for setting in $wanted; do set -- "$@" -v "$setting"; done
    awk "$@" -f "$here/grow.awk" "$paper"
}

# makes the file of a case, $work/NAME.sp3, and the form in which it should be written, $work/NAME.form
make_case() {
    name=$(part 1 "$1") rule=$(part 2 "$1") answer=$(part 3 "$1")
    settings=$(settings_of "$rule") expression=$(expression_of "$rule")
    base_of "$settings" >"$work/base"
    sed -e "$expression" "$work/base" >"$work/$name.sp3"
    [ -z "$expression" ] || ! cmp -s "$work/base" "$work/$name.sp3" || fail "the rule of $name changes nothing"
    case $settings in
    *cut=*)
        bytes=$(($(wc -c <"$work/$name.sp3") - ${settings##*cut=}))
        head -c "$bytes" "$work/$name.sp3" >"$work/cut"
        mv "$work/cut" "$work/$name.sp3"
        ;;
    esac
    case $answer in
    'accepted written '*) sed -e "${answer#accepted written }" "$work/base" >"$work/$name.form" ;;
    *) mv "$work/base" "$work/$name.form" ;;
    esac
}

# the file of one case on standard output
if [ $# -gt 0 ]; then
    line=$(lines_of cases.txt | awk -F ' [|] ' -v name="$1" '$1 == name')
    [ -n "$line" ] || fail "no file $1 in tests/conformance/cases.txt"
    make_case "$line"
    cat "$work/$1.sp3"
    exit 0
fi

# the compiler for x86-64 and the way to run what it made; the archive
. "$root/tests/x86.sh"
"$root/tests/archive.sh"
x86_cc -std=c11 -Wall -Wextra -Werror -O2 -I"$root/include" -o "$work/answers" "$here/answers.c" "$here/calls.c" "$archive"

# the answers of the library, NAME and answer, beside what is expected
lines_of cases.txt >"$work/cases"
while IFS= read -r line; do
    make_case "$line"
    printf '%s\t%s\n' "$work/$name.sp3" "$work/$name.form" >>"$work/list"
done <"$work/cases"
awk -F ' [|] ' '{ print $1 }' "$work/cases" >"$work/names"
x86_run "$work/answers" files "$work/list" | paste -d ' ' "$work/names" - >"$work/said"
x86_run "$work/answers" calls "$paper" >>"$work/said"
{ awk -F ' [|] ' '{ print $1 " " $3 }' "$work/cases"; lines_of calls.txt | awk -F ' [|] ' '{ print $1 " " $2 }'; } >"$work/expected"

awk -f "$here/agree.awk" "$work/expected" "$work/said" || fail "the library and the paper's answers differ"

# every case is cited on a page, and every name on a page is a case
cut -d ' ' -f 1 "$work/expected" | sort >"$work/known"
[ -z "$(uniq -d "$work/known")" ] || fail "two cases have one name: $(uniq -d "$work/known")"
cat "$root/docs/CONFORMANCE.md" "$root/docs/NUMBERS.md" | grep -o '`[a-z0-9]*-[a-z0-9-]*`' | tr -d '`' | sort -u >"$work/cited"
comm -3 "$work/known" "$work/cited" >"$work/apart"
[ ! -s "$work/apart" ] || fail "a case that no page cites, or (indented) a name that is no case: $(head -n 5 "$work/apart")"
awk -f "$here/pages.awk" "$work/expected" "$root/docs/CONFORMANCE.md" || fail "docs/CONFORMANCE.md and the cases differ"

# every function of the header stands on docs/NUMBERS.md, with the numbers that it can give
for function in $(grep -o '^[a-z0-9_]* sp3_[a-z_]*(' "$root/include/sp3.h" | grep -o 'sp3_[a-z_]*('); do
    grep -q "^|.*\`${function%(}\`" "$root/docs/NUMBERS.md" || fail "docs/NUMBERS.md does not say which numbers ${function%(} gives"
done

# every line that docs/NUMBERS.md shows is that line of its case
sed -n '/`[a-z0-9-]*`, line [0-9]*:$/ { N; N; s/.*`\([a-z0-9-]*\)`, line \([0-9]*\):\n\n      /\1 \2 /p }' "$root/docs/NUMBERS.md" >"$work/shown"
[ -s "$work/shown" ] || fail "docs/NUMBERS.md shows no line"
while read -r name number text; do
    [ "$text" = "$(sed -n "${number}p" "$work/$name.sp3" | cat -vT)" ] || fail "docs/NUMBERS.md shows another line $number than $name has"
done <"$work/shown"

echo "conformance: $(($(wc -l <"$work/expected"))) cases agree"
