#!/usr/bin/env bash
# Instructions for judging and for reading files that were made to cost much, each at 1, 4 and 16 times its size, with the answer (refusal, 0 for an
# accepted file, and its line). `a byte` is instructions over bytes; `more` is instructions for each byte that the file has more than the one
# above it; `16x/1x` is `a byte` at 16 times the size over `a byte` at once the size: about 1 where the cost is linear, and far below where
# a refusal came before the end. Where that, or the last `more` over the one before it, is above 1.1, the cost is not linear and this ends with 1.
# Then what many satellites cost beside few, of one epoch: the file judged, and its table measured (sp3_form_length), by the bytes of the file and of
# the form. `ratio` is `a byte` of the most satellites that there can be over that of 85; and, where the last identifier repeats the first (refused),
# all instructions over those of the right file or table. Where a ratio is above 1.2 this ends with 1.
# Nothing is timed. The library is target/staticlib/libsp3.a, what include/sp3.h is linked with, proved and built first as far as that is not done.
set -euo pipefail
. "$(dirname "$0")/counting.sh"

fourth=$(((most + 2) / 4)) sixteenth=$((most / 16))

right() { awk "$@" -f "$bench/file.awk"; }
few() { right -v epochs=1 -v satellites=2 "$@"; }
many() { head -c "$2" /dev/zero | tr '\0' "$1"; }

# the inputs, each by its size
unended() { many x "$1"; }
unended_second() { few | sed -n 1p; many x "$1"; }
blanks() { many ' ' "$1"; printf '\n'; }
blanks_and_cr() { many ' ' "$1"; printf '\r\n'; }
empty_lines() { many '\n' "$1"; }
empty_after_comments() { few -v front=1; many '\n' "$1"; }
comments() { few -v comments="$1"; }
short_comments() { comments "$1" | sed 's,^/\*.*,/*,'; }
comments_alone() { few -v comments="$1" -v front=1; }
epochs() { right -v epochs="$1" -v satellites="$most"; }
satellites() { right -v epochs=1 -v satellites="$1"; }
descending() { right -v epochs=1 -v satellites="$1" -v descending=1; }
repeating() { right -v epochs=1 -v satellites="$1" -v repeating=1; }

made=0 ended=0
# sizes TITLE INPUT SIZE..
sizes() {
    title=$1 input=$2
    shift 2
    for size in "$@"; do
        "$input" "$size" >"$(printf 'input%02d' "$made")"
        printf '%s\n' "$title" >>titles
        made=$((made + 1))
    done
}

archive
harness hostile
sizes 'one line of x without LF' unended 250000 1000000 4000000
sizes 'line 1, then x without LF' unended_second 250000 1000000 4000000
sizes 'one line of blanks' blanks 250000 1000000 4000000
sizes 'one line of blanks and CR' blanks_and_cr 250000 1000000 4000000
sizes 'empty lines' empty_lines 62500 250000 1000000
sizes 'to the comments, then empty lines' empty_after_comments 62500 250000 1000000
sizes 'comments of 67 columns, 2 rows' comments 1312 5250 21000
sizes 'comments of 2 columns, 2 rows' short_comments 21000 84000 336000
sizes 'comments and no more' comments_alone 1312 5250 21000
sizes "$most satellites; 1, 4, 16 epochs" epochs 1 4 16
sizes "$sixteenth, $fourth, $most satellites; 1 epoch" satellites "$sixteenth" "$fourth" "$most"
sizes 'the same in descending order' descending "$sixteenth" "$fourth" "$most"
counted hostile read input*
grep '^file ' said >answers

awk 'FILENAME == "titles" { title[FNR - 1] = $0; next }
     FILENAME == "answers" { bytes[FNR - 1] = $2; answer[FNR - 1] = sprintf("%8d%6d", $3, $4); next }
     { count[FNR - 1] = $2 }
     # the price of file k, judged (0) or read (1), beside those of the two sizes before it
     function more(k, how) { return (count[2 * k + how] - count[2 * k - 2 + how]) / (bytes[k] - bytes[k - 1]) }
     function each(k, how) { return count[2 * k + how] / bytes[k] }
     function grown(k, how) { return each(k, how) / each(k - 2, how) }
     function worse(ratio) { if (ratio > worst) worst = ratio }
     function columns(k, how) {
         printf " %9d %6.2f %6s", count[2 * k + how], each(k, how), k % 3 ? sprintf("%.2f", more(k, how)) : "-"
         printf " %6s", k % 3 == 2 ? sprintf("%.2f", grown(k, how)) : "-"
         if (k % 3 == 2) {
             worse(grown(k, how))
             if (more(k - 1, how) > 0) worse(more(k, how) / more(k - 1, how))
         }
     }
     END {
         for (k = 0; k in title; k++) if (!(count[2 * k] && count[2 * k + 1] && bytes[k])) { print "not counted: " title[k]; exit 1 }
         printf "%-33s%8s%8s%6s%31s%31s\n", "", "", "", "", "judged: instructions", "read: instructions"
         printf "%-33s%8s%8s%6s", "file", "bytes", "refusal", "line"
         for (how = 0; how < 2; how++) printf " %9s %6s %6s %6s", "all", "a byte", "more", "16x/1x"
         printf "\n"
         for (k = 0; k in title; k++) {
             printf "%-33s%8d%s", k % 3 ? "" : title[k], bytes[k], answer[k]
             columns(k, 0)
             columns(k, 1)
             printf "\n"
         }
         printf "the largest growth is %.2f\n\n", worst
         exit (worst > 1.1)
     }' titles answers counts || ended=1

usual=85
satellites "$usual" >usual
satellites "$most" >most
repeating "$most" >repeating
counted hostile measure usual most repeating
grep '^file ' said >answers

# counts: of the first two files judged, measured and measured with an identifier that repeats, of the third judged
awk -v usual="$usual" -v most="$most" '
     FILENAME == "answers" { bytes[FNR] = $2; refusal[FNR] = $3; line[FNR] = $4; form[FNR] = $5; valid[FNR] = $6; repeated[FNR] = $7; next }
     { count[FNR] = $2 }
     function ratio(one, other) { if (one / other > worst) worst = one / other; return sprintf("%.2f", one / other) }
     function row(title, file, judge, judge_ratio, size, answer, measure, measure_ratio) {
         printf "%-33s%8d%8d%6d %9d %6.2f %6s", title, bytes[file], refusal[file], line[file], judge, judge / bytes[file], judge_ratio
         printf " %7d%8d %9d %6.2f %6s\n", size, answer, measure, measure / size, measure_ratio
     }
     END {
         if (count[7] == 0 || refusal[1] + refusal[2] + valid[1] + valid[2] != 0) { print "not counted, or not accepted"; exit 1 }
         if (refusal[3] != 8 || repeated[1] != 13 || repeated[2] != 13) { print "an identifier that repeats is not refused"; exit 1 }
         printf "%-33s%8s%8s%6s%24s %7s%8s%24s\n", "", "", "", "", "judged: instructions", "", "", "measured: instructions"
         printf "%-33s%8s%8s%6s %9s %6s %6s %7s%8s %9s %6s %6s\n", "satellites; 1 epoch", "bytes", "refusal", "line", "all", "a byte", "ratio",
             "form", "refusal", "all", "a byte", "ratio"
         row(usual, 1, count[1], "-", form[1], valid[1], count[2], "-")
         row(most, 2, count[4], ratio(count[4] / bytes[2], count[1] / bytes[1]), form[2], valid[2], count[5],
             ratio(count[5] / form[2], count[2] / form[1]))
         row(most ", the last as the first", 3, count[7], ratio(count[7], count[4]), form[2], repeated[2], count[6], ratio(count[6], count[5]))
         printf "the largest ratio is %.2f\n", worst
         exit (worst > 1.2)
     }' answers counts || ended=1
exit "$ended"
