#!/usr/bin/env bash
# What the library costs, in one command: bash bench/run.sh
# For judge, read, write, rewrite (read, then write) and divide, each on a file of 96 epochs of 32 satellites and on one of 288 of 120, in mode P with
# rows of 80 columns: the instructions for a byte (of the file; of what is written, for write), beside plain scalar C (reader.c, writer.c) at -O2 and
# at -O3, and the time as a ratio, ours / C, of the least of 15 turns in one run (on another processor than x86-64 it would be the emulator's, and is
# left out). Of the library alone: measure, the length of the form, and walk, a file begun and then all its rows. Then the instructions for a row, of 80
# columns, with its trailing blanks cut, of a kind that has no picture (E in column 75 beside a blank), and with an EP after it; those at 1, 4 and 16
# times the size; and how much of its stack each side touches. Ours is target/staticlib/libsp3.a, what include/sp3.h is linked with (LLVM, -O3), proved
# and built first as far as that is not done; the C is gcc's; both are for plain x86-64. This ends with 1 where the sides do not answer the same, on the
# files themselves, on one of as many satellites as there can be, or with one byte or one number altered, or where a byte of ours costs over a tenth
# more at 16 times the size. Time decides nothing.
set -euo pipefail
. "$(dirname "$0")/counting.sh"
archive
for level in 2 3; do
    for side in reader writer; do
        "$compiler" -std=c11 -Wall -Wextra -Werror "-O$level" -march=x86-64 "-DPLAIN(name)=o${level}_##name" -c -o "$side$level.o" "$bench/$side.c"
    done
done
harness run reader2.o reader3.o writer2.o writer3.o

cut_blanks() { sed 's/ *$//'; }
unusual() { sed '/^P/s/^\(.\{74\}\)../\1E /'; }
noted() { sed '/^P/a EP    55   55   55     222  1234567 -1234567  5999999      -30       21 -1230000'; }

# measure LABEL EPOCHS SATELLITES COPIES ROWS: what was counted, with its label
measure() {
    awk -v epochs="$2" -v satellites="$3" -f "$bench/file.awk" | "$5" >"$1.sp3"
    counted run count "$1.sp3" "$4"
    sed "s/^/count $1 /" counts >>all
    sed -n "s/^bytes /bytes $1 /p" said >>all
}
while read -r label epochs satellites copies rows; do measure "$label" "$epochs" "$satellites" "$copies" "${rows:-cat}"; done <<END
96x32 96 32 1
cut 96 32 1 cut_blanks
unusual 96 32 1 unusual
noted 96 32 1 noted
288x120 288 120 1
1x 24 32 1
4x 96 32 1
16x 384 32 1
files1 24 32 1
files4 24 32 4
files16 24 32 16
END
for size in 96x32 288x120; do
    [ "$(uname -m)" != x86_64 ] || run run time "$size.sp3" | sed -n "s/^time /time $size /p" >>all
    run run stack "$size.sp3" | sed -n "s/^stack /stack $size /p" >>all
done
run run altered 96x32.sp3 2000 500 >said || { tail -n 1 said; exit 1; }
run run altered 288x120.sp3 100 50 >said || { tail -n 1 said; exit 1; }
run run altered noted.sp3 500 500 >said || { tail -n 1 said; exit 1; }
awk -v epochs=1 -v satellites="$most" -f "$bench/file.awk" >crowd.sp3
run run altered crowd.sp3 1000 200 >said || { tail -n 1 said; exit 1; }

# lines `bytes SIZE WHAT N` and `count`, `time` or `stack SIZE WHAT SIDE N`; side 0 is ours
awk '$1 == "bytes" { bytes[$2, $3] = $4; next }
     { value[$1, $2, $3, $4] = $5 }
     function each(size, what, side) {
         if (!value["count", size, what, side]) { print "not counted: " size " " what; exit failed = 1 }
         return value["count", size, what, side] / bytes[size, (size, what) in bytes ? what : "file"]
     }
     function cell(text) { printf " %8s", text }
     function ratio(kind, size, what, side) {
         cell(value[kind, size, what, side] ? sprintf("%.2f", value[kind, size, what, 0] / value[kind, size, what, side]) : "-")
     }
     function beside_c(size, title, i, what, side) {
         printf "%-28s %8s %8s %8s", title ", " bytes[size, "file"] " bytes", "ours", "C -O2", "C -O3"
         printf "   %8s %8s   %8s %8s\n", "/ -O2", "/ -O3", "/ -O2", "/ -O3"
         for (i = 1; i <= n; i++) {
             what = name[i]
             printf "  %-26s", what == "write" ? "write, " bytes[size, "write"] " bytes" : what
             for (side = 0; side < sides[what]; side++) cell(sprintf("%.2f", each(size, what, side)))
             if (sides[what] > 1) { printf "  "; ratio("count", size, what, 1); ratio("count", size, what, 2) }
             if (sides[what] > 1) { printf "  "; ratio("time", size, what, 1); ratio("time", size, what, 2) }
             printf "\n"
         }
     }
     function growth(title, what, one, four, sixteen, side, grown) {
         printf "  %-26s", title
         for (side = 0; side < sides[what] && side < 2; side++) {
             grown = each(sixteen, what, side) / each(one, what, side)
             printf "%s %8.2f %8.2f %8.2f %8.2f", side ? "  " : "", each(one, what, side), each(four, what, side), each(sixteen, what, side), grown
             if (side == 0 && grown > 1.1) failed = 1
         }
         printf "\n"
     }
     function kind(title, size, i) {
         printf "  %-26s", title
         for (i = 1; i <= 4; i++) cell(sprintf("%.0f", value["count", size, asked[i], 0] / (96 * 32)))
         printf "\n"
     }
     function larger(one, other) { return one + 0 > other + 0 ? one : other }
     function stack(what, side) {
         printf "  %-26s", what
         for (side = 0; side < sides[what]; side++) {
             cell(larger(value["stack", "96x32", what, side], value["stack", "288x120", what, side]))
         }
         printf "\n"
     }
     END {
         n = split("judge read write measure rewrite divide walk", name)
         for (i = 1; i <= n; i++) sides[name[i]] = name[i] == "walk" || name[i] == "measure" ? 1 : 3
         printf "%-28s %26s   %17s   %17s\n", "", "instructions a byte", "ours / C", "time, ours / C"
         beside_c("96x32", "96 x 32")
         beside_c("288x120", "288 x 120")
         split("judge read write walk", asked)
         printf "\n%-28s %8s %8s %8s %8s\n", "instructions a row, ours", asked[1], asked[2], asked[3], asked[4]
         kind("of 80 columns", "96x32")
         kind("trailing blanks cut", "cut")
         kind("of an unusual kind", "unusual")
         kind("with an EP after it", "noted")
         printf "\n%-28s %35s   %35s\n", "instructions a byte", "ours", "C -O2"
         printf "%-28s", "24, 96, 384 epochs x 32"
         for (i = 0; i < 2; i++) printf "%s %8s %8s %8s %8s", i ? "  " : "", "1x", "4x", "16x", "16x/1x"
         printf "\n"
         for (i = 1; i <= n; i++) growth(name[i], name[i], "1x", "4x", "16x")
         growth("divide 1, 4, 16 files", "divide", "files1", "files4", "files16")
         printf "\n%-28s %8s %8s %8s\n", "bytes of stack touched", "ours", "C -O2", "C -O3"
         for (i = 1; i <= n; i++) stack(name[i])
         print "  (of the file that takes more)"
         exit failed
     }' all
