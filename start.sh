#!/bin/sh
# From a fresh machine with the Rattle kit to the desk tool at work: sets up a C compiler where there is none, proves the library, builds the tool
# and runs it on two sample files.
#
#   ./start.sh
#
# Each command is shown before what it prints. A second run proves and installs nothing.
set -eu

cd "$(dirname "$0")"
desk/build.sh

# Shows a command, then runs it.
run() {
    printf '\n$ %s\n' "$1"
    sh -c "$1"
}

echo "in $(pwd -P):"
run 'target/desk/sp3 check samples/paper.sp3 samples/day.sp3'
run 'target/desk/sp3 rewrite samples/paper.sp3'
run "target/desk/sp3 table samples/day.sp3 | sed -n '1,16p;46,68p'"
run 'target/desk/sp3 row samples/day.sp3 29 G04'
run 'target/desk/sp3 row samples/day.sp3 30 G04'
run 'target/desk/sp3 date 2024 2 29'
printf '\nAll its commands: target/desk/sp3 --help\n'
