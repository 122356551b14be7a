#!/usr/bin/env bash
# Instructions for judging a P line of 80 columns and for taking its row, beside plain scalar C at -O2 and at -O3, all in one run: what a call
# costs beyond that of a function that does nothing. include/sp3.h shows no single line, so doors of its own are built (rows.rt.txt).
set -euo pipefail
. "$(dirname "$0")/counting.sh"
doors rows laws field calendar layout header record
calls 4000 rows
row 'line without fault judged' good
row 'line with a fault judged' bad
row 'row taken (the C judges again)' taken
