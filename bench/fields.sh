#!/usr/bin/env bash
# Instructions for a decimal of 14 columns read and written, and for a date, beside plain scalar C at -O2 and at -O3, all in one run: what a call
# costs beyond that of a function that does nothing. include/sp3.h shows no single field, so doors of its own are built (fields.rt.txt).
set -euo pipefail
. "$(dirname "$0")/counting.sh"
doors fields laws field calendar
calls 6000 fields
row 'well-formed decimal read' good
row 'malformed decimal read' bad
row 'decimal written' written
row 'date asked' date
