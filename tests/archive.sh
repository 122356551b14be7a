#!/bin/sh
# Proves the library and builds its archive for C, target/staticlib/libsp3.a, where that is not done:
#
#   tests/archive.sh
#
# The archive is that of crates/sp3_c, for every x86-64 processor. What it stands on is proved from nothing the first time, which takes minutes; where the
# kit, the sources and the archive are those of the last time nothing is done.
set -eu

cd "$(dirname "$0")/.."
command -v rt >/dev/null || { echo "rt is missing: install the Rattle kit and put its bin/ into PATH" >&2; exit 2; }
archive=target/staticlib/libsp3.a
made=target/archive
mkdir -p "$made" "$(dirname "$archive")"

# A sum over the kit, the sources and the archive.
sum_of() {
    {
        rt version
        find crates.txt crates "$archive" -path 'crates/*/out' -prune -o \
            -type f \( -name '*.rt' -o -name '*.antt' -o -name crates.txt -o -path "$archive" \) -print | LC_ALL=C sort | xargs sha256sum
    } | sha256sum
}

if [ -f "$archive" ] && [ -f "$made/sum" ] && [ "$(sum_of)" = "$(cat "$made/sum")" ]; then exit 0; fi
echo "proving and building the library; where nothing is proved yet this takes minutes:" >&2
{ (cd crates/sp3_c && rt lib --cpu x86-64) 2>&1 </dev/null && echo built; } | tee "$made/log" | sed -n 's/^crate \([a-z0-9_]*\):.*/  \1 checked/p' >&2
[ "$(tail -n 1 "$made/log")" = built ] || {
    grep -E '^rt: |error|no proof|not[- ]proved' "$made/log" | tail -n 20 >&2
    exit 1
}
cp crates/sp3_c/out/libsp3_c.a "$archive.new"
mv "$archive.new" "$archive"
sum_of >"$made/sum"
