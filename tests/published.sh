#!/bin/sh
# Judges files that centres published, as Debian's source package rtklib carries them, and rewrites those that are accepted:
#
#   tests/published.sh [DIRECTORY]
#
# fetches the package's source from the distribution's archive (with a DIRECTORY it takes the files that lie there instead), looks in it for files
# whose first bytes are those of an SP3 file (`#`, a to d, P or V), and prints a row of a table for each: its name, its size, its version, what
# sp3_judge answers, and what its rewriting in its own version is: the file itself, the file with the blanks cut that stand at the ends of its lines,
# or how many of those lines are others. The independent implementation must answer the same and write the same bytes. The table that came out is on
# docs/CONFORMANCE.md. No byte of these files belongs to the repository, and the gate does not run this.
#
# Exit status: 0 the answers agree, 1 they differ, 2 there is nothing to judge: no archive can be reached, or no such file is there.
set -eu
LC_ALL=C
export LC_ALL

package=rtklib
root=$(cd "$(dirname "$0")/.." && pwd -P)
made=$root/target/compare
work=$(mktemp -d)
trap 'rm -rf "$work"' EXIT

nothing() {
    echo "published: $1" >&2
    exit 2
}

# apt-get with lists and a cache of its own, so that nothing of the machine's changes
apt() {
    apt-get -qq -o "Dir::Etc::sourcelist=$work/sources.list" -o Dir::Etc::sourceparts=- -o "Dir::State::lists=$work/lists" \
        -o "Dir::Cache=$work/cache" -o APT::Sandbox::User=root "$@" >"$work/said" 2>&1
}

# the package's source, unpacked in $work/files; $source is its name and version
fetch() {
    command -v apt-get >/dev/null || nothing "apt-get is needed to fetch the source of $package"
    mkdir -p "$work/lists/partial" "$work/cache/archives/partial" "$work/files"
    suite=$(sed -n 's/^VERSION_CODENAME=//p' /etc/os-release)
    key=/usr/share/keyrings/debian-archive-keyring.gpg
    echo "deb-src [signed-by=$key] http://deb.debian.org/debian ${suite:-stable} main" >"$work/sources.list"
    { apt update && cd "$work" && apt source --download-only "$package"; } || nothing "no archive can be reached: $(tail -n 1 "$work/said")"
    tarball=$(find "$work" -maxdepth 1 -name "${package}_*.orig.tar.*" | head -n 1)
    tar -xf "$tarball" -C "$work/files"
    source=$(basename "$(find "$work" -maxdepth 1 -name "${package}_*.dsc")" .dsc)
}

# whether a file begins as an SP3 file
begins() {
    case $(head -c 3 "$1" | tr -d '\0') in '#'[abcd][PV]) ;; *) return 1 ;; esac
}

# what both sides say to the batch in a format, by the oracle of this name; it must be the same
both() {
    "$made/$2" answer <"$work/batch" >"$work/wanted"
    "$root/tests/compare.sh" run "$1" <"$work/batch" >"$work/found"
    cmp -s "$work/wanted" "$work/found" || { echo "published: $file: the oracle and the library differ" >&2; exit 1; }
}

# `accepted`, or `refused N line L`, with the column where one is named
answer_of() {
    set -- $(grep -a '^whole ' "$work/found")
    case "$2 $4" in
    "0 "*) echo accepted ;;
    *" 0") echo "refused $2 line $3" ;;
    *) echo "refused $2 line $3 column $4" ;;
    esac
}

# what the rewriting of an accepted file is
rewriting_of() {
    bytes=$(($(wc -c <"$file")))
    letter=$(printf %d "'$(head -c 2 "$file" | tail -c 1)")
    { echo "2 $letter $((2 * bytes)) $bytes"; cat "$file"; } >"$work/batch"
    both forms forms
    sed -e 1,3d -e '$d' "$work/found" >"$work/form"
    sed 's/ *$//' "$file" >"$work/cut"
    if cmp -s "$work/form" "$file"; then
        echo "the file"
    elif cmp -s "$work/form" "$work/cut"; then
        echo "the file, blanks cut"
    else
        echo "$(diff "$work/cut" "$work/form" | grep -ac '^>') other lines"
    fi
}

if [ $# -eq 0 ]; then fetch; else source=$1; fi
"$root/tests/compare.sh" build
find "${1:-$work/files}" -type f | sort >"$work/all"
while IFS= read -r file; do
    begins "$file" || continue
    bytes=$(($(wc -c <"$file")))
    { echo "$bytes 0 0 0 0 0 0 0 0"; cat "$file"; } >"$work/batch"
    both tables files
    answer=$(answer_of)
    rewriting=–
    [ "$answer" != accepted ] || rewriting=$(rewriting_of)
    echo "| $(basename "$file") | $bytes | $(head -c 2 "$file" | tail -c 1) | $answer | $rewriting |"
done <"$work/all" >"$work/rows"
[ -s "$work/rows" ] || nothing "no SP3 file lies in $source"
printf '%s, %s\n\n| file | bytes | version | answer | rewritten |\n|---|---|---|---|---|\n' "$source" "$(date -u +%F)"
cat "$work/rows"
