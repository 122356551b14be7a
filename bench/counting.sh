# Sourced by the counts of this folder, which work in a temporary folder: nothing of it stands in the repository but target/.
#   archive             proves and builds target/staticlib/libsp3.a, what include/sp3.h is linked with, and goes to the temporary folder
#   doors NAME CRATE..  goes there and builds doors of its own, NAME.rt.txt over these crates, for what sp3.h does not show
#   harness NAME WORD.. compiles NAME.c of this folder to NAME, for x86-64, with these words for the compiler, and links it with what was built
#   counted NAME WORD.. runs it on these words and puts what it printed into said and, of each run that it counted (count.h), a line
#                       `name count` into counts
# most is the number of satellites that a file has at most.
# Instructions are counted, not timed: on x86-64 by valgrind (callgrind), on another processor by Debian's qemu-user with the plugin insns.c. Both
# count the same; COUNTER=qemu takes the second on x86-64 too. What is missing is installed where apt-get can do so.
# The C library fills a long stretch by one repeated instruction, which both count once a byte: it is told to fill by vector stores.
export GLIBC_TUNABLES=glibc.cpu.x86_rep_stosb_threshold=1000000000
bench=$(cd "$(dirname "$0")" && pwd -P)
root=$(dirname "$bench")
most=$(sed -n 's/^#define SP3_MOST_SATELLITES //p' "$root/include/sp3.h")
work=$(mktemp -d)
trap 'rm -rf "$work"' EXIT
counter=${COUNTER:-qemu}
[ "$(uname -m)" != x86_64 ] || counter=${COUNTER:-valgrind}
compiler=x86_64-linux-gnu-gcc

# need COMMAND PACKAGE..
need() {
    command -v "$1" >/dev/null && return
    if [ "$(id -u)" = 0 ] && command -v apt-get >/dev/null; then
        { apt-get update && apt-get install -y --no-install-recommends "${@:2}"; } >"$work/apt" 2>&1 || true
    fi
    command -v "$1" >/dev/null || { echo "$1 is missing: install ${*:2}"; exit 2; }
}

tools() {
    command -v rt >/dev/null || { echo "rt of the Rattle kit is missing"; exit 2; }
    if [ "$(uname -m)" = x86_64 ]; then need "$compiler" gcc libc6-dev; else need "$compiler" gcc-x86-64-linux-gnu libc6-dev-amd64-cross; fi
    case $counter in
    valgrind) need valgrind valgrind ;;
    qemu) need qemu-x86_64 qemu-user && need gcc gcc libc6-dev ;;
    esac
}

archive() {
    tools
    "$root/tests/archive.sh"
    built=$root/target/staticlib/libsp3.a
    cd "$work"
}

# What was proved in the repository is not proved again as long as rt finds it unchanged.
doors() {
    tools
    name=$1
    shift
    mkdir -p "$work/crates/doors/src"
    for crate in "$@"; do
        mkdir "$work/crates/$crate"
        for part in src specs proofs; do
            [ ! -d "$root/crates/$crate/$part" ] || cp -R "$root/crates/$crate/$part" "$work/crates/$crate/"
        done
        grep "^$crate:" "$root/crates.txt" >>"$work/crates.txt"
    done
    cp "$bench/$name.rt.txt" "$work/crates/doors/src/lib.rt"
    printf 'doors staticlib: %s\n' "$*" >>"$work/crates.txt"
    (cd "$work/crates/doors" && rt lib --cpu x86-64) >"$work/log" 2>&1 || { tail -n 20 "$work/log"; exit 1; }
    built=$work/crates/doors/out/libdoors.a
    cd "$work"
}

harness() {
    name=$1
    shift
    "$compiler" -std=gnu11 -Wall -Wextra -Werror -O2 -march=x86-64 -static "$@" -o "$name" "$bench/$name.c" "$built"
}

# the counts of a run, one a line, in their order
by_valgrind() {
    rm -f dump*
    valgrind --tool=callgrind --callgrind-out-file=dump --zero-before=count_from --dump-before=count_to "$@" >said 2>log || { cat said log; return 1; }
    for k in $(seq "$(grep -c '^counted ' said)"); do awk '/^totals:/ { print $2 }' "dump.$k"; done
}

by_qemu() {
    [ -f libinsns.so ] || gcc -shared -fPIC -O2 -o libinsns.so "$bench/insns.c"
    { qemu-x86_64 -plugin ./libinsns.so "$@" >said; } 2>&1 || { cat said; return 1; }
}

counted() {
    program=./$1
    shift
    "by_$counter" "$program" "$@" >numbers </dev/null || { cat numbers; exit 1; }
    sed -n 's/^counted //p' said | paste -d ' ' - numbers >counts
    [ "$(wc -l <numbers)" = "$(grep -c '^counted ' said)" ] || { echo "not every run was counted"; exit 1; }
}

# runs a program that is not counted
run() {
    program=./$1
    shift
    if [ "$(uname -m)" = x86_64 ]; then "$program" "$@"; else qemu-x86_64 "$program" "$@"; fi
}

# calls NUMBER NAME: counts NAME, which makes so many calls of each function, with its C at -O2 and at -O3; row TITLE WHAT prints a line of the table
calls() {
    number=$1
    for level in 2 3; do
        harness "$2" "-O$level"
        counted "$2"
        mv counts "counts$level"
    done
    printf '%-34s %5s %9s %9s\n' instructions ours 'C at -O2' 'C at -O3'
}

row() {
    awk -v title="$1" -v what="$2" -v number="$number" '
        $1 == what { cost[FILENAME, ++seen[FILENAME]] = $2 }
        function mean(file, k) { return (file, k) in cost ? sprintf("%.0f", (cost[file, k] - cost[file, 1]) / number) : "-" }
        END { printf "%-34s %5s %9s %9s\n", title, mean("counts2", 2), mean("counts2", 3), mean("counts3", 3) }' counts2 counts3
}
