#!/bin/sh
# Tests the Rust wrapper (rust/sp3) and the C example (examples/c) over the archive of the proved library:
#
#   tests/wrapper.sh
#
# The archive is built first where it is missing or older than a source; SP3_LIB_DIR names the folder of another one. What the wrapper takes
# include/sp3.h to be (structs, fields, constants, functions, the numbers in words) is held to what the header says, and the most satellites of the
# header and its bounds of SP3-c to those of the proved source. The archive is for x86-64: on another processor Rust's target x86_64-unknown-linux-gnu
# is needed; without it the wrapper is only checked. Prints `wrapper: passed`, or what failed, and then ends with 1.
set -eu

root=$(cd "$(dirname "$0")/.." && pwd -P)
crate=$root/rust/sp3
made=$(mktemp -d)
trap 'rm -rf "$made"' EXIT
target=x86_64-unknown-linux-gnu
words='-std=c11 -Wall -Wextra -Werror -O2'

fail() {
    printf 'wrapper: %s\n' "$1" >&2
    exit 1
}

. "$root/tests/x86.sh"

# same NAME EXPECTED FOUND: two files are the same
same() {
    diff "$2" "$3" >&2 || fail "$1"
}

# answers NAME STATUS EXPECTED COMMAND..: the command ends with this status and prints this file
answers() {
    name=$1 status=$2 expected=$3
    shift 3
    ended=0
    "$@" >"$made/printed" 2>"$made/said" || ended=$?
    [ "$ended" = "$status" ] || {
        cat "$made/said" >&2
        fail "$name: ended with $ended, not $status"
    }
    same "$name" "$expected" "$made/printed"
}

# says NAME STATUS LINE COMMAND..: the command ends with this status, prints nothing and says this line
says() {
    name=$1 status=$2 line=$3
    shift 3
    answers "$name" "$status" /dev/null "$@"
    printf '%s\n' "$line" >"$made/expected"
    same "$name" "$made/expected" "$made/said"
}

# The archive, built where that is not done.
find_archive() {
    library=${SP3_LIB_DIR:-$root/target/staticlib}
    if [ -n "${SP3_LIB_DIR:-}" ]; then
        [ -f "$library/libsp3.a" ] || fail "no file $library/libsp3.a"
        return 0
    fi
    "$root/tests/archive.sh"
}

# script NAME FUNCTION: a program that calls a function of tests/x86.sh
script() {
    printf '#!/bin/sh\nroot="%s"\n. "$root/tests/x86.sh"\n%s "$@"\n' "$root" "$2" >"$made/$1"
    chmod +x "$made/$1"
}

# Has cargo link and run by tests/x86.sh: programs that need no shared library, as an emulator runs them.
link_for_x86() {
    script x86-gcc x86_cc
    script x86-run x86_run
    export CARGO_TARGET_X86_64_UNKNOWN_LINUX_GNU_LINKER="$made/x86-gcc"
    export CARGO_TARGET_X86_64_UNKNOWN_LINUX_GNU_RUNNER="$made/x86-run"
    RUSTFLAGS="$RUSTFLAGS -Ctarget-feature=+crt-static -Crelocation-model=static"
    RUSTDOCFLAGS="$RUSTDOCFLAGS -Ctarget-feature=+crt-static -Crelocation-model=static"
}

# cargo_in WORDS..: cargo on the wrapper, quiet where all is well
cargo_in() {
    (cd "$crate" && cargo "$@") >"$made/log" 2>&1 || {
        cat "$made/log" >&2
        fail "cargo $1"
    }
}

# The header without its comments, with what it defines.
bare_header() {
    x86_cc -fpreprocessed -dD -E -P -x c "$root/include/sp3.h"
}

# How a C program prints a struct, a field and a constant.
layout_macros() {
    cat <<'END'
#include "sp3.h"
#include <stdio.h>
#define KIND(x) _Generic(x, bool: "truth", uint8_t: "byte", uint64_t: "unsigned", int64_t: "signed", double: "float", \
                         uint8_t *: "bytes", default: "struct")
#define STRUCT(s) printf("struct %s %zu\n", #s, sizeof(s));
#define FIELD(s, f) printf("field %s.%s %zu %zu %s\n", #s, #f, offsetof(s, f), sizeof(((s *)0)->f), KIND(((s *)0)->f));
#define CONSTANT(c) printf("constant %s %lld\n", #c, (long long)(c));
END
}

# A line for each struct, field and constant of the header: NAME, NAME and FIELD, NAME, as calls of those macros. A constant is every name that begins
# with SP3_, of an enum or defined, but for SP3_H, which keeps the header from being included twice.
layout_calls() {
    bare_header | tr '\n' ' ' | awk '
        function taken(pattern,    text) {
            if (!match(rest, pattern)) return ""
            text = substr(rest, RSTART, RLENGTH)
            rest = substr(rest, RSTART + RLENGTH)
            return text
        }
        function fields(name, body,    parts, names, i, k, n, m) {
            n = split(body, parts, ";")
            for (i = 1; i < n; i++) {
                sub(/^ *[a-z0-9_]+ /, "", parts[i])
                m = split(parts[i], names, ",")
                for (k = 1; k <= m; k++) {
                    gsub(/ |\[[0-9]*\]/, "", names[k])
                    print "FIELD(" name ", " names[k] ")"
                }
            }
        }
        {
            rest = $0
            while ((text = taken("typedef struct *[{][^}]*[}] *[a-z0-9_]+;")) != "") {
                split(text, halves, /[{}]/)
                gsub(/[ ;]/, "", halves[3])
                print "STRUCT(" halves[3] ")"
                fields(halves[3], halves[2])
            }
            rest = $0
            while ((text = taken("SP3_[A-Z0-9_]+")) != "")
                if (text != "SP3_H" && !seen[text]++) print "CONSTANT(" text ")"
        }'
}

# Structs, fields and constants as C has them.
print_layout() {
    { layout_macros && echo 'int main(void) {' && layout_calls && echo 'return 0; }'; } >"$made/layout.c"
    x86_cc $words -I "$root/include" -o "$made/layout" "$made/layout.c" || fail 'a C program that prints the layout does not compile'
    x86_run "$made/layout" | sort >"$made/layout_of_c"
    [ "$(grep -c '^struct ' "$made/layout_of_c")" -ge 20 ] || fail 'structs of include/sp3.h were not found'
}

# compare_bound FILE NAME CONSTANT: a constant of the header is the one that a file of crates/header has
compare_bound() {
    number=$(sed -n "s/^ *\(pub \)*const $2: u64 = \([0-9_]*\);\$/\2/p" "$root/crates/header/src/$1" | tr -d _)
    echo "constant $3 $number" >"$made/by_source"
    grep "^constant $3 " "$made/layout_of_c" >"$made/found" || :
    same "$2 of crates/header/src/$1 (<) and $3 of include/sp3.h (>) differ" "$made/by_source" "$made/found"
}

# The most satellites of the header, and its bounds of SP3-c, are those of the proved source.
compare_bounds() {
    compare_bound making.rt MAX_SATELLITES SP3_MOST_SATELLITES
    compare_bound versions.rt MOST_SATELLITES_C SP3_MOST_SATELLITES_C
    compare_bound making.rt MIN_COMMENTS SP3_COMMENTS_C
    compare_bound versions.rt COMMENT_COLUMNS_C SP3_COMMENT_COLUMNS_C
}

# Structs, fields and constants of the wrapper are those that C has.
compare_layout() {
    grep -E '^(struct|field|constant) ' "$made/by_rust" | sort >"$made/found" || :
    same 'structs, fields and constants of include/sp3.h (<) and rust/sp3 (>) differ' "$made/layout_of_c" "$made/found"
}

# Functions are those that the header declares: each declared again as the wrapper has it, which C refuses where a type differs.
compare_functions() {
    { echo '#include "sp3.h"' && sed -n 's/^declared //p' "$made/by_rust"; } >"$made/declared.c"
    x86_cc $words -I "$root/include" -fsyntax-only "$made/declared.c" || fail 'functions of include/sp3.h and rust/sp3/src/ffi.rs differ'
    bare_header | grep -o 'sp3_[a-z_]*(' | sort >"$made/by_c"
    sed -n 's/^declared //p' "$made/by_rust" | grep -o 'sp3_[a-z_]*(' | sort >"$made/found"
    same 'functions of include/sp3.h (<) and rust/sp3/src/ffi.rs (>) differ' "$made/by_c" "$made/found"
}

# The numbers in words are those of the table in the header, without what stands in brackets and what says which column is told.
compare_words() {
    sed -n 's/^ \*  *\([0-9][0-9]*\)  \(.*\)$/words \1 \2/p' "$root/include/sp3.h" | sed -e 's/ (.*)$//' -e 's/; column: .*$//' >"$made/by_c"
    grep '^words ' "$made/by_rust" >"$made/found" || :
    same 'the numbers in words of include/sp3.h (<) and rust/sp3/src/refusal.rs (>) differ' "$made/by_c" "$made/found"
}

# Files beside the sample: one that ends too early, one with seven places in x, one of no bytes, one whose place is absent and whose clock is 0, and
# the sample in SP3-c.
make_files() {
    sample=$root/samples/paper.sp3
    head -n 21 "$sample" >"$made/short.sp3"
    sed 's/  5000\.000001/ 5000.0000001/' "$sample" >"$made/places.sp3"
    : >"$made/empty.sp3"
    zero='      0.000000'
    sed "s/^PG07.*/PG07$zero$zero$zero$zero/" "$sample" >"$made/withdrawn.sp3"
    sed '1s/^#d/#c/' "$sample" >"$made/older.sp3"
}

# An example program on the sample, on files that are refused, and where there is no file.
run_example() {
    name=$1 expected=$2 usage=$3
    shift 3
    answers "$name" 0 "$expected" "$@" "$sample"
    answers "$name, refused" 1 /dev/null "$@" "$made/short.sp3"
    grep -q "^$made/short.sp3: refused 1 line 22" "$made/said" || fail "$name: no refusal in words"
    answers "$name, refused with a column" 1 /dev/null "$@" "$made/places.sp3"
    grep -q "^$made/places.sp3: refused 6 line 24 column 5" "$made/said" || fail "$name: no column of a refusal"
    answers "$name, no bytes" 1 /dev/null "$@" "$made/empty.sp3"
    answers "$name, no file" 2 /dev/null "$@" "$made/nothing.sp3"
    answers "$name, a folder" 2 /dev/null "$@" "$made"
    says "$name, no word" 2 "$usage" "$@"
}

wrapper_tests() {
    export RUSTFLAGS=-Dwarnings RUSTDOCFLAGS=-Dwarnings CARGO_TARGET_DIR="$root/target/cargo"
    if [ "$(uname -m)" = x86_64 ]; then
        set --
    elif [ -d "$(rustc --print sysroot)/lib/rustlib/$target" ]; then
        set -- --target "$target"
        link_for_x86
    else
        cargo_in check --offline --locked --all-targets
        echo "wrapper: checked only: the tests of the wrapper need Rust's target $target"
        return 0
    fi
    cargo_in test --offline --locked "$@"
    cargo_in test --offline --locked --lib "$@" -- --ignored --nocapture layout
    cp "$made/log" "$made/by_rust"
    compare_layout
    compare_functions
    compare_words
    cargo_in doc --offline --locked --no-deps "$@"
    cargo_in build --offline --locked --examples "$@"
    built=$CARGO_TARGET_DIR${2:+/$2}/debug/examples
    known=$built/known
    run_example known "$crate/examples/known.out" 'known FILE' x86_run "$known"
    printf 'G07 known 0 absent 1\nall known 0 absent 1\n' >"$made/withdrawn.out"
    answers 'known, a place that is absent' 0 "$made/withdrawn.out" x86_run "$known" "$made/withdrawn.sp3"
    answers 'known, a file in SP3-c' 0 "$crate/examples/known.out" x86_run "$known" "$made/older.sp3"
    answers notes 0 "$crate/examples/notes.out" x86_run "$built/notes" "$root/samples/correlations.sp3"
    run_example older "$made/older.sp3" 'older FILE' x86_run "$built/older"
    answers 'older, a file in SP3-c' 0 "$made/older.sp3" x86_run "$built/older" "$made/older.sp3"
    outside='refused 17 line 0: the table to be written is outside the bounds of SP3-c'
    says 'older, too many satellites' 1 "$root/samples/combined.sp3: $outside" x86_run "$built/older" "$root/samples/combined.sp3"
}

c_example() {
    x86_cc $words "$@" -I "$root/include" -o "$made/rows" "$root/examples/c/rows.c" "$library/libsp3.a" || fail 'examples/c/rows.c'
    run_example rows "$root/examples/c/rows.out" 'rows FILE' x86_run "$made/rows"
    printf 'epoch 0 G07 place absent clock 0\nrows 1 known 0 absent 1\n' >"$made/withdrawn.out"
    answers 'rows, a place that is absent' 0 "$made/withdrawn.out" x86_run "$made/rows" "$made/withdrawn.sp3"
    answers 'rows, a file in SP3-c' 0 "$root/examples/c/rows.out" x86_run "$made/rows" "$made/older.sp3"
}

command -v cargo >/dev/null || fail 'cargo is needed for the tests of rust/sp3'
print_layout
compare_bounds
find_archive
make_files
c_example
[ "$(uname -m)${x86_emulator:-}" != x86_64 ] || c_example -fsanitize=address,undefined -fno-sanitize-recover=all
wrapper_tests
echo 'wrapper: passed'
