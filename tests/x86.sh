# Sourced by scripts that compile C for x86-64, which is what the library's archive is for, and run it:
#
#   x86_cc ARGS..             compiles and links, as gcc does
#   x86_run PROGRAM ARGS..    runs a program that x86_cc linked
#
# On x86-64 this is gcc and nothing else. On another processor it is Debian's cross compiler, with programs that need no shared library, and Debian's
# emulator; x86_emulator is then its path, and empty otherwise. SP3_CROSS=1 takes this way on x86-64 too. What is missing is
# installed with apt-get where the script runs as root; otherwise it is named and the script ends with 2.

x86_cross=${SP3_CROSS:-0}
[ "$(uname -m)" = x86_64 ] || x86_cross=1
x86_emulator=

x86_cc() {
    if [ "$x86_cross" = 0 ]; then gcc "$@"; else x86_64-linux-gnu-gcc -static "$@"; fi
}

x86_run() { ${x86_emulator:+"$x86_emulator"} "$@"; }

# Installs these packages: x86_install WHAT-IS-MISSING PACKAGE..
x86_install() {
    x86_missing=$1
    shift
    if [ "$(id -u)" != 0 ] || ! command -v apt-get >/dev/null; then
        echo "$x86_missing is missing: install $*" >&2
        exit 2
    fi
    echo "$x86_missing is missing: installing $*" >&2
    x86_said=$({ apt-get update && DEBIAN_FRONTEND=noninteractive apt-get install -y --no-install-recommends "$@"; } </dev/null 2>&1) || {
        printf '%s\n' "$x86_said" | tail -n 5 >&2
        exit 2
    }
}

# Whether a program can be linked.
x86_links() {
    x86_made=$(mktemp)
    x86_status=0
    printf '#include <stdio.h>\nint main(void) { return puts("") == EOF; }\n' | x86_cc -x c -o "$x86_made" - 2>/dev/null || x86_status=1
    rm -f "$x86_made"
    return "$x86_status"
}

# Debian's emulator.
x86_find_emulator() {
    x86_emulator=$(command -v qemu-x86_64)
}

x86_packages="gcc libc6-dev"
[ "$(uname -m)" = x86_64 ] || x86_packages="gcc-x86-64-linux-gnu libc6-dev-amd64-cross"
x86_links || x86_install "a C compiler for x86-64" $x86_packages
if [ "$x86_cross" != 0 ] && ! x86_find_emulator; then
    x86_install "an emulator of x86-64" qemu-user
    x86_find_emulator
fi
