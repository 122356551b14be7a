#!/bin/sh
# Proves the library, builds its archive for C and over it the desk tool, target/desk/sp3:
#
#   desk/build.sh
#
# What the archive stands on is proved from nothing the first time, which takes minutes; nothing is proved where no source has changed since. On a
# processor other than x86-64 target/desk/sp3 starts the emulator, so that it is used in the same way.
set -eu

root=$(cd "$(dirname "$0")/.." && pwd -P)
cd "$root"
. tests/x86.sh
tests/archive.sh

archive=target/staticlib/libsp3.a
made=target/desk
mkdir -p "$made"
x86_cc -std=c11 -Wall -Wextra -O2 -o "$made/sp3.new" desk/*.c "$archive"
if [ -n "$x86_emulator" ]; then
    mv "$made/sp3.new" "$made/sp3.x86"
    cat >"$made/sp3.new" <<END
#!/bin/sh
exec "$x86_emulator" "\$(dirname "\$(readlink -f "\$0")")/sp3.x86" "\$@"
END
    chmod +x "$made/sp3.new"
fi
mv "$made/sp3.new" "$made/sp3"
