#!/bin/sh
# Installs into a temporary folder, and uses only what is there: builds examples/gateway.c through pkg-config, sends and
# receives, formats the man pages. Then uninstalls, which must leave no file.
set -eu
cd "$(dirname "$0")/.."
work=$(mktemp -d)
trap 'rm -rf "$work"' EXIT
prefix=/some/prefix
there=$work/root$prefix

fail() { echo "install: $1" >&2; exit 1; }

make install DESTDIR="$work/root" PREFIX=$prefix >"$work/log" 2>&1 || { cat "$work/log" >&2; exit 1; }

if command -v pkg-config >/dev/null; then
    flags=$(PKG_CONFIG_LIBDIR=$there/lib/pkgconfig PKG_CONFIG_SYSROOT_DIR=$work/root pkg-config --cflags --libs tetra_modem)
else
    echo "install: NO PKG-CONFIG HERE, so tetra_modem.pc is read by sed"
    flags=$(sed -n -e 's/^Cflags: //p' -e 's/^Libs: //p' "$there/lib/pkgconfig/tetra_modem.pc" |
        sed -e "s|\${includedir}|$there/include|" -e "s|\${libdir}|$there/lib|")
fi
cp examples/gateway.c "$work"
(cd "$work" && gcc -std=c11 -Wall -Wextra -Werror -O2 -o gateway gateway.c $flags -lm && ./gateway >log) || fail "gateway.c: $flags"
echo "install: examples/gateway.c, built with the flags of tetra_modem.pc, is right"

printf 'empty\nsync %0366d\nnormal1 %0462d\n' 0 0 | "$there/bin/tetra_tx" | "$there/bin/tetra_rx" --quiet --no-bits >"$work/lines"
printf 'slot=1 sample=2054 type=sync errors=0\nslot=2 sample=3074 type=normal1 errors=0\n' | cmp - "$work/lines" || fail "the programs"

for page in "$there"/share/man/man1/*.1; do
    program=$(basename "$page" .1)
    [ -x "$there/bin/$program" ] || fail "$program.1 has no program"
    if command -v groff >/dev/null; then
        groff -man -ww -Tutf8 "$page" >"$work/page" 2>"$work/log"
        if [ -s "$work/log" ] || ! grep -q "$program" "$work/page"; then cat "$work/log" >&2; fail "$program.1"; fi
    fi
done
[ "$(ls "$there/bin")" = "$(ls "$there/share/man/man1" | sed 's/\.1$//')" ] || fail "a program has no man page"
if command -v groff >/dev/null; then echo "install: every program has a man page, which formats without a warning"; else echo "install: NO GROFF HERE, man pages not formatted"; fi

make uninstall DESTDIR="$work/root" PREFIX=$prefix >"$work/log" 2>&1 || { cat "$work/log" >&2; exit 1; }
left=$(find "$work/root" -type f)
[ -z "$left" ] || fail "left behind: $left"
echo "install: nothing is left after uninstall"
