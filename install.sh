#!/bin/sh
# Proves and builds dpl and dplview, installs them, and runs a first split.
#
# usage: sh install.sh [PREFIX]
#
# The programs go to PREFIX/bin; without PREFIX to the folder bin in your home folder.
# It needs the Rattle kit (its command rt) on the PATH, Python 3 and about 3 GB of disk.
set -eu
top=$(CDPATH='' cd -- "$(dirname -- "$0")" && pwd)

fail() {
    echo "install.sh: $1" >&2
    exit 1
}

prefix=${1:-$HOME}
case "$# $prefix" in
"0 "* | "1 "[!-]*) ;;
*) fail "usage: sh install.sh [PREFIX]" ;;
esac
for command in rt python3; do
    command -v "$command" >/dev/null 2>&1 || fail "the command $command is not on the PATH"
done
kit=$(rt version) || fail "rt version ended with $?"
mkdir -p "$prefix/bin"
bin=$(CDPATH='' cd -- "$prefix/bin" && pwd)
[ -w "$bin" ] || fail "the folder $bin can't be written to"
work=$(mktemp -d)
trap 'rm -rf "$work" "$bin/dpl.part" "$bin/dplview.part"' EXIT
trap 'exit 1' HUP INT TERM

echo "each program is proved crate by crate before it is built, with $kit"
python3 "$top/tools/prove.py" "$top" || fail "nothing was installed"
for program in dpl dplview; do
    # Put in place at once: an earlier one may be running.
    cp "$top/crates/$program/out/$program" "$bin/$program.part"
    mv -f "$bin/$program.part" "$bin/$program"
done

echo "a first split: two bars 29 units apart, with a rule of 30"
"$bin/dpl" split --layer 1 --rule 30 --overlap 10 "$top/examples/two-bars.gds" "$work/masks.gds" "$work/masks.cert" ||
    fail "$bin/dpl ended with $?"
cat "$work/masks.cert"
echo "dpl and dplview are installed: $bin/dpl, $bin/dplview"
case ":$PATH:" in
*":$bin:"*) ;;
*) echo "to call them by their names, add their folder to the PATH: export PATH=\"$bin:\$PATH\"" ;;
esac
