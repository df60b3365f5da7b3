#!/bin/sh
# Tests of what stands in this folder. Installs nothing.
#
# usage: sh klayout/test.sh [FOLDER]
#
# First markers.py, parts of menu.py and the markers of dplview are tested by Python alone. Then, where
# KLayout is there, the examples, layouts with faults and each file *.gds in FOLDER go through dpl and
# KLayout in batch mode, and the menu entry is tried in a window that no screen shows. The program dpl
# is $DPL, or the one that was built in this checkout, or the one on the PATH; so is dplview, $DPLVIEW,
# whose tests are skipped where there is none.
set -eu
here=$(CDPATH='' cd -- "$(dirname -- "$0")" && pwd)

fail() {
    echo "klayout/test.sh: $1" >&2
    exit 1
}

# path_of NAME GIVEN: where a program is, and nothing where it is nowhere.
path_of() {
    built=$here/../crates/$1/out/$1
    if [ -n "$2" ]; then
        command -v -- "$2" || fail "no program $2"
    elif [ -x "$built" ]; then
        echo "$built"
    else
        command -v "$1" || true
    fi
}

folder=${1:-}
[ -z "$folder" ] || [ -d "$folder" ] || fail "no folder $folder"
dpl=$(path_of dpl "${DPL:-}")
[ -n "$dpl" ] || fail "no program dpl: build it (sh install.sh), or name it by DPL"
view=$(path_of dplview "${DPLVIEW:-}")
DPL=$dpl DPLVIEW=$view python3 -B "$here/test_markers.py"
command -v klayout >/dev/null 2>&1 || {
    echo "klayout/test.sh: KLayout isn't installed, so what needs it was skipped"
    exit 0
}
klayout -b -rd dpl="$dpl" -rd view="$view" -rd files="$folder" -r "$here/test_views.py"

# The menu entry, in a window that no screen shows, with settings of its own.
home=$(mktemp -d)
trap 'rm -rf "$home"' EXIT
trap 'exit 1' HUP INT TERM
mkdir "$home/programs" "$home/temporary"
ln -s "$(realpath "$dpl")" "$home/programs/dpl"
HOME=$home TMPDIR=$home/temporary PATH=$home/programs:$PATH DPL_EXAMPLES=$here/../examples QT_QPA_PLATFORM=offscreen \
    timeout -s KILL 300 klayout -z -rm "$here/dpl.lym" -rm "$here/test_menu.py" </dev/null
