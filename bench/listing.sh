#!/bin/sh
# Times `dplview conflicts` beside `dpl split`, on a layout of which every shape is in a conflict.
#
# usage: sh bench/listing.sh DPL DPLVIEW [COUNT]
#
# DPL and DPLVIEW are the programs, COUNT the number of triangles of layouts.py (default: 333333, a million
# shapes). Each line has what was run, the least seconds of user and system of ROUNDS runs in turn (from the
# environment, default: 3), by one worker, and its ratio to the split. It ends with 1 where a run doesn't end
# with 1, the status of a conflict.
set -eu
here=$(CDPATH='' cd -- "$(dirname -- "$0")" && pwd)
. "$here/words.sh"
[ $# -eq 2 ] || [ $# -eq 3 ] || usage
begin "$1" "$2"
python3 -B "$here/layouts.py" triangles "${3:-333333}" 1 "$work/in.gds"
measure "$1" "$2" "$work" "${ROUNDS:-3}" <<'PY'
import sys
import timed
dpl, dplview, work, rounds = sys.argv[1:]
rules = ["--layer", "1", "--rule", "30", "--overlap", "10", "--workers", "1"]
files = [work + "/" + name for name in ("in.gds", "out", "cert")]
runs = {
    "split": [dpl, "split"] + rules + files,
    "lines": [dplview, "conflicts"] + rules + files[:1],
    "JSON": [dplview, "conflicts", "--json"] + rules + files[:1],
    "lines and markers": [dplview, "conflicts"] + rules + files[:2],
    "JSON and markers": [dplview, "conflicts", "--json"] + rules + files[:2],
}
least = {}
for _ in range(int(rounds)):
    for name, words in runs.items():
        used = timed.run_to((1,), words).used
        least[name] = min(least.get(name, used), used)
for name, used in least.items():
    print("%-18s %7.2f s %s" % (name, used, timed.times(used, least["split"])), flush=True)
PY
