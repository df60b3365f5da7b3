#!/bin/sh
# Times `dpl split` where many small tiles are posted, by two workers and by more.
#
# usage: sh bench/posting.sh DPL [SIZE [WORKERS ..]]
#
# DPL is the program, SIZE the COUNT of layouts.py (default: 2048), WORKERS numbers of workers (default: 2 4 64; one
# worker posts nothing, since it makes no tiles), KIND from the environment a kind of layouts.py (default: pairs).
# 2,048 pairs have 4,096 slabs; a layer of more has no tiles, so of a larger one this tells nothing of them.
#
# Such a layer is split in little time, so a time is that of RUNS splits one after another (from the environment,
# default: 100). Each line has the number of workers, the least of ROUNDS times by the clock (from the environment,
# default: 3) with small tiles, and the same with large ones, of which there are few; the two go in turn. The small
# ones have a side of 64, doubled while there would be too many, so each of the pairs has a tile of its own, with one
# edge. The difference is what so many tiles take, RUNS times. Behind it stands its ratio to that of the first line,
# where both are above 0. It ends with 1 where a run of dpl doesn't end with 0.
set -eu
here=$(CDPATH='' cd -- "$(dirname -- "$0")" && pwd)
. "$here/words.sh"
read_words 2048 "2 4 64" "$@"
kind=${KIND:-pairs}
python3 -B "$here/layouts.py" "$kind" "$second" 1 "$work/in.gds"
# shellcheck disable=SC2086
measure "$dpl" "$work" "${ROUNDS:-3}" "${RUNS:-100}" "$kind" "$second" $rest <<'PY'
import sys
import timed
dpl, work, rounds, runs, kind, size, *workers = sys.argv[1:]
files = [work + "/" + name for name in ("in.gds", "out.gds", "cert")]


def seconds(tile, many):
    """What the splits with tiles of this side by so many workers take together."""
    words = [dpl, "split", "--layer", "1", "--rule", "30", "--overlap", "10", "--tile", tile, "--workers", many, *files]
    return sum(timed.run_to((0,), words).seconds for _ in range(int(runs)))


first = None
for many in workers:
    small, large = map(min, zip(*((seconds("64", many), seconds("4096", many)) for _ in range(int(rounds)))))
    difference = small - large
    first = difference if first is None else first
    ratio = " " + timed.times(difference, first) if first > 0 and difference > 0 else ""
    print("%s %8s workers %2s %7.2f s in small tiles %7.2f s in large ones, difference %6.2f s%s" % (
        kind, size, many, small, large, difference, ratio), flush=True)
PY
