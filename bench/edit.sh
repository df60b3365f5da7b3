#!/bin/sh
# Times `dpl edit` with one edit, and with many, beside a split of the same file.
#
# usage: sh bench/edit.sh DPL [KIND COUNT ..]
#
# DPL is the program, KIND a kind of layouts.py and COUNT how many shapes its files have (default: bars, of 10000,
# 100000 and 1000000). One edit takes a rectangle away in the lowest row, 100000 add and take away rectangles of 100 by
# 20 units over the whole layout, one after another. The three go in turn, ROUNDS times (from the environment,
# default: 5), with one worker; printed are the least seconds of user and system of each, and how many times as long as
# the split each of them takes. It ends with 1 where a run isn't done.
set -eu
here=$(CDPATH='' cd -- "$(dirname -- "$0")" && pwd)
. "$here/words.sh"
read_words bars "10000 100000 1000000" "$@"
for count in $rest; do
    python3 -B "$here/layouts.py" "$second" "$count" 1 "$work/in.gds"
    measure "$dpl" "$work" "$second" "$count" "${ROUNDS:-5}" <<'PY'
import sys
import timed
dpl, work, kind, count, rounds = sys.argv[1:]
rows = int(int(count) ** 0.5)
with open(work + "/one", "w") as out:
    out.write("remove 300 0 700 20\n")
with open(work + "/many", "w") as out:
    for i in range(100000):
        x, y = i * 7919 % (rows * 600), i * 104729 % rows * 60
        out.write("%s %d %d %d %d\n" % ("add" if i % 2 else "remove", x, y, x + 100, y + 20))
words = ["--layer", "1", "--rule", "30", "--overlap", "10"]
files = [work + "/out.gds", work + "/out.cert"]
runs = {
    "split": [dpl, "split", *words, "--workers", "1", work + "/in.gds", *files],
    "one edit": [dpl, "edit", *words, work + "/in.gds", work + "/one", *files],
    "100000 edits": [dpl, "edit", *words, work + "/in.gds", work + "/many", *files],
}
best = {}
for _ in range(int(rounds)):
    for name, line in runs.items():
        used = timed.run_to((0,), line).used
        best[name] = min(best.get(name, used), used)
print("%s %s" % (kind, count), end="")
for name, seconds in best.items():
    print(", %s %.2f s (%s)" % (name, seconds, timed.times(seconds, best["split"])), end="")
print()
PY
done
