#!/bin/sh
# Times the installed dpl on made-up layouts of growing size, and prints how the time grows.
#
# usage: sh bench/growth.sh DPL [KIND [SIZE ..]]
#
# DPL is the program; KIND one or more of layouts.py, as one word (default: "bars dense mesh scatter polygons"). Each
# line has the kind, the size, the seconds by the clock, the greatest memory in MiB, the status, the answer, and how
# many times as long as the line before it took. OPTIONS, from the environment, is passed to split, as
# OPTIONS="--tile 64 --workers 2"; with CHECK=1 the result is checked too, on a line of its own. It ends with 1 where
# a run has no answer, or the check finds a property broken.
set -eu
here=$(CDPATH='' cd -- "$(dirname -- "$0")" && pwd)
. "$here/words.sh"
read_words "bars dense mesh scatter polygons" "1000 10000 100000 1000000" "$@"
for kind in $second; do
    # shellcheck disable=SC2086
    measure "$dpl" "$here/layouts.py" "$work" "${OPTIONS:-}" "${CHECK:-}" "$kind" $rest <<'PY'
import subprocess, sys
import timed
dpl, layouts, work, options, check, kind, *sizes = sys.argv[1:]
rules = ["--layer", "1", "--rule", "30", "--overlap", "10"]
files = [work + "/" + name for name in ("in.gds", "out.gds", "cert")]
commands = {"split": options.split()}
if check:
    commands["check"] = []
before = {}
for size in sizes:
    if subprocess.run([sys.executable, "-B", layouts, kind, size, "1", files[0]]).returncode:
        sys.exit(1)
    for command, more in commands.items():
        done = timed.run_to((0, 1, 2), [dpl, command, *rules, *more, *files])
        growth = " x%.1f" % (done.seconds / before[command]) if command in before else ""
        print("%-9s %-5s %8s %8.2f s %7.0f MiB %d %s%s" % (
            kind, command, size, done.seconds, done.mib, done.status, done.said.strip()[:60], growth), flush=True)
        before[command] = done.seconds
PY
done
