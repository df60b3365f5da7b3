#!/bin/sh
# Counts the stitches that `dpl split --fewer` saves, and times it beside the same split without the flag.
#
# usage: sh bench/fewer.sh DPL [ROUNDS LAYOUT ..]
#
# DPL is the program; LAYOUT one or more GDSII files, or of layouts.py as KIND:SIZE (default: bars:1000000
# stitched:100000). Each file is split by one worker, with --layer 1, a rule of 30 and an overlap of 10, or with the
# words of RULES, from the environment. The runs go in turn, ROUNDS times (default 3). Each line has the layout, the
# stitches without and with the flag, of both the least seconds of user and system and the MiB of that run, and the
# ratio of the seconds. With CHECK=1 the result is checked too. It ends with 1 where a run isn't done.
set -eu
here=$(CDPATH='' cd -- "$(dirname -- "$0")" && pwd)
. "$here/words.sh"
read_words 3 "" "$@"
if [ $# -gt 2 ]; then
    shift 2
else
    set -- bars:1000000 stitched:100000
fi
for layout; do
    file=$layout
    case $layout in
    *:*)
        if [ ! -e "$layout" ]; then
            file=$work/in.gds
            python3 -B "$here/layouts.py" "${layout%%:*}" "${layout#*:}" 1 "$file"
        fi
        ;;
    esac
    measure "$dpl" "$second" "$layout" "$file" "$work" "${RULES:---layer 1 --rule 30 --overlap 10}" "${CHECK:-}" <<'PY'
import re, sys
import timed
dpl, rounds, layout, file, work, rules, check = sys.argv[1:]
rules, files = rules.split(), [file, work + "/out.gds", work + "/cert"]
least = {}
for _ in range(int(rounds)):
    for flags in ((), ("--fewer",)):
        done = timed.run_to((0,), [dpl, "split", *rules, "--workers", "1", *flags, *files])
        least[flags] = min(least.get(flags, done), done, key=lambda one: one.used)
plain, fewer = least.values()
stitches = [re.search(r"stitches (\d+)", one.said)[1] for one in (plain, fewer)]
print("%-16s stitches %s, with --fewer %s; %.2f s %.0f MiB, with --fewer %.2f s %.0f MiB, %s" % (
    layout, *stitches, plain.used, plain.mib, fewer.used, fewer.mib, timed.times(fewer.used, plain.used)), flush=True)
if check:
    print("%-16s %s" % (layout, timed.run_to((0,), [dpl, "check", *rules, *files]).said.strip()), flush=True)
PY
done
