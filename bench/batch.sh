#!/bin/sh
# Times `dpl batch` over many layers of a file beside the splits of these layers, one after another.
#
# usage: sh bench/batch.sh DPL [FILE LAYER ..]
#
# DPL is the program, FILE a GDSII file and LAYER layers of it (default: two copies of `bars` of layouts.py, on the
# layers 1 and 2). The words RULES and WORKERS, from the environment, stand in each command (default: --rule 30
# --overlap 10, and 4). Batch and splits go in turn, ROUNDS times (from the environment, default: 3). Printed are for
# both the least seconds by the clock, those of user and system in the same run, the MiB of the largest run, and the
# ratio of the seconds by the clock. It ends with 1 where a file, a line or the status of the batch isn't that of the
# splits, or a run has no answer.
set -eu
here=$(CDPATH='' cd -- "$(dirname -- "$0")" && pwd)
. "$here/words.sh"
read_words "" "1 2" "$@"
if [ -z "$second" ]; then
    second=$work/in.gds
    measure "$second" <<'PY'
import random, sys
import layouts
ON_LAYER_2 = layouts.record(0x08, 0) + layouts.record(0x0D, 2, b"\0\2") + layouts.record(0x0E, 2, b"\0\0")


def twice(elements):
    """Each element, and once more on layer 2."""
    for element in elements:
        yield element
        yield ON_LAYER_2 + element[len(layouts.BEGIN):]


layouts.write(sys.argv[1], layouts.structure("TOP", twice(layouts.bars(300000, random.Random(1)))))
PY
fi
# shellcheck disable=SC2086
measure "$dpl" "$second" "$work" "${ROUNDS:-3}" "${WORKERS:-4}" "${RULES:---rule 30 --overlap 10}" $rest <<'PY'
import filecmp, os, sys
import timed
dpl, file, work, rounds, workers, rules, *layers = sys.argv[1:]
words = rules.split() + ["--workers", workers]
ANSWERS = (0, 1, 2)


def batch():
    return timed.run_to(ANSWERS, [dpl, "batch", *words, file, work + "/b", *layers])


def splits():
    """The splits as one run, with the status and the lines that a batch has of them."""
    runs = []
    for layer in layers:
        made = [os.path.join(work, "s.%s.%s" % (layer, end)) for end in ("gds", "cert")]
        runs.append(timed.run_to(ANSWERS, [dpl, "split", "--layer", layer, *words, file, *made]))
    said = "".join("layer %s %s" % (layer, one.said) for layer, one in zip(layers, runs))
    return timed.Run(max(one.status for one in runs), said, sum(one.seconds for one in runs),
                     sum(one.used for one in runs), max(one.mib for one in runs))


def is_same(name):
    """Whether both made this file with the same bytes, or neither made it."""
    one, other = (os.path.join(work, letter + "." + name) for letter in "bs")
    if not os.path.exists(one) or not os.path.exists(other):
        return os.path.exists(one) == os.path.exists(other)
    return filecmp.cmp(one, other, shallow=False)


best = {}
for _ in range(int(rounds)):
    for name, call in (("batch", batch), ("splits", splits)):
        done = call()
        best[name] = min(best.get(name, done), done, key=lambda one: one.seconds)
if best["batch"][:2] != best["splits"][:2] or not all(is_same(layer + end) for layer in layers for end in (".gds", ".cert")):
    sys.exit("the batch differs from the splits")
print("layers %s workers %s" % (" ".join(layers), workers), end="")
for name, done in best.items():
    print(", %s %.2f s (user and system %.2f), %.0f MiB" % (name, done.seconds, done.used, done.mib), end="")
print(", " + timed.times(best["batch"].seconds, best["splits"].seconds))
PY
