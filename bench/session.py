#!/usr/bin/env python3
"""Edits a layer in a session, times each edit, and compares the answer with that of a split of the layout as it is drawn then.

usage: session.py TOP DPL FILE COUNT [SEED [EVERY]]

TOP is the folder that holds crates.txt, with crates/dpl_session and what NEEDS has besides proved there. DPL is the program,
FILE a GDSII file as edits.py takes it, and COUNT edits are made up from SEED (default: 1) as there.

First a program is proved and built, TOP/out/session_run, of session_run.rattle beside this file. Its text isn't a .rt file, as
the gate proves and builds what is one. PROGRAM, from the environment, is one that was built so before. It opens a session on
layer 1 of FILE, with a rule of 30 and an overlap of 10, makes all edits one after the other, and says of the opening and of
each edit the microseconds by the clock that this alone took, the number of pieces, and a hash of the answer: of the lines of
its certificate that begin with `piece`. Of FILE, of the layout as it is drawn behind each EVERY edits (default: 1), and behind
the last one, a split by one worker must have as many pieces, and lines of the same hash.

It prints how many answers were compared, how many of them are in conflict and how many are wrong; the seconds of the opening;
the least, the median and the greatest milliseconds of an edit; and the median seconds of a split, by the clock, from file to
file. It ends with 0 where no answer is wrong, else with 1, and says where the files are."""
import os
import random
import shutil
import statistics
import subprocess
import sys
import tempfile

HERE = os.path.dirname(os.path.abspath(__file__))
sys.path.insert(0, os.path.join(HERE, "..", "tools"))
import edits
import prove
import timed

NAME = "session_run"
# What it stands on: crates of TOP, and of the kit.
NEEDS = ["dpl_spec_edits", "dpl_base", "dpl_host", "dpl_slabs", "dpl_layer", "dpl_edits", "dpl_orient", "dpl_session"]
KIT = ["anyhow"]
RULES = ["--rule", "30", "--overlap", "10"]
# The ledger over which its steps are counted is the one that it makes.
PICK = f"""use Rattle.{NAME}.proofs.main.Given as goal

abbrev pub ghosts-edit_in_turn : goal.ghosts-edit_in_turn
ghosts-edit_in_turn a = record {{ name = a.blank.name; parts = a.blank.parts }}
"""


def build(top):
    """Proves and builds the program over the libraries of TOP; gives its path."""
    lane, program = os.path.join(top, "out", "session"), os.path.join(top, "out", NAME)
    try:
        folder = prove.open_crate(top, lane, NAME, NEEDS + KIT, os.path.join(HERE, NAME + ".rattle"))
        os.makedirs(os.path.join(folder, "proofs", "main"))
        with open(os.path.join(folder, "proofs", "main", "Invariants.antt"), "w", encoding="utf-8") as file:
            file.write(PICK)
        shutil.copy(prove.build_crate(folder, NAME), program)
    finally:
        # What lies below TOP may have no crates.txt of its own.
        prove.clear(lane)
    return program


def answer_of(cert):
    """What a certificate says of pieces: how many there are, and the 64-bit FNV-1a hash of the lines that begin with `piece`."""
    count, bits = None, 0xCBF29CE484222325
    with open(cert, "rb") as lines:
        for line in lines:
            if line.startswith(b"features "):
                count = int(line.split()[3])
            elif line.startswith(b"piece "):
                for byte in line:
                    bits = (bits ^ byte) * 0x100000001B3 % 2**64
    return count, f"{bits:016x}"


def split(dpl, layout, work):
    """Splits a layout; gives the answer, whether it is in conflict, and the seconds."""
    files = [os.path.join(work, name) for name in ("out.gds", "cert")]
    for file in files:
        if os.path.exists(file):
            os.remove(file)
    ran = timed.run([dpl, "split", "--layer", "1", *RULES, "--workers", "1", layout, *files])
    if ran.status not in (0, 1):
        sys.exit(f"split of {os.path.basename(layout)}: status {ran.status}: {ran.said}; the files are in {edits.kept(work)}")
    return answer_of(files[1]), ran.status == 1, ran.seconds


def make_edits(dpl, file, count, seed, every, work):
    """Makes up edits, and writes them to a file; gives its path, and the splits by how many edits were made."""
    layout, rng, listed = edits.Layout(file), random.Random(seed), os.path.join(work, "edits")
    drawn, splits = os.path.join(work, "drawn.gds"), {0: split(dpl, file, work)}
    with open(listed, "w", encoding="utf-8") as out:
        for number in range(1, count + 1):
            what, rect = edits.made_up(layout, rng)
            getattr(layout, what)(rect)
            out.write("%s %d %d %d %d\n" % (what, *rect))
            if number % every == 0 or number == count:
                out.flush()
                layout.write(drawn)
                splits[number] = split(dpl, drawn, work)
    return listed, splits


def trace(program, file, listed):
    """The answers of the session, and the microseconds that each took, by how many edits were made."""
    ran = subprocess.run([program, file, listed, RULES[1], RULES[3]], stdout=subprocess.PIPE, text=True, check=False)
    if ran.returncode:
        sys.exit(f"{program}: status {ran.returncode}; the files are in {edits.kept(os.path.dirname(listed))}")
    answers, times = {}, {}
    for line in ran.stdout.splitlines():
        number, took, count, bits = line.split()
        answers[int(number)], times[int(number)] = (int(count), bits), int(took)
    return answers, times


def report(splits, answers, times):
    """Prints what was compared and what it took; gives how many answers are wrong."""
    wrong = [number for number, (answer, _, _) in splits.items() if answers.get(number) != answer]
    for number in wrong:
        print(f"after {number} edits the session has {answers.get(number)} and the split {splits[number][0]}")
    conflicts = sum(is_odd for _, is_odd, _ in splits.values())
    print(f"compared {len(splits)}, in conflict {conflicts}, wrong {len(wrong)}; opening {times.pop(0) / 1e6:.2f} s", end="")
    if times:
        least, median, most = (it / 1e3 for it in (min(times.values()), statistics.median(times.values()), max(times.values())))
        print(f", an edit {least:.1f} to {most:.1f} ms, median {median:.1f} ms", end="")
    print(f"; a split {statistics.median(seconds for _, _, seconds in splits.values()):.2f} s")
    return len(wrong)


def main(top, dpl, file, count, seed=1, every=1):
    program = os.environ.get("PROGRAM") or build(os.path.abspath(top))
    with tempfile.TemporaryDirectory() as work:
        listed, splits = make_edits(dpl, file, int(count), int(seed), int(every), work)
        wrong = report(splits, *trace(program, file, listed))
        if wrong:
            print(f"the files are in {edits.kept(work)}")
    return 1 if wrong else 0


if __name__ == "__main__":
    if not 5 <= len(sys.argv) <= 7:
        sys.exit(__doc__)
    sys.exit(main(*sys.argv[1:]))
