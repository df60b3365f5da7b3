#!/usr/bin/env python3
"""Proves and builds the programs dpl and dplview and the crates below them, side by side.

usage: prove.py TOP

TOP is the folder that holds crates.txt. A crate is begun once all that it stands on is proved, the one with the longest way
above it first; as many go side by side as there are processors, and memory for. A line is printed as each is done.
It ends with 0 where TOP/crates/NAME/out/NAME is there for both, else with 1, after what the prover said of the first crate that failed.

A command of the kit locks the crate that it proves and all below it. So each of those that go side by side has a lane, a copy
of the sources below TOP/out/lanes, to which the libraries below its crate are linked. The lanes are taken away at the end.

Other scripts build a program of their own in a lane: open_crate, build_crate."""
import contextlib
import os
import shutil
import subprocess
import sys
import time
from concurrent.futures import FIRST_COMPLETED, ThreadPoolExecutor, wait

PROGRAMS = ("dpl", "dplview")
# What the proof of a large crate takes of memory, in GB; smaller ones take a quarter of it.
GB_EACH = 3
# What the proof of a crate takes in seconds: for each 1,000 bytes of source, proofs and definitions, and for any crate, since what is below it is read first.
SECONDS_EACH = {"src": 3.2, "proofs": 0.8, "specs": 0.2}
SECONDS_ANY = 30


def read_needs(top):
    """The crates of crates.txt, each with those of them that it stands on."""
    needs = {}
    with open(os.path.join(top, "crates.txt"), encoding="utf-8") as lines:
        for line in lines:
            name, colon, rest = line.split("#")[0].partition(":")
            if colon:
                needs[name.split()[0]] = rest.split()
    return {name: [need for need in rest if need in needs] for name, rest in needs.items()}


def below(needs, name, found):
    """Adds the crate and all that it stands on."""
    if name not in found:
        found.add(name)
        for need in needs[name]:
            below(needs, need, found)
    return found


def size_of(top, name):
    """How much there is to prove: about how many seconds one processor takes, of which only the ratios count."""
    total = SECONDS_ANY
    for part, seconds in SECONDS_EACH.items():
        for folder, _, files in os.walk(os.path.join(top, "crates", name, part)):
            total += seconds * sum(os.path.getsize(os.path.join(folder, file)) for file in files) / 1000
    return total


def ways(needs, sizes):
    """How much is to be proved from each crate up to a program, along the longest way."""
    above = {name: [other for other in needs if name in needs[other]] for name in needs}
    known = {}

    def way(name):
        if name not in known:
            known[name] = sizes[name] + max((way(other) for other in above[name]), default=0)
        return known[name]

    return {name: way(name) for name in needs}


def shares(chosen, way, idle):
    """How many jobs each of the crates gets. Each job reads all that is below anew, so a crate gets a second one only where a
    processor would idle: the one with most to prove above it for each of its jobs."""
    jobs = {name: 1 for name in chosen}
    for _ in range(idle - len(chosen) if chosen else 0):
        slowest = max(chosen, key=lambda name: way[name] / jobs[name])
        jobs[slowest] += 1
    return jobs


def side_by_side():
    """How many crates are proved at a time."""
    with open("/proc/meminfo", encoding="utf-8") as lines:
        free = next(int(line.split()[1]) for line in lines if line.startswith("MemAvailable"))
    return max(1, min(len(os.sched_getaffinity(0)), free // (GB_EACH * 1000 * 1000)))


def link_tree(one, other):
    """Gives the files of a folder second names in another one."""
    shutil.copytree(one, other, copy_function=os.link, dirs_exist_ok=True)


def open_lane(top, lane):
    """Makes a lane: all sources, nothing that was proved."""
    shutil.rmtree(lane, ignore_errors=True)
    shutil.copytree(os.path.join(top, "crates"), os.path.join(lane, "crates"), ignore=shutil.ignore_patterns("out"))
    for file in ("crates.txt", "HANDLES"):
        shutil.copy(os.path.join(top, file), lane)


def library(top, name):
    """Where a proved library is kept."""
    return os.path.join(top, "crates", name, "out", "rlib")


def open_crate(top, lane, name, needs, source):
    """Makes a lane over the libraries of TOP with a crate more, a program of one source file; gives that one's folder.

    It stands on the crates `needs`, of TOP and of the kit; those of TOP must be proved there."""
    known = read_needs(top)
    libraries = set().union(*(below(known, need, set()) for need in needs if need in known))
    for other in sorted(libraries):
        if not os.path.isdir(library(top, other)):
            sys.exit(f"crates/{other} isn't proved in {top}: rt lib in its folder, or tools/prove.py for all that dpl and dplview stand on")
    open_lane(top, lane)
    for other in libraries:
        link_tree(library(top, other), library(lane, other))
    with open(os.path.join(lane, "crates.txt"), "a", encoding="utf-8") as file:
        file.write(f"{name}: {' '.join(needs)}\n")
    folder = os.path.join(lane, "crates", name)
    os.makedirs(os.path.join(folder, "src"))
    shutil.copy(source, os.path.join(folder, "src", "main.rt"))
    return folder


def build_crate(folder, name):
    """Proves and builds the program of a crate, which ends at once without words; gives its path."""
    ran = call_kit(["run", "--jobs", "1"], folder)
    program = os.path.join(folder, "out", name)
    if not os.access(program, os.X_OK):
        sys.exit(f"{ran.stdout}\n{name} was not built")
    return program


def call_kit(words, folder):
    """Calls the kit's command in a folder; gives how it ended, and what it said."""
    how = {"stdin": subprocess.DEVNULL, "stdout": subprocess.PIPE, "stderr": subprocess.STDOUT}
    try:
        return subprocess.run(["rt", *words], cwd=folder, encoding="utf-8", errors="replace", check=False, **how)
    except FileNotFoundError:
        sys.exit("the command rt of the Rattle kit is not on the PATH")


def prove(top, lane, name, libraries, jobs):
    """Proves and builds one crate over the libraries below it, in a lane; gives whether it was proved, and what was said."""
    for other in libraries:
        if not os.path.isdir(library(lane, other)):
            link_tree(library(top, other), library(lane, other))
    command = "run" if name in PROGRAMS else "lib"
    # Without words a program tells how it is called and ends with 3, once it is proved and built.
    ran = call_kit([command, "--jobs", str(jobs)], os.path.join(lane, "crates", name))
    made = os.path.join(lane, "crates", name, "out")
    is_proved = os.access(os.path.join(made, name), os.X_OK) if name in PROGRAMS else ran.returncode == 0
    if is_proved:
        kept = os.path.join(top, "crates", name, "out")
        shutil.rmtree(kept, ignore_errors=True)
        link_tree(made, kept)
    return is_proved, ran.stdout


def left(sizes, done, seconds):
    """How long is left, judged by what is done."""
    rest = sum(sizes.values()) - sum(sizes[name] for name in done)
    minutes = round(seconds * rest / max(1, sum(sizes[name] for name in done)) / 60)
    return f", about {max(1, minutes)} min left" if rest and seconds > 60 else ""


def prove_all(top, needs, lanes):
    """Proves all crates; gives whether they were."""
    sizes = {name: size_of(top, name) for name in needs}
    way = ways(needs, sizes)
    begun, done, tasks, free, start = set(), set(), {}, list(lanes), time.monotonic()
    with ThreadPoolExecutor(len(lanes)) as pool:
        while len(done) < len(needs):
            ready = [name for name in needs if name not in begun and all(need in done for need in needs[name])]
            idle = len(lanes) - sum(jobs for _, _, jobs in tasks.values())
            chosen = sorted(ready, key=lambda name: -way[name])[: min(len(free), idle)]
            for name, jobs in shares(chosen, way, idle).items():
                begun.add(name)
                lane = free.pop()
                tasks[pool.submit(prove, top, lane, name, below(needs, name, set()) - {name}, jobs)] = (name, lane, jobs)
            for task in wait(tasks, return_when=FIRST_COMPLETED).done:
                (name, lane, _), (is_proved, said) = tasks.pop(task), task.result()
                if not is_proved:
                    print(f"{said}\n{name} was not proved; waiting for those that are under way", file=sys.stderr)
                    return False
                free.append(lane)
                done.add(name)
                print(f"  {len(done)} of {len(needs)}: {name}{left(sizes, done, time.monotonic() - start)}", flush=True)
    return True


def clear(folder):
    """Takes a folder of TOP/out away, and that one too where nothing else is left in it."""
    shutil.rmtree(folder, ignore_errors=True)
    with contextlib.suppress(OSError):
        os.rmdir(os.path.dirname(folder))


def main():
    if len(sys.argv) != 2:
        sys.exit(__doc__)
    top = os.path.abspath(sys.argv[1])
    needs = read_needs(top)
    wanted = set()
    for program in PROGRAMS:
        below(needs, program, wanted)
    needs = {name: needs[name] for name in wanted}
    lanes_folder = os.path.join(top, "out", "lanes")
    lanes = [os.path.join(lanes_folder, str(number)) for number in range(side_by_side())]
    print(f"proving {len(needs)} crates, {len(lanes)} at a time", flush=True)
    try:
        for lane in lanes:
            open_lane(top, lane)
        return 0 if prove_all(top, needs, lanes) else 1
    finally:
        clear(lanes_folder)


if __name__ == "__main__":
    sys.exit(main())
