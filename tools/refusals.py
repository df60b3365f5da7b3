#!/usr/bin/env python3
"""Refuses a run of dpl each allocation in turn, and each thread that it asks for, and looks at what it leaves.

usage: refusals.py TOP [CASE ..]

TOP is the folder that holds crates.txt, with crates/dpl_run proved (tools/prove.py). CASE is one or more of those below
(default: all of them). A C compiler, cc, is needed.

First a program is proved and built in TOP/out/refusals: refused_run.rattle beside this file, which runs dpl_run::run over
SureHost. That host's calls never fail and take no memory, so each allocation of a run is the run's own. Its text isn't a .rt
file, as the gate proves and builds what is one, which takes minutes.

A case is a split of a made-up layout. It runs once for each allocation (in the case "crowded" for one of 101, in the cases
"large", "slices", "ladder" and "blocks" for each of 65,536 bytes or more) with a library loaded before the C library, which
counts these allocations and the threads that are asked for between the begin and the end of the run, and refuses one of them.
Each run must end in one of these ways, within two minutes, and only the caller's thread is left then:
  out of memory  status 6, and not a byte was written or said
  passed over    the status, and as many bytes written and said as without a refusal: the run does without what was refused
For each case a line is printed with how many runs ended in which way. The script ends with 0 where all are right, else with 1
after the runs that are not.

As allocations count those of the program alone, and not those that the C library makes for itself; a growth of what was
allocated before; and a thread."""
import collections
import concurrent.futures
import os
import re
import shutil
import subprocess
import sys

HERE = os.path.dirname(os.path.abspath(__file__))
sys.path.insert(0, os.path.join(HERE, "..", "bench"))
import layouts
import prove

NO_MEMORY = 6
MOST_SECONDS = 120
NAME = "refused_run"
# What it stands on.
NEEDS = ["dpl_host", "dpl_pool", "dpl_run"]

SHIM = r"""
#define _GNU_SOURCE
#include <dirent.h>
#include <dlfcn.h>
#include <errno.h>
#include <pthread.h>
#include <stdatomic.h>
#include <stdio.h>
#include <stdlib.h>
#include <sys/syscall.h>
#include <unistd.h>

extern void *__libc_malloc(size_t);
extern void *__libc_realloc(void *, size_t);

static atomic_ulong count;
static atomic_int told;
static unsigned long refused, least;
static char *low, *high;

static int is_own(void *caller) {
    return low <= (char *)caller && (char *)caller < high;
}

/* The run stands between the first and the second write to standard output. */
static int is_refused(void) {
    return atomic_load(&told) == 1 && atomic_fetch_add(&count, 1) + 1 == refused;
}

ssize_t write(int file, const void *bytes, size_t length) {
    if (file == 1)
        atomic_fetch_add(&told, 1);
    return syscall(SYS_write, file, bytes, length);
}

void *malloc(size_t size) {
    if (size >= least && is_own(__builtin_return_address(0)) && is_refused())
        return NULL;
    return __libc_malloc(size);
}

void *realloc(void *old, size_t size) {
    if (size >= least && is_own(__builtin_return_address(0)) && is_refused())
        return NULL;
    return __libc_realloc(old, size);
}

int pthread_create(pthread_t *thread, const pthread_attr_t *attr, void *(*start)(void *), void *arg) {
    static int (*real)(pthread_t *, const pthread_attr_t *, void *(*)(void *), void *);
    real = (int (*)(pthread_t *, const pthread_attr_t *, void *(*)(void *), void *))dlsym(RTLD_NEXT, "pthread_create");
    return is_refused() ? EAGAIN : real(thread, attr, start, arg);
}

/* Where the program itself lies in memory. */
__attribute__((constructor)) static void begin(void) {
    char name[4096], line[8192], path[4096];
    ssize_t length = readlink("/proc/self/exe", name, sizeof name - 1);
    FILE *maps = fopen("/proc/self/maps", "r");
    if (length < 0 || !maps)
        abort();
    name[length] = 0;
    while (fgets(line, sizeof line, maps)) {
        char *from, *to;
        if (sscanf(line, "%p-%p %*s %*s %*s %*s %4095[^\n]", (void **)&from, (void **)&to, path) != 3)
            continue;
        char *same = path;
        while (*same == ' ')
            same++;
        for (char *at = name; *at && *at == *same; at++, same++)
            if (!at[1] && !same[1]) {
                low = low ? low : from;
                high = to;
            }
    }
    fclose(maps);
    const char *word = getenv("REFUSED");
    refused = word ? strtoul(word, NULL, 10) : 0;
    word = getenv("LEAST");
    least = word ? strtoul(word, NULL, 10) : 0;
    atomic_store(&told, 0);
}

/* How the program ends. It prints how many were asked for, and how many threads are left. One that has ended may be listed for a moment more. */
void _exit(int status) {
    unsigned long asked = atomic_load(&count);
    int threads = 0;
    for (int turn = 0; turn < 1000 && threads != 1; turn++) {
        DIR *tasks = opendir("/proc/self/task");
        threads = 0;
        for (struct dirent *entry = tasks ? readdir(tasks) : NULL; entry; entry = readdir(tasks))
            threads += entry->d_name[0] != '.';
        if (tasks)
            closedir(tasks);
        if (threads != 1)
            usleep(1000);
    }
    dprintf(2, "%lu %d\n", asked, threads);
    syscall(SYS_exit_group, status);
    __builtin_unreachable();
}
"""

CROWD = [
    (0, 0, 400, 20),
    (0, 40, 50, 60),
    (0, 40, 20, 200),
    (0, 180, 190, 200),
    (350, 40, 400, 60),
    (380, 40, 400, 200),
    (215, 180, 400, 200),
]


def pairs(count):
    """Pairs of squares closer than the rule, in rows of 200, and each pair far from the others."""
    for number in range(count):
        x, y = 100 * (number % 200), 100 * (number // 200)
        yield from ((x, y, x + 10, y + 10), (x + 20, y, x + 30, y + 10))


# A case: its rectangles, the options, the least size of an allocation that counts, and how many further each one that is refused lies than the one before it.
Case = collections.namedtuple("Case", "rects options least step")
CASES = {
    "bar": Case([(0, 0, 100, 20)], "", 0, 1),
    "conflict": Case([(0, 0, 10, 10), (20, 0, 30, 10), (10, 20, 20, 30)], "", 0, 1),
    "stitch": Case(CROWD, "", 0, 1),
    "tiles": Case([(0, 0, 64000, 20), (0, 40, 64000, 60)], "--tile 64", 0, 1),
    # So many rows a tile that a post merges a block, and few enough slabs for tiles.
    "crowded": Case(list(pairs(2000)), "--tile 4096 --workers 2", 0, 101),
    # One worker, who makes no tiles.
    "listed": Case(CROWD, "--workers 1", 0, 1),
    # So many slabs that there are no tiles.
    "large": Case(list(pairs(33000)), "--workers 2", 65536, 1),
    # Wires with a bar below them, which workers sweep slice by slice, and whose near slabs they find.
    "slices": Case([(50 * n, n, 50 * n + 20, n + 9000) for n in range(4200)] + [(0, -20, 210000, -10)], "--workers 4", 65536, 1),
    # A ladder, of whose rungs workers share the zones, and whose columns they sweep.
    "ladder": Case(
        [(0, 0, 20, 820000), (158, 0, 178, 820000)] + [(20, 100 * n + 40, 158, 100 * n + 60) for n in range(8200)],
        "--workers 4",
        65536,
        1,
    ),
    # Terraces, a block each.
    "blocks": Case(
        [(3000 * (n // 500) + n % 500, 2 * n, 3000 * (n // 500) + n % 500 + 200, 2 * n + 12000) for n in range(6000)],
        "--workers 4",
        65536,
        1,
    ),
}

# What a run leaves: its status, and how many bytes were written and said, or None where it doesn't tell.
Left = collections.namedtuple("Left", "status taken")


def build(top, work):
    """Builds the program over the libraries of TOP and the library that refuses; gives their paths."""
    folder = prove.open_crate(top, os.path.join(work, "lane"), NAME, NEEDS, os.path.join(HERE, NAME + ".rattle"))
    program = prove.build_crate(folder, NAME)
    source, shim = os.path.join(work, "refuse.c"), os.path.join(work, "refuse.so")
    with open(source, "w", encoding="utf-8") as file:
        file.write(SHIM)
    subprocess.run(["cc", "-O2", "-shared", "-fPIC", "-o", shim, source, "-ldl"], check=True)
    return program, shim


def run_once(words, shim, least, number, folder):
    """One run, of which this allocation is refused, 0 for none: what it leaves, how many it asked for, and how many threads are left."""
    env = {"LD_PRELOAD": shim, "LEAST": str(least), "REFUSED": str(number)}
    try:
        ran = subprocess.run(words, cwd=folder, env=env, stdin=subprocess.DEVNULL, capture_output=True, timeout=MOST_SECONDS, check=False)
    except subprocess.TimeoutExpired:
        return Left(f"none in {MOST_SECONDS} seconds", None), 0, 0
    taken, counts = re.fullmatch(rb"begins\nends\n(\d+)\n", ran.stdout), re.search(rb"(\d+) (\d+)\n\Z", ran.stderr)
    # A run that a signal ends tells nothing.
    if not taken or not counts:
        return Left(ran.returncode, None), 0, 0
    return Left(ran.returncode, int(taken[1])), int(counts[1]), int(counts[2])


def way_of(left, plain):
    """How a run ended: with a word for what is right, and None for what is wrong."""
    if left == plain:
        return "passed over"
    return "out of memory" if left == Left(NO_MEMORY, 0) else None


def look_at(case, program, shim, work):
    """Tries the allocations of a case; gives whether all is right."""
    rects, options, least, step = CASES[case]
    folder = os.path.join(work, case)
    os.mkdir(folder)
    layouts.write(os.path.join(folder, "in"), layouts.structure("TOP", (layouts.rect(*rect) for rect in rects)))
    words = [program, *f"split --layer 1 --rule 30 --overlap 10 {options} in out cert".split()]
    plain, total, threads = run_once(words, shim, least, 0, folder)
    if plain.taken is None or threads != 1:
        print(f"{case}: without a refusal it leaves {plain} and {threads} threads", flush=True)
        return False
    numbers, ways, wrong = range(1, total + 1, step), collections.Counter(), 0
    with concurrent.futures.ThreadPoolExecutor(len(os.sched_getaffinity(0))) as pool:
        for number, (left, _, threads) in zip(numbers, pool.map(lambda number: run_once(words, shim, least, number, folder), numbers)):
            way = way_of(left, plain) if threads == 1 else None
            if way is None:
                wrong += 1
                print(f"  {case}: without allocation {number} it leaves {left} and {threads} threads", flush=True)
            else:
                ways[way] += 1
    told = ", ".join(f"{count} {way}" for way, count in sorted(ways.items()))
    print(f"{case}: status {plain.status}; of {total} allocations {len(numbers)} refused: {told}, {wrong} wrong", flush=True)
    return not wrong


def main():
    if len(sys.argv) < 2 or not set(sys.argv[2:]) <= set(CASES):
        sys.exit(f"{__doc__}\n\nThe cases: {' '.join(CASES)}")
    top, cases = os.path.abspath(sys.argv[1]), sys.argv[2:] or list(CASES)
    work = os.path.join(top, "out", "refusals")
    shutil.rmtree(work, ignore_errors=True)
    os.makedirs(work)
    try:
        program, shim = build(top, work)
        return 0 if all([look_at(case, program, shim, work) for case in cases]) else 1
    finally:
        # What lies below TOP may have no crates.txt of its own.
        prove.clear(work)


if __name__ == "__main__":
    sys.exit(main())
