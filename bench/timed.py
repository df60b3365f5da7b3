"""Runs of a program and what they take, for the scripts beside it."""
import collections
import os
import subprocess
import sys
import tempfile
import time

# So many bytes of what a run says are kept.
MOST_SAID = 65536

# A run: its status (below 0 where a signal ended it), what it said, the seconds by the clock, those of user and
# system, and its greatest memory in MiB.
Run = collections.namedtuple("Run", "status said seconds used mib")


def run(words):
    """Runs a program to its end."""
    with tempfile.TemporaryFile() as out:
        begun = time.monotonic()
        try:
            child = subprocess.Popen(words, stdin=subprocess.DEVNULL, stdout=out)
        except OSError as error:
            sys.exit("%s: %s" % (words[0], error.strerror))
        _, ended, usage = os.wait4(child.pid, 0)
        seconds = time.monotonic() - begun
        child.returncode = -os.WTERMSIG(ended) if os.WIFSIGNALED(ended) else os.WEXITSTATUS(ended)
        out.seek(0)
        said = out.read(MOST_SAID).decode("utf-8", "replace")
    return Run(child.returncode, said, seconds, usage.ru_utime + usage.ru_stime, usage.ru_maxrss / 1024)


def run_to(statuses, words):
    """Runs a program that must end with one of these statuses; the script ends where it doesn't."""
    done = run(words)
    if done.status not in statuses:
        sys.exit("%s: status %d: %s" % (" ".join(words), done.status, done.said.strip()))
    return done


def times(seconds, other):
    """How many times as long as another run one took."""
    return "x%.2f" % (seconds / other) if other > 0 else "x-"
