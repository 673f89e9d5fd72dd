"""What the measurements share: a run of the program with its time and memory, and the files that it reads.

Python itself takes 10 to 30 MB, which is the least that the peak memory of a run can show.
"""

import os
import sys
import time
from collections import namedtuple

TOP = os.path.dirname(os.path.dirname(os.path.abspath(__file__)))
BUILT = os.path.join(TOP, "crates", "rel_top", "out", "rel_top")

# The exit status, the seconds, and the peak memory in KiB.
Run = namedtuple("Run", "status seconds memory")


def program(name=BUILT):
    """The path of a verifier, which has to be there."""
    path = os.path.abspath(name)
    if not os.access(path, os.X_OK):
        sys.exit("%s is not there: build it by ./whyrel" % path)
    return path


def read(path):
    with open(path, encoding="ascii") as file:
        return file.read()


def write(path, text):
    with open(path, "w", encoding="ascii") as file:
        file.write(text)


def run(program, words, printed):
    """Runs the program with the words. What it prints goes to a file."""
    output = (os.POSIX_SPAWN_OPEN, 1, printed, os.O_WRONLY | os.O_CREAT | os.O_TRUNC, 0o600)
    start = time.monotonic()
    child = os.posix_spawn(program, [program, *words], os.environ, file_actions=[output])
    _, status, usage = os.wait4(child, 0)
    seconds = time.monotonic() - start
    return Run(os.waitstatus_to_exitcode(status), seconds, usage.ru_maxrss)


def check(program, folder):
    """Checks the files `bundle` and `proof` of the folder: the run, and what was printed."""
    printed = os.path.join(folder, "printed")
    words = ["check", os.path.join(folder, "bundle"), os.path.join(folder, "proof")]
    return run(program, words, printed), read(printed)


def best(runs):
    """The shortest time and the greatest memory."""
    return min(run.seconds for run in runs), max(run.memory for run in runs)


ROW = "%8s %10s %8s %12s %8s"


def print_heads(size):
    print(ROW % (size, "seconds", "ratio", "peak MiB", "ratio"))


def print_row(size, now, before):
    """The best of this size, and how many times the best of the size before it that is."""
    seconds, memory = now
    ratios = ["%.2f" % (new / old) for new, old in zip(now, before)] if before else ["", ""]
    print(ROW % (size, "%.3f" % seconds, ratios[0], "%.1f" % (memory / 1024), ratios[1]))
