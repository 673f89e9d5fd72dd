#!/usr/bin/env python3
"""Measures how long the tokens and the trees of a text take, each apart from what comes after them.

    python3 bench/read.py [PROGRAM] [PROGRAM ..]

Where a text has a character that begins no token, all that the program does is to cut it into tokens up to there, and
where a token too much stands at its end, to read it as well. So three texts of one length are checked: one that is a
comment, one whose last character begins nothing, and one whose last token is one too many. Each is refused, at its last
byte. The tokens take what the second takes more than the first, and the trees what the third takes more than the second.
The text before the last character is the bundle of `bench/straight.py` for n = 4,096, 8,192 and 16,384.

The programs are run in turn, so that what else the machine does meets all of them. Of 15 runs the shortest counts.
PROGRAM is a built verifier; without one, crates/rel_top/out/rel_top.
"""

import os
import sys
import tempfile

from measure import BUILT, check, program, write
from straight import bundle

SIZES = [4096, 8192, 16384]
TRIES = 15


def texts(size):
    """The comment, the text of tokens alone, and the one that is read."""
    text = bundle([1] * size, [3, -1] * (size // 2))
    return ["/" * (len(text) - 1) + "\n%", text + "%", text + "}"]


def refused(verifier, folder):
    """The seconds of a refusal."""
    run, said = check(verifier, folder)
    if run.status != 1 or not said.startswith("refused "):
        sys.exit("this is no refusal: %r" % said)
    return run.seconds


def measure(verifiers, size, folder):
    """For each verifier, the shortest times of the three texts."""
    write(os.path.join(folder, "proof"), "")
    best = [[float("inf")] * 3 for _ in verifiers]
    for number, text in enumerate(texts(size)):
        write(os.path.join(folder, "bundle"), text)
        for _ in range(TRIES):
            for times, verifier in zip(best, verifiers):
                times[number] = min(times[number], refused(verifier, folder))
    return best


def main():
    given = sys.argv[1:] or [BUILT]
    verifiers = [program(name) for name in given]
    row = "%8s %10s %10s %10s  %s"
    print(row % ("n", "start ms", "tokens ms", "trees ms", "program"))
    with tempfile.TemporaryDirectory() as folder:
        for size in SIZES:
            for name, (start, cut, whole) in zip(given, measure(verifiers, size, folder)):
                times = ["%.1f" % (1000 * seconds) for seconds in (start, cut - start, whole - cut)]
                print(row % (size, *times, name))


if __name__ == "__main__":
    main()
