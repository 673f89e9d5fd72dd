#!/usr/bin/env python3
"""Measures `check` on two bundles that are typed and can't be judged yet, so that most of the time goes to the types.

    python3 bench/typed.py [PROGRAM]

The first bundle has two units, each with n globals and one procedure that has n assignments to the last of them. The
second one has two units with n globals each, and n judgements about the same two procedures, each of which names the
last globals. For each n the program is run three times, and the shortest time, the peak memory, and how both grow as n
and with it the text doubles are printed. Each run has to find the bundle typed: it says that it can't be judged.
PROGRAM is the built verifier; without it, crates/rel_top/out/rel_top.
"""

import os
import sys
import tempfile

from measure import best, check, print_heads, print_row, program, write

TRIES = 3


def unit(name, procedure, size, commands):
    names = "".join("global x%d : int ; " % number for number in range(size))
    head = "proc %s ( ) : int requires true ensures true writes { x%d }" % (procedure, size - 1)
    return "unit %s { %s%s { %s} }\n" % (name, names, head, commands)


def assigning(size):
    """As many assignments as globals, all to the last one."""
    last = "x%d" % (size - 1)
    commands = ("%s := ( %s + 1 ) ; " % (last, last)) * size
    return unit("U", "p", size, commands) + unit("V", "q", size, commands)


def judging(size):
    """As many judgements as globals, all about the same two procedures."""
    last = "x%d" % (size - 1)
    body = "%s := 0 ; " % last
    about = "U . p ~ V . q requires ( %s =:= %s ) ensures ( %s =:= %s )" % (last, last, last, last)
    judgements = "".join(
        "judge J%d : %s bi { sync %s := 0 ; }\n" % (number, about, last) for number in range(size)
    )
    return unit("U", "p", size, body) + unit("V", "q", size, body) + judgements


BUNDLES = [
    ("globals and assignments", assigning, [4096, 8192, 16384]),
    ("globals and judgements", judging, [2048, 4096, 8192]),
]


def checked(verifier, folder):
    run, said = check(verifier, folder)
    if run.status != 1 or said != "refused NotBuilt bundle\n":
        sys.exit("the bundle isn't typed: status %d, and the output is %r" % (run.status, said))
    return run


def measure(verifier, bundle, sizes, folder):
    before = None
    for size in sizes:
        write(os.path.join(folder, "bundle"), bundle(size))
        now = best([checked(verifier, folder) for _ in range(TRIES)])
        print_row(size, now, before)
        before = now


def main():
    verifier = program(*sys.argv[1:2])
    with tempfile.TemporaryDirectory() as folder:
        for name, bundle, sizes in BUNDLES:
            print(name)
            print_heads("n")
            measure(verifier, bundle, sizes, folder)


if __name__ == "__main__":
    main()
