#!/usr/bin/env python3
"""Measures `check` on two blocks of n assignments each with the proof that they agree.

    python3 bench/straight.py [PROGRAM]

For n = 1,024, 2,048, .. 16,384 it writes a bundle and a proof to a folder of its own, runs the program
on them three times, and prints the shortest time, the peak memory and how both grow as n doubles.
PROGRAM is the built verifier; without it, crates/rel_top/out/rel_top.
"""

import json
import os
import sys
import tempfile

from measure import TOP, best, check, print_heads, print_row, program, read, write

SIZES = [1024, 2048, 4096, 8192, 16384]
TRIES = 3


def block(changes):
    """Assignments that add each of the changes to x."""
    return "".join(
        "x := ( x %s %d ) ; " % ("-" if change < 0 else "+", abs(change)) for change in changes
    )


def unit(name, procedure, changes):
    return (
        "unit %s { global x : int ; proc %s ( ) : int requires true ensures true writes { x } { %s} }\n"
        % (name, procedure, block(changes))
    )


def bundle(left, right):
    """U.p adds the left changes, V.q the right ones, and J says that they agree."""
    judgement = (
        "judge J : U . p ~ V . q requires ( x =:= x ) ensures ( x =:= x ) bi { split { %s} { %s} ; }\n"
        % (block(left), block(right))
    )
    return unit("U", "p", left) + unit("V", "q", right) + judgement


def refutation(left, right, sign):
    """The combination for the case that the left end is below (sign 1) or above (sign -1) the right one.

    The added formula counts once. Each equation says that the new value is the old one and the change, so
    the left equations, taken from the last to the first, turn the left end into the left start; the
    precondition turns that into the right start, and the right equations that into the right end.
    """
    first_left, first_right, added = 2, 2 + left, 3 + left + right
    pairs = [[added, "1"]]
    pairs += [[first_left + i, str(-sign)] for i in reversed(range(left))]
    pairs += [[1, str(-sign)]]
    pairs += [[first_right + i, str(sign)] for i in range(right)]
    return ["farkas", pairs]


def proof(left, right):
    """The negated goal says that the ends differ; each of the two cases is refuted."""
    negated_goal = 2 + left + right
    steps = [["neint", negated_goal], refutation(left, right, 1), refutation(left, right, -1)]
    return json.dumps({"whyrel": 1, "proofs": [steps]}, separators=(",", ":"))


def compare_with_example():
    """The texts made here are those of the example, where its blocks are wanted."""
    example = os.path.join(TOP, "examples", "straight")
    if bundle([1, 1], [2]) != read(os.path.join(example, "sum.rel")):
        sys.exit("the bundle differs from examples/straight/sum.rel")
    if proof(2, 1) != read(os.path.join(example, "sum.json")):
        sys.exit("the proof differs from examples/straight/sum.json")


def checked(verifier, folder):
    run, said = check(verifier, folder)
    if run.status != 0 or not said.endswith("yes: 3 items, 1 obligations\n"):
        sys.exit("this is no yes: status %d, and the output is %r" % (run.status, said))
    return run


def measure(verifier, size, folder):
    left = [1] * size
    right = [3, -1] * (size // 2)
    write(os.path.join(folder, "bundle"), bundle(left, right))
    write(os.path.join(folder, "proof"), proof(size, size))
    return best([checked(verifier, folder) for _ in range(TRIES)])


def main():
    verifier = program(*sys.argv[1:2])
    compare_with_example()
    print_heads("n")
    before = None
    with tempfile.TemporaryDirectory() as folder:
        for size in SIZES:
            now = measure(verifier, size, folder)
            print_row(size, now, before)
            before = now


if __name__ == "__main__":
    main()
