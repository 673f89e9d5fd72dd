#!/usr/bin/env python3
"""Measures how fast the checker of the whole logic takes steps, and how much memory a step of a proof file takes.

    python3 bench/derive.py

It copies the crates to a folder of its own and makes a program of `derive.txt` and one of `steps.txt` there, since the
gate needn't prove them. That takes minutes, and more where this machine has kept no check of the crates below. The
first program takes a derivation on a node of 10,000 formulas, in rounds of four steps: a cut, the parts of a
conjunction, an exchange by an equation, and a closed node. Each round leaves the node one formula longer. The second
one writes the text of a proof file with one derivation and reads it. For each size a program is run three times, and
the shortest time, the peak memory, and how both grow as the size doubles are printed. What the start takes, with no
step, stands before.
"""

import os
import shutil
import subprocess
import sys
import tempfile

from measure import TOP, best, print_heads, print_row, read, run, write

TRIES = 3
FORMULAS = 10000
ROUNDS = (0, 25000, 50000, 100000)
STEPS = (0, 50000, 100000, 200000)


def built(name, text, libraries, folder):
    """The program of this text in the bench folder, built over a copy of the crates."""
    crate = os.path.join(folder, "crates", name)
    os.makedirs(os.path.join(crate, "src"))
    shutil.copyfile(os.path.join(TOP, "bench", text), os.path.join(crate, "src", "main.rt"))
    with open(os.path.join(folder, "crates.txt"), "a", encoding="ascii") as crates:
        crates.write("%s: %s\n" % (name, libraries))
    subprocess.run(["rt", "run", "--", "4", "0"], cwd=crate, check=True, stdout=subprocess.DEVNULL)
    return os.path.join(crate, "out", name)


def measure(title, program, words, sizes, folder):
    print(title)
    print_heads("n")
    before = None
    for size in sizes:
        runs = [run(program, [*words, str(size)], os.path.join(folder, "printed")) for _ in range(TRIES)]
        if any(ended.status != 0 for ended in runs):
            sys.exit("the program ended with another status than 0")
        now = best(runs)
        print_row(size, now, before if size > sizes[1] else None)
        before = now


def main():
    with tempfile.TemporaryDirectory() as folder:
        shutil.copytree(os.path.join(TOP, "crates"), os.path.join(folder, "crates"), ignore=shutil.ignore_patterns("out"))
        write(os.path.join(folder, "crates.txt"), read(os.path.join(TOP, "crates.txt")))
        derive = built("derive_bench", "derive.txt", "rel_derive rules_table rel_logic rel_list", folder)
        steps = built("steps_bench", "steps.txt", "rel_proofio rel_list", folder)
        measure("rounds of four steps, on %d formulas" % FORMULAS, derive, [str(FORMULAS)], ROUNDS, folder)
        measure("steps of a proof file", steps, [], STEPS, folder)


if __name__ == "__main__":
    main()
