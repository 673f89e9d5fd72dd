#!/usr/bin/env python3
"""Measures `show` on bundles of up to 4,194,304 bytes, the largest that is read.

    python3 bench/show.py [PROGRAM]

For 1/4, 1/2 and all of 4,194,304 bytes it writes a bundle to a folder of its own, runs the program on it three
times, and prints the shortest time, the peak memory and how both grow. The bundle holds units of 400 procedures,
each with loops, calls, loads, stores and formulas; the last unit is padded by a comment. What is printed has to be
the bundle again, since each item stands in a line of its own with one space between its tokens.
PROGRAM is the built verifier; without it, crates/rel_top/out/rel_top.
"""

import os
import sys
import tempfile

from measure import best, print_heads, print_row, program, read, run, write

LIMIT = 4194304
TRIES = 3

PROC = (
    "proc p%d ( n : int , c : C ) : int requires [ ( 0 <= n ) and not ( c = null ) ] "
    "ensures all x : C in { c } { ( ( x . f ) <= ( ( 2 * n ) - old ( g ) ) ) } writes { g , { c } @ f } "
    "{ var i : int ; while ( i < n ) inv ( i <= n ) { c . f := ( i + 1 ) ; i := ( i + 1 ) ; } ; "
    "i := c . f ; if ( i = n ) { g := i ; } else { skip ; } ; result := call p%d ( ( n - 1 ) , c ) ; } "
)


def bundle(size):
    """A bundle of this many bytes, in the form that is printed, and the comment that pads it."""
    items = ["class C { f : int ; }\n"]
    length = len(items[0])
    number = 0
    while True:
        procs = "".join(PROC % (k, k) for k in range(400))
        item = "unit U%d { global g : int ; %s}\n" % (number, procs)
        if length + len(item) > size:
            break
        items.append(item)
        length += len(item)
        number += 1
    text = "".join(items)
    return text, text + "/" * (size - length)


def shown(verifier, text, folder):
    """A run that prints the bundle, which is the text again."""
    printed = os.path.join(folder, "printed")
    ended = run(verifier, ["show", os.path.join(folder, "bundle")], printed)
    if ended.status != 0:
        sys.exit("show ended with status %d" % ended.status)
    if read(printed) != text:
        sys.exit("what was printed isn't the bundle")
    return ended


def main():
    verifier = program(*sys.argv[1:2])
    print_heads("bytes")
    before = None
    with tempfile.TemporaryDirectory() as folder:
        for size in (LIMIT // 4, LIMIT // 2, LIMIT):
            text, padded = bundle(size)
            write(os.path.join(folder, "bundle"), padded)
            now = best([shown(verifier, text, folder) for _ in range(TRIES)])
            print_row(size, now, before)
            before = now


if __name__ == "__main__":
    main()
