#!/usr/bin/env python3
"""Measures plans: a grammar at every limit at once, and one whose productions have half the occurrences.

    bench/plan.py [PROGRAM]

The grammars are those of `order.py`, with 16 and 8 attributes of a sort and as many locals of a
production: 160 and 80 occurrences in each of 256 productions. `plan` reads, accepts and tests the
grammar, makes its visit sequences and bindings and writes their text. Prints seconds of processor
time of both sizes and their ratio, which is at most 4 where the time grows at most with the square
of a production's occurrences. It measures and is no test.
"""
import os
import sys

from order import grammar, seconds


def main():
    here = os.path.dirname(os.path.abspath(__file__))
    program = sys.argv[1] if len(sys.argv) > 1 else os.path.join(here, "..", "crates", "lrc", "out", "lrc")
    spent = {}
    for attributes in (8, 16):
        spent[attributes] = seconds(program, "plan", grammar(256, attributes), 5)
        print("plan, %d occurrences a production: %.3f seconds of processor time" % (10 * attributes, spent[attributes]))
    print("plan: ratio %.2f" % (spent[16] / spent[8]))


if __name__ == "__main__":
    main()
