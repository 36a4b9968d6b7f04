#!/usr/bin/env python3
"""Measures openings and edits: balanced sums whose leaves are put anew, over remembered visits.

    bench/visit.py [PROGRAM [EARLIER]]

Prints, for sums of 2^10 to 2^18 leaves, nanoseconds of processor time a node of an opening, and microseconds of an edit
at a leaf, each as the difference of two runs by turns: `run` beside `check` of the same text, and edits beside as many
whose path names no place. An opening's time is to be linear in the tree, and an edit's in the length of its path. Then the counts that
`solo` prints for the largest edit, where the program has it, and the milliseconds of a small job. EARLIER is another
program to measure edits of beside it, as one that evaluates from scratch. It measures and is no test.
"""
import os
import subprocess
import sys
import tempfile
import time

from read import GRAMMAR, balanced

EDITS = {10: 4000, 14: 8000, 16: 8000, 18: 8000}

# how many of them an earlier program makes
FEWER = {10: 400, 14: 100, 16: 40}


def path(leaf, power):
    """The place of a leaf of a balanced sum."""
    return "".join("/%d" % (leaf >> bit & 1) for bit in reversed(range(power)))


def puts(power, edits):
    """Puts at leaves that are spread over the tree, and the sum after each."""
    values = [i % 100 for i in range(2 ** power)]
    total = sum(values)
    text, sums = [], []
    for edit in range(edits):
        leaf = edit * 7919 % 2 ** power
        total += edit % 10 - values[leaf]
        values[leaf] = edit % 10
        text.append("put %s Num(%d);" % (path(leaf, power), edit % 10))
        sums.append(total)
    return " ".join(text), sums


def once(program, words, text):
    """The processor time of a run in seconds, and what it prints."""
    with tempfile.TemporaryFile() as job, tempfile.TemporaryFile() as out:
        job.write(text)
        job.seek(0)
        child = subprocess.Popen([program, *words], stdin=job, stdout=out)
        _, status, used = os.wait4(child.pid, 0)
        assert status == 0, (words, status)
        out.seek(0)
        return used.ru_utime + used.ru_stime, out.read()


def by_turns(program, runs, times):
    """The least processor time in seconds of each of some runs, by turns, and what the last one prints."""
    best, printed = [None] * len(runs), b""
    for _ in range(times):
        for number, (words, text) in enumerate(runs):
            spent, printed = once(program, words, text)
            best[number] = spent if best[number] is None else min(best[number], spent)
    return best, printed


def rows_of(power, edits):
    """Rows enough for the cells of such an opening and of so many edits."""
    return min(16777216, 16 * 2 ** power + 12 * (power + 2) * edits + 1000)


def edit_micros(program, power, edits, times):
    """Microseconds of processor time an edit."""
    words = ["run", "--rows", str(rows_of(power, edits))]
    opening = GRAMMAR % balanced(2 ** power)
    text, sums = puts(power, edits)
    edited = opening.replace("{ }\n", "{ %s }\n" % text)
    refused = opening.replace("{ }\n", "{ %s }\n" % text.replace("put /", "put /7/"))
    (without, spent), out = by_turns(program, [(words, refused.encode()), (words, edited.encode())], times)
    lines = out.decode().splitlines()
    assert lines[2:-1] == ["%d val=%d" % (n + 1, value) for n, value in enumerate(sums)], lines[:5]
    return (spent - without) * 1e6 / edits


def opening_nanos(program, power, times):
    """Nanoseconds of processor time a node of an opening, beyond reading and checking."""
    opening = (GRAMMAR % balanced(2 ** power)).encode()
    words = ["run", "--rows", str(rows_of(power, 0))]
    (read, spent), _ = by_turns(program, [(["check"], opening), (words, opening)], times)
    return (spent - read) * 1e9 / (2 ** (power + 1) - 1)


def small_millis(program):
    """The least wall time of a small job in milliseconds."""
    best = None
    for _ in range(20):
        begun = time.perf_counter()
        once(program, ["run"], (GRAMMAR % "Num(1)").encode())
        spent = time.perf_counter() - begun
        best = spent if best is None else min(best, spent)
    return best * 1e3


def print_counts(program, power):
    text, _ = puts(power, 1)
    job = (GRAMMAR % balanced(2 ** power)).replace("{ }\n", "{ %s }\n" % text).encode()
    words = ["solo", "--rows", str(rows_of(power, 1))]
    child = subprocess.run([program, *words], input=job, stdout=subprocess.PIPE, stderr=subprocess.DEVNULL)
    if child.returncode == 0:
        for line in child.stdout.decode().splitlines()[1:-1]:
            print("2^%d leaves, solo: %s" % (power, line))


def main():
    here = os.path.dirname(os.path.abspath(__file__))
    words = sys.argv[1:]
    program = words[0] if words else os.path.join(here, "..", "crates", "lrc", "out", "lrc")
    micros, nanos = {}, {}
    for power in EDITS:
        nanos[power] = opening_nanos(program, power, 5)
        micros[power] = edit_micros(program, power, EDITS[power], 5)
        print("2^%d leaves: %.0f nanoseconds a node of an opening, %.1f microseconds an edit" % (power, nanos[power], micros[power]))
        if len(words) > 1 and power in FEWER:
            earlier = edit_micros(words[1], power, FEWER[power], 3)
            print("2^%d leaves: %.1f microseconds an edit before, ratio %.0f" % (power, earlier, earlier / micros[power]))
    print("opening, a node at 2^18 beside 2^14: ratio %.2f" % (nanos[18] / nanos[14]))
    print("an edit at 2^18 beside 2^14: ratio %.2f" % (micros[18] / micros[14]))
    print_counts(program, 16)
    print("a small job: %.1f milliseconds" % small_millis(program))


if __name__ == "__main__":
    main()
