#!/usr/bin/env python3
"""Measures several sessions: that their text is the same each time, and what they cost together.

    bench/sessions.py [PROGRAM]

Runs a job of eight sessions a hundred times, over few memo words and over many, and stops where a text differs from
the first. Then prints, as the least of some runs by turns: the user time of four sessions on different trees in one job
beside that of four jobs of one of them each; the processor time of a generated job of 20,000 nodes and eight sessions;
and the milliseconds of a generated job of three nodes beside those of one whose table is small. It measures and is no
test.
"""
import os
import subprocess
import sys
import tempfile
import time

import read
from visit import path, puts

GRAMMAR = read.GRAMMAR[: read.GRAMMAR.index("session")]
RUNS = 100
TURNS = 5


def once(program, words, text):
    """User and whole processor time and wall time of a run in seconds, and what it prints."""
    with tempfile.TemporaryFile() as job, tempfile.TemporaryFile() as out:
        job.write(text)
        job.seek(0)
        began = time.perf_counter()
        child = subprocess.Popen([program, *words], stdin=job, stdout=out)
        _, status, used = os.wait4(child.pid, 0)
        wall = time.perf_counter() - began
        assert status == 0, (words, status)
        out.seek(0)
        return used.ru_utime, used.ru_utime + used.ru_stime, wall, out.read()


def least(program, runs, which):
    """The least of one of the times of each of some runs, by turns."""
    best = [None] * len(runs)
    for _ in range(TURNS):
        for i, (words, text) in enumerate(runs):
            taken = once(program, words, text)[which]
            best[i] = taken if best[i] is None else min(best[i], taken)
    return best


def session(power, edits, first):
    """A session on a balanced sum whose leaves count from a number on, with puts at leaves, copies and forgets."""
    rows = ["Num(%d)" % (first + i) for i in range(2 ** power)]
    while len(rows) > 1:
        rows = ["Add(%s, %s)" % pair for pair in zip(rows[::2], rows[1::2])]
    copies = " ".join("copy %s %s; forget 5;" % (path(i % 2 ** power, power), path(i * 7 % 2 ** power, power)) for i in range(edits // 10))
    return "session on %s { %s %s }\n" % (rows[0], puts(power, edits)[0], copies)


def same_text(program):
    """Runs eight sessions often, and answers how many lines they print."""
    job = (GRAMMAR + "".join(session(8, 60, number % 3) for number in range(8))).encode()
    for memo in ("7", "65536"):
        words = ["run", "--memo", memo]
        first = once(program, words, job)[3]
        for run in range(RUNS):
            if once(program, words, job)[3] != first:
                sys.exit("run %d with %s memo words printed another text" % (run, memo))
    return first.count(b"\n")


def main():
    program = sys.argv[1] if len(sys.argv) > 1 else os.path.join(os.path.dirname(os.path.abspath(__file__)), "..", "crates", "lrc", "out", "lrc")
    print("the same text of %d lines in %d runs, with 7 and with 65536 memo words" % (same_text(program), RUNS))
    alone = [session(13, 2000, number * 10000) for number in range(4)]
    runs = [(["run"], (GRAMMAR + text).encode()) for text in alone] + [(["run"], (GRAMMAR + "".join(alone)).encode())]
    taken = least(program, runs, 0)
    print("user time of four sessions: %.3f s one after the other, %.3f s in one job, ratio %.2f" % (sum(taken[:4]), taken[4], taken[4] / sum(taken[:4])))
    generated = least(program, [(["gen", "--nodes", "20000", "--sessions", "8"], b"")], 1)
    print("processor time of a generated job of 20000 nodes and 8 sessions: %.3f s" % generated[0])
    small = least(program, [(["gen", "--nodes", "3"], b""), (["gen", "--nodes", "3", "--rows", "64", "--memo", "1"], b"")], 2)
    print("wall time of a generated job of three nodes: %.1f ms, and %.1f ms over a small table" % (small[0] * 1000, small[1] * 1000))


if __name__ == "__main__":
    main()
