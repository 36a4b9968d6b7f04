#!/usr/bin/env python3
"""Measures reading and evaluating: a balanced sum of 2^12 and of 2^18 leaves.

    bench/read.py [PROGRAM]

Prints microseconds of processor time a node of both, their ratio, and the peak memory of the larger, and then the
figures of notation.py. Each run has rows enough for the larger. It measures and is no test. A node is a production's: a
sum of n leaves has 2n - 1.
"""
import os
import resource
import subprocess
import sys
import tempfile

import notation

GRAMMAR = """lrc 1
sort Exp { syn val: Int; }
prod Num: Exp (n: Int) { val = n; }
prod Add: Exp (l: Exp, r: Exp) { val = l.val + r.val; }
start Exp;
session on %s { }
"""


def balanced(leaves):
    rows = ["Num(%d)" % (i % 100) for i in range(leaves)]
    while len(rows) > 1:
        rows = ["Add(%s, %s)" % pair for pair in zip(rows[::2], rows[1::2])]
    return rows[0]


def seconds(program, text, times):
    """The least processor time of some runs in seconds, and what they print."""
    best = None
    for _ in range(times):
        with tempfile.TemporaryFile() as job, tempfile.TemporaryFile() as out:
            job.write(text)
            job.seek(0)
            child = subprocess.Popen([program, "run", "--rows", "8388608"], stdin=job, stdout=out)
            _, status, used = os.wait4(child.pid, 0)
            assert status == 0, status
            out.seek(0)
            printed = out.read()
        spent = used.ru_utime + used.ru_stime
        best = spent if best is None else min(best, spent)
    return best, printed


def main():
    here = os.path.dirname(os.path.abspath(__file__))
    program = sys.argv[1] if len(sys.argv) > 1 else os.path.join(here, "..", "crates", "lrc", "out", "lrc")
    start, _ = seconds(program, (GRAMMAR % "Num(1)").encode(), 9)
    micros = {}
    for power in (12, 18):
        leaves = 2 ** power
        text = (GRAMMAR % balanced(leaves)).encode()
        spent, out = seconds(program, text, 5)
        value = sum(i % 100 for i in range(leaves))
        assert out == b"session 1\n0 val=%d\nfinal 1 1\n" % value, out
        micros[power] = (spent - start) * 1e6 / (2 * leaves - 1)
        print("2^%d leaves, %d bytes: %.3f microseconds of processor time a node" % (power, len(text), micros[power]))
    print("ratio %.2f" % (micros[18] / micros[12]))
    peak = resource.getrusage(resource.RUSAGE_CHILDREN).ru_maxrss
    print("peak memory %.0f MiB" % (peak / 1024))
    notation.measure(program)


if __name__ == "__main__":
    main()
