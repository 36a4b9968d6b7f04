#!/usr/bin/env python3
"""Measures the reading of jobs: texts of 1 MiB and of 16 MiB, and the worst text for memory.

    bench/notation.py [PROGRAM]

A job has 256 productions of 8 children, and sessions with a wide tree and many edits. It is read and
accepted whole, and then answered by `not built`, since its grammar is not plain, so that only reading
is measured. With a character that begins no token at its end, its tokens are read and nothing more, since
the fault among them is told before the job is looked at. Prints megabytes a second of processor time of
both jobs, their ratio, of the larger one's tokens, beside it `wc -c` on the larger text, and bytes of memory
a byte of text of a job of one-byte tokens. It measures and is no test.
"""
import os
import subprocess
import sys
import tempfile
import time

MEBI = 1 << 20


def grammar(names):
    """A start sort of one attribute that inherits nothing, and productions of 8 children or one."""
    kids = ", ".join("k%d: S" % i for i in range(8))
    sums = " + ".join("k%d.v" % i for i in range(8))
    lines = ["lrc 1", "sort S { syn v: Int; }", "prod L: S (n: Int) { v = if n < 0 then 0 - n else n; }"]
    lines += ["prod %s: S (%s) { local s: Int = %s; v = s * 2; }" % (name, kids, sums) for name in names]
    return "\n".join(lines + ["start S;"])


def job(size):
    """A job of about this many bytes, in at most 64 sessions of at most 10,000 edits."""
    names = ["P%d" % i for i in range(255)]
    parts = [grammar(names)]
    total = len(parts[0])
    each = (size - total) // 60
    number = 0
    while total < size:
        wide = []
        while sum(map(len, wide)) < each // 2:
            name = names[number % len(names)]
            number += 1
            wide.append("%s(%s)" % (name, ", ".join("L(%d)" % (number * 7 % 1000 + i) for i in range(8))))
        while len(wide) > 1:
            while len(wide) % 8:
                wide.append("L(0)")
            wide = ["P0(%s)" % ", ".join(wide[i:i + 8]) for i in range(0, len(wide), 8)]
        edits, length = [], 0
        while length < each // 2 and len(edits) < 10000:
            number += 1
            edits.append("put /%d/%d/%d P1(%s);" % (number % 8, number // 8 % 8, number // 64 % 8, ", ".join("L(%d)" % (number * 7 % 1000 + i) for i in range(8))))
            length += len(edits[-1]) + 1
        parts.append("session on %s { %s }" % (wide[0], " ".join(edits)))
        total += len(parts[-1]) + 1
    return "\n".join(parts).encode()


def worst(size):
    """A tree of one-letter names and brackets alone, wide and flat, in one session."""
    head = "lrc 1 sort S{syn v:Int;}prod A:S(){v=0;}prod B:S(%s){v=if true then 0 else 1;}start S;session on " % ",".join("%s:S" % c for c in "abcdefgh")
    rows = ["A()"] * (size // 5)
    while len(rows) > 1:
        while len(rows) % 8:
            rows.append("A()")
        rows = ["B(%s)" % ",".join(rows[i:i + 8]) for i in range(0, len(rows), 8)]
    return (head + rows[0] + "{}").encode()


def run(program, text, times, fault="not built"):
    """The least processor time of some runs in seconds, and the peak memory in bytes."""
    best, peak = None, 0
    for _ in range(times):
        with tempfile.TemporaryFile() as source, tempfile.TemporaryFile() as err:
            source.write(text)
            source.seek(0)
            child = subprocess.Popen([program, "run"], stdin=source, stdout=subprocess.DEVNULL, stderr=err)
            _, status, used = os.wait4(child.pid, 0)
            spent = used.ru_utime + used.ru_stime
            err.seek(0)
            said = err.read()
        assert os.WEXITSTATUS(status) == 5 and said == b"lrc: job: %s\n" % fault.encode(), (status, said)
        best = spent if best is None else min(best, spent)
        peak = max(peak, used.ru_maxrss * 1024)
    return best, peak


def count(text):
    """Megabytes a second of `wc -c` through a pipe."""
    start = time.perf_counter()
    subprocess.run(["wc", "-c"], input=text, stdout=subprocess.DEVNULL, check=True)
    return len(text) / 1e6 / (time.perf_counter() - start)


def measure(program):
    rates = {}
    for size in (1, 16):
        text = job(size * MEBI - (MEBI // 4 if size == 16 else 0))
        spent, _ = run(program, text, 3)
        rates[size] = len(text) / 1e6 / spent
        print("%d bytes: %.1f megabytes a second of processor time" % (len(text), rates[size]))
    print("ratio %.2f" % (rates[1] / rates[16]))
    spent, _ = run(program, text + b"$", 3, "bad character at %d" % len(text))
    print("tokens alone: %.1f megabytes a second of processor time; wc -c reads %.0f" % (len(text) / 1e6 / spent, count(text)))
    text = worst(4 * MEBI)
    _, peak = run(program, text, 1)
    print("one-byte tokens: %.0f bytes of memory a byte of text (%d bytes)" % (peak / len(text), len(text)))


def main():
    here = os.path.dirname(os.path.abspath(__file__))
    measure(sys.argv[1] if len(sys.argv) > 1 else os.path.join(here, "..", "crates", "lrc", "out", "lrc"))


if __name__ == "__main__":
    main()
