#!/usr/bin/env python3
"""Measures the shared table beside one that is written by hand in Rust (bench/table.rs).

    bench/table.py [PROGRAM]

PROGRAM is crates/bench_table/out/bench_table, which `rt run bench_table` builds; the Rust program is
built here by `rustc -O`. For a million new numbers, a million found again, both on one thread and on
as many as there are processors, and a million recalls found and missed it prints seconds of both and
their ratio; then the time to make a table of 262,144 rows beside that of zeroed memory whose pages
are touched, and the peak beside a table's size. One process is one run, the runs of both take turns, and
the fewest seconds of processor time count (with threads, of the clock). It is no test.
"""
import os
import subprocess
import sys
import tempfile
import time

HERE = os.path.dirname(os.path.abspath(__file__))
MILLION = 1000000
AGAIN = 10
RECALLS = 100
TURNS = 7


def run(program, what, count, rounds, levels):
    start = time.perf_counter()
    child = subprocess.Popen([program, what, str(count), str(rounds), str(levels)], stdout=subprocess.DEVNULL)
    _, status, usage = os.wait4(child.pid, 0)
    clock = time.perf_counter() - start
    child.returncode = os.waitstatus_to_exitcode(status)
    assert child.returncode == 0, (program, what)
    return (clock if levels else usage.ru_utime + usage.ru_stime), usage.ru_maxrss


def fewest(programs, what, count, rounds, levels):
    best = [None] * len(programs)
    for _ in range(TURNS):
        for place, program in enumerate(programs):
            spent, _ = run(program, what, count, rounds, levels)
            best[place] = spent if best[place] is None else min(best[place], spent)
    return best


def compare(name, more, less, times):
    ours, rust = ((a - b) / times for a, b in zip(more, less))
    print("%-46s %.4f s, in Rust %.4f s, ratio %.2f" % (name, ours, rust, ours / rust))


def numbers(programs, levels):
    where = "" if levels == 0 else " on %d threads" % 2 ** levels
    made, new, found = (fewest(programs, "numbers", MILLION, rounds, levels) for rounds in (0, 1, 1 + AGAIN))
    compare("a million new numbers" + where, new, made, 1)
    compare("a million found again" + where, found, new, AGAIN)


def recalls(programs, what, name):
    more, less = (fewest(programs, what, MILLION, rounds, 0) for rounds in (RECALLS, 0))
    compare("a million recalls " + name, more, less, RECALLS)


def making(programs):
    small = fewest(programs, "numbers", 1, 0, 0)
    compare("a table of 262,144 rows and memo words", fewest(programs, "numbers", 262144, 0, 0), small, 1)
    words = 2 ** 23 + 4 * 2 ** 22 + 2 ** 22
    for program, name in zip(programs, ("the peak of a table of 4,194,304 rows", "in Rust")):
        peak = run(program, "numbers", 2 ** 22, 0, 0)[1]
        print("%s: %.2f of its %.0f MiB" % (name, peak * 1024 / (8 * words), 8 * words / 2 ** 20))


def main():
    ours = sys.argv[1] if len(sys.argv) > 1 else os.path.join(HERE, "..", "crates", "bench_table", "out", "bench_table")
    with tempfile.TemporaryDirectory() as folder:
        rust = os.path.join(folder, "table")
        subprocess.run(["rustc", "-O", "-o", rust, os.path.join(HERE, "table.rs")], check=True)
        programs = (ours, rust)
        numbers(programs, 0)
        numbers(programs, (os.cpu_count() or 1).bit_length() - 1)
        recalls(programs, "remembered", "found")
        recalls(programs, "missed", "missed")
        making(programs)


if __name__ == "__main__":
    main()
