#!/usr/bin/env python3
"""Measures a plain store: a million new cells and a million found again, beside a Rust program.

    bench/store.py [PROGRAM]

PROGRAM is crates/bench_store/out/bench_store where none is named (`rt run` in its folder builds it);
bench/store.rs is built by `rustc -O`. Prints seconds of processor time a million cells of both and
their ratios, and how many bytes of memory a row takes. It measures and is no test.
"""
import os
import subprocess
import sys
import tempfile

ITEMS = 500_000
MORE_ITEMS = 2_500_000
AGAIN = 5
TIMES = 7
RUNS = [(1, 1), (ITEMS, 1), (ITEMS, 1 + AGAIN), (MORE_ITEMS, 1)]


def used(program, items, rounds):
    """The processor time and the peak memory in bytes of a run."""
    child = subprocess.Popen([program, str(items), str(rounds)], stdout=subprocess.DEVNULL)
    _, status, use = os.wait4(child.pid, 0)
    assert status == 0, status
    return use.ru_utime + use.ru_stime, use.ru_maxrss * 1024


def measured(programs):
    """Of each program seconds a million cells that are new, the store's making included, and that are
    found again, and bytes a row: from the least of some runs, in which the programs take turns."""
    seen = {}
    for _ in range(TIMES):
        for run in RUNS:
            for program in programs:
                seen.setdefault((program, run), []).append(used(program, *run))
    figures = []
    for program in programs:
        start, new, again, _ = (min(s for s, _ in seen[program, run]) for run in RUNS)
        _, peak, _, higher = (min(p for _, p in seen[program, run]) for run in RUNS)
        figures.append((new - start, (again - new) / AGAIN, (higher - peak) / (2 * (MORE_ITEMS - ITEMS))))
    return figures


def main():
    here = os.path.dirname(os.path.abspath(__file__))
    program = sys.argv[1] if len(sys.argv) > 1 else os.path.join(here, "..", "crates", "bench_store", "out", "bench_store")
    with tempfile.TemporaryDirectory() as folder:
        plain = os.path.join(folder, "store")
        subprocess.run(["rustc", "-O", os.path.join(here, "store.rs"), "-o", plain], check=True)
        ours, rust = measured([program, plain])
    print("a million new cells: %.4f seconds, in Rust %.4f, ratio %.2f" % (ours[0], rust[0], ours[0] / rust[0]))
    print("a million found again: %.4f seconds, in Rust %.4f, ratio %.2f" % (ours[1], rust[1], ours[1] / rust[1]))
    print("memory: %.1f bytes a row, in Rust %.1f" % (ours[2], rust[2]))


if __name__ == "__main__":
    main()
