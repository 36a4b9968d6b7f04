#!/usr/bin/env python3
"""Measures the gate: seconds of processor time that each crate takes for its proof, its tests and its wrong bodies.

    bench/gate.py [CRATE..]

Runs `rt ci --anew` on a fresh clone of this repository, or on these crates and those below them, so that every
proof and every wrong body is done anew, and looks five times a second at the processes that it starts. A process of
the prover counts for the crate that its words name: as tests where its words say so, as wrong bodies where it works
in a copy that `rt` made for one, and else as proof. A process that it starts counts as it does. What no look saw, as
the end of each process, is the difference to what the system counted for all of them, where that is more; it has a
row of its own. The whole gate takes an hour or two, and other work on the machine makes each figure larger.

Prints a table with the dearest crates first, and the sum in minutes. It measures and is no test.
"""
import ctypes
import os
import resource
import subprocess
import sys
import tempfile
import time

KINDS = ("proof", "tests", "wrong bodies")
TICKS = os.sysconf("SC_CLK_TCK")
PAUSE = 0.2

# prctl's word by which processes whose parent has ended become children of this one
ADOPTS = 36


def words_of(process):
    with open("/proc/%d/cmdline" % process, "rb") as file:
        return file.read().decode(errors="replace").split("\0")


def stat_of(process):
    """The parent of a process, when it began, and the seconds that it has taken by itself."""
    with open("/proc/%d/stat" % process) as file:
        fields = file.read().rpartition(")")[2].split()
    return int(fields[1]), int(fields[19]), (int(fields[11]) + int(fields[12])) / TICKS


def own_label(process):
    """The crate and the kind of work of a process of the prover, or None of another process."""
    words = words_of(process)
    if os.path.basename(words[0]) != "rattle" or "--crate-name" not in words:
        return None
    crate = words[words.index("--crate-name") + 1]
    folders = [os.readlink("/proc/%d/cwd" % process), *words]
    if any("/rt-edit" in folder for folder in folders):
        return crate, KINDS[2]
    return crate, KINDS[1] if "--test" in words else KINDS[0]


class Processes:
    """What was seen of the processes that this one has started."""

    def __init__(self):
        self.labels = {}
        self.seconds = {}

    def look(self):
        """Notes what each living process has taken so far."""
        found = {}
        for name in os.listdir("/proc"):
            if name.isdigit():
                try:
                    found[int(name)] = stat_of(int(name))
                except OSError:
                    pass
        inside = {}
        for process in found:
            if process != os.getpid() and self.is_inside(process, found, inside):
                self.note(process, found)

    def is_inside(self, process, found, inside):
        if process == os.getpid():
            return True
        if process not in found:
            return False
        if process not in inside:
            inside[process] = False
            inside[process] = self.is_inside(found[process][0], found, inside)
        return inside[process]

    def note(self, process, found):
        parent, began, seconds = found[process]
        key = process, began
        try:
            label = own_label(process)
        except OSError:
            label = None
        if label is None and key not in self.labels and parent in found:
            label = self.labels.get((parent, found[parent][1]))
        if label is not None or key not in self.labels:
            self.labels[key] = label
        self.seconds[key] = seconds

    def sums(self):
        sums = {}
        for key, seconds in self.seconds.items():
            label = self.labels[key]
            sums[label] = sums.get(label, 0) + seconds
        return sums


def ended(first):
    """Lets the children that have ended go, and returns the status of one of them if it is among these."""
    while True:
        try:
            process, status = os.waitpid(-1, os.WNOHANG)
        except ChildProcessError:
            return None
        if process == first:
            return os.waitstatus_to_exitcode(status)
        if process == 0:
            return None


def gate_of(folder, crates):
    """Runs the gate, and returns the status, the sums by crate and kind of work, and the seconds of all."""
    log = tempfile.NamedTemporaryFile(prefix="gate-", suffix=".log", delete=False)
    ctypes.CDLL(None).prctl(ADOPTS, 1, 0, 0, 0)
    before = resource.getrusage(resource.RUSAGE_CHILDREN)
    gate = subprocess.Popen(["rt", "ci", "--anew", *crates], cwd=folder, stdin=subprocess.DEVNULL, stdout=log, stderr=log)
    processes, status = Processes(), None
    while status is None:
        processes.look()
        time.sleep(PAUSE)
        status = ended(gate.pid)
    ended(gate.pid)
    after = resource.getrusage(resource.RUSAGE_CHILDREN)
    counted = after.ru_utime + after.ru_stime - before.ru_utime - before.ru_stime
    print("what the gate printed is in %s" % log.name)
    return status, processes.sums(), counted


def print_table(sums, counted):
    unseen = max(0, counted - sum(sums.values()))
    row = "%-22s %9s %9s %13s %9s"
    print(row % ("crate", *KINDS, "sum"))
    crates = {label[0] for label in sums if label}
    parts = {crate: [sums.get((crate, kind), 0) for kind in KINDS] for crate in crates}
    for crate in sorted(parts, key=lambda crate: -sum(parts[crate])):
        shown = ["%.0f" % seconds for seconds in (*parts[crate], sum(parts[crate]))]
        print(row % (crate, *shown))
    columns = [sum(part[kind] for part in parts.values()) for kind in range(len(KINDS))]
    print(row % ("all crates", *("%.0f" % seconds for seconds in (*columns, sum(columns)))))
    print(row % ("the gate itself", "", "", "", "%.0f" % sums.get(None, 0)))
    print(row % ("not seen", "", "", "", "%.0f" % unseen))
    print("%.1f minutes of processor time" % ((sum(sums.values()) + unseen) / 60))


def main():
    root = os.path.dirname(os.path.dirname(os.path.abspath(__file__)))
    with tempfile.TemporaryDirectory(prefix="gate-") as room:
        folder = os.path.join(room, "clone")
        subprocess.run(["git", "clone", "-q", root, folder], check=True)
        status, sums, counted = gate_of(folder, sys.argv[1:])
    print_table(sums, counted)
    return status


if __name__ == "__main__":
    sys.exit(main())
