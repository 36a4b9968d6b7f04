#!/usr/bin/env python3
"""Measures the ordered test and plans: a grammar at every limit at once, and one of half its productions.

    bench/order.py [PROGRAM]

64 sorts of 16 attributes, and 256 and 128 productions of 8 children and 16 locals. The attributes of
a sort alternate: what is synthesised needs what was inherited before it, so that a sort has eight
visits. `check` reads, accepts and tests the grammar, which is ordered, and `plan` makes its visit
sequences and bindings besides. Prints seconds of processor time of both sizes, and their ratio. It
measures and is no test.
"""
import os
import subprocess
import sys
import tempfile


def sort(number, attributes):
    inherits = number > 0
    attrs = []
    for i in range(attributes):
        attrs.append("%s a%d: Int;" % ("inh" if inherits and i % 2 == 0 else "syn", i))
    return "sort S%d { %s }" % (number, " ".join(attrs))


def production(number, sorts, attributes):
    """A production whose children are of the sorts behind its own, and whose locals, as many as attributes, are a chain."""
    left = number % sorts
    kids = [(left + 1 + (number // sorts + i) % (sorts - 1)) % sorts or 1 for i in range(8)]
    items, last = [], "1"
    for i in range(attributes):
        items.append("local l%d: Int = %s + 1;" % (i, last))
        last = "l%d" % i
    for k in range(8):
        for i in range(0, attributes, 2):
            before = "k%d.a%d" % (k, i - 1) if i else last
            items.append("k%d.a%d = %s;" % (k, i, before if left == 0 or i == 0 else before + " + a%d" % i))
    for i in range(attributes):
        if left == 0:
            items.append("a%d = k%d.a%d;" % (i, i % 8, attributes - 1 if i % 2 == 0 else i))
        elif i % 2:
            items.append("a%d = %s;" % (i, " + ".join(["a%d" % (i - 1)] + ["k%d.a%d" % (k, i) for k in range(8)])))
    head = ", ".join("k%d: S%d" % (k, s) for k, s in enumerate(kids))
    return "prod P%d: S%d (%s) { %s }" % (number, left, head, " ".join(items))


def grammar(productions, attributes=16):
    lines = ["lrc 1"] + [sort(i, attributes) for i in range(64)]
    lines += [production(i, 64, attributes) for i in range(productions)]
    return "\n".join(lines + ["start S0;"]).encode()


def seconds(program, command, text, times):
    best = None
    for _ in range(times):
        with tempfile.TemporaryFile() as source:
            source.write(text)
            source.seek(0)
            child = subprocess.Popen([program, command], stdin=source, stdout=subprocess.DEVNULL)
            _, status, used = os.wait4(child.pid, 0)
        assert status == 0, status
        spent = used.ru_utime + used.ru_stime
        best = spent if best is None else min(best, spent)
    return best


def main():
    here = os.path.dirname(os.path.abspath(__file__))
    program = sys.argv[1] if len(sys.argv) > 1 else os.path.join(here, "..", "crates", "lrc", "out", "lrc")
    for command in ("check", "plan"):
        spent = {}
        for productions in (128, 256):
            spent[productions] = seconds(program, command, grammar(productions), 3)
            print("%s, %d productions: %.3f seconds of processor time" % (command, productions, spent[productions]))
        print("%s: ratio %.2f" % (command, spent[256] / spent[128]))


if __name__ == "__main__":
    main()
