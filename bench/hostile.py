#!/usr/bin/env python3
"""Gives the program texts that are broken on purpose, and looks that it ends with a status that a text may have.

    bench/hostile.py [PROGRAM]

The texts are each prefix of each example, each byte of them changed to each of ten others, and some that nest, repeat or
name as much as may be and more. Every run ends with status 0, 5 or 6, writes nothing to standard output with 5 and 6, and
one line to standard error then and none with 0; else the script prints the text's name and ends with status 1. It then
prints how many texts of each kind there were with which status, and the longest time of a run and of a byte of a large
text. It is run by hand, and the gate does not run it.
"""
import collections
import concurrent.futures
import os
import subprocess
import sys
import time

HERE = os.path.dirname(os.path.abspath(__file__))
OTHERS = b"\x00\xff \n{;('0a"
SIZES = (1000, 10000, 100000, 1000000)
HEAD = b"lrc 1 sort A { syn s: Int; } prod P: A (n: Int) { s = n; } prod Q: A (l: A, r: A) { s = l.s + r.s; } start A; "


def examples():
    folder = os.path.join(HERE, "..", "examples")
    return {name: open(os.path.join(folder, name), "rb").read() for name in sorted(os.listdir(folder))}


def prefixes():
    for name, text in examples().items():
        for end in range(len(text)):
            yield "%s up to %d" % (name, end), text[:end]


def changes():
    for name, text in examples().items():
        for at in range(len(text)):
            for other in OTHERS:
                if text[at] != other:
                    yield "%s with %d at %d" % (name, other, at), text[:at] + bytes([other]) + text[at + 1 :]


def large(size):
    """Texts of about so many bytes, each of one shape."""
    many = lambda piece: piece * (size // len(piece))
    yield "spaces", many(b" ")
    yield "open brackets", HEAD.replace(b"s = n;", b"s = " + many(b"(") + b";")
    yield "nested sums", HEAD + b"session on " + many(b"Q(") + b"P(1)" + many(b", P(1))") + b" { }"
    yield "a long name", b"lrc 1 sort " + many(b"a") + b" { }"
    yield "a long number", HEAD + b"session on P(" + many(b"9") + b") { }"
    yield "a long text", HEAD.replace(b"s = n;", b's = n; text "' + many(b"x") + b'";')
    yield "a long path", HEAD + b"session on P(1) { put " + many(b"/0") + b" P(2); }"
    yield "sorts", b"lrc 1 " + many(b"sort A { } ")
    yield "productions", b"lrc 1 sort A { } " + many(b"prod P: A () { } ")
    yield "children", b"lrc 1 sort A { } prod P: A (" + many(b"a: A, ")
    yield "a chain of sums", HEAD.replace(b"s = n;", b"s = n" + many(b" + n") + b";")
    yield "sessions", HEAD + many(b"session on P(1) { } ")
    yield "edits", HEAD + b"session on P(1) { " + many(b"copy / /; ") + b"}"
    yield "bytes that are not UTF-8", many(b"\xc3\x28")
    yield "comments", many(b"# lrc\n")


def shapes():
    for size in SIZES:
        for name, text in large(size):
            yield "%s of %d bytes" % (name, size), text


def run(program, item):
    name, text = item
    began = time.perf_counter()
    done = subprocess.run([program, "run", "--rows", "4096", "--memo", "64"], input=text, capture_output=True, timeout=300)
    wall = time.perf_counter() - began
    lines = done.stderr.count(b"\n")
    right = (done.returncode == 0 and lines == 0) or (done.returncode in (5, 6) and lines == 1 and done.stdout == b"")
    return name, len(text), done.returncode, wall, right


def main():
    program = sys.argv[1] if len(sys.argv) > 1 else os.path.join(HERE, "..", "crates", "lrc", "out", "lrc")
    for kind, items in (("prefixes", prefixes()), ("changes", changes()), ("shapes", shapes())):
        statuses, longest, dearest = collections.Counter(), 0.0, 0.0
        with concurrent.futures.ThreadPoolExecutor(os.cpu_count()) as pool:
            for name, size, status, wall, right in pool.map(lambda item: run(program, item), items):
                if not right:
                    sys.exit("%s ends with status %d" % (name, status))
                statuses[status] += 1
                longest = max(longest, wall)
                if size >= 100000:
                    dearest = max(dearest, wall / size)
        counts = ", ".join("%d with status %d" % (statuses[status], status) for status in sorted(statuses))
        print("%s: %d texts, %s; at most %.2f s, %.0f ns a byte of a large text" % (kind, sum(statuses.values()), counts, longest, dearest * 1e9))


if __name__ == "__main__":
    main()
