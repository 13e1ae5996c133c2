#!/usr/bin/env python3
"""Runs the worked rows on the program, and compares what it writes and the status that it ends with.

A row is tests/rows/NAME.in with NAME.out and NAME.status (and NAME.args, one word a line, where the program has words). The rows
that would be long as files are made here. Usage: run_rows.py [PROGRAM]; without one the program is built by tests/build.sh."""
import pathlib, subprocess, sys

here = pathlib.Path(__file__).resolve().parent
REFUSED = b"input refused 1 NotBuilt\n"


def deep(levels):
    """A document of so many elements in one another, with a text in the innermost one."""
    return b"!document\n" + b"(a\n" * levels + b"-x\n" + b")a\n" * levels + b"!script\nshow\n"


def long(size):
    """An input of exactly so many bytes: one element with one text."""
    head, tail = b"!document\n(doc\n-", b"\n)doc\n!script\nshow\n"
    return head + b"a" * (size - len(head) - len(tail)) + tail


def rows():
    for out in sorted((here / "rows").glob("*.out")):
        path = out.with_suffix("")
        args = path.with_suffix(".args")
        yield path.name, args.read_text().splitlines() if args.exists() else [], path.with_suffix(".in").read_bytes(), out.read_bytes(), int(path.with_suffix(".status").read_text())
    yield "depth-120", [], deep(120), b"plain x\n", 0
    yield "depth-121", [], deep(121), REFUSED, 3
    text = long(16384).split(b"-", 1)[1].split(b"\n", 1)[0]
    yield "size-16384", [], long(16384), b"plain " + text + b"\n", 0
    yield "size-16385", [], long(16385), REFUSED, 3


def main():
    program = sys.argv[1] if len(sys.argv) > 1 else subprocess.run([here / "build.sh"], check=True, capture_output=True, text=True).stdout.strip()
    passed = failed = 0
    for name, args, given, out, status in rows():
        done = subprocess.run([program, *args], input=given, capture_output=True, timeout=120)
        if (done.stdout, done.returncode) == (out, status):
            passed += 1
            continue
        failed += 1
        print(f"{name}: status {done.returncode}, wanted {status}; wrote {done.stdout[:200]!r}, wanted {out[:200]!r}")
    print(f"rows: {passed} passed, {failed} failed")
    sys.exit(1 if failed else 0)


main()
