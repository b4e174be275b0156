#!/usr/bin/env python3
"""Times changes of a heap: what 50,000 to 400,000 of them take, one kind after the other.

It runs the program test_store, which `rt run` builds in its folder, on lines of one kind of call, and prints the milliseconds of the
processor for each count. A line is read, applied and printed, so what lines cost that change nothing is printed first. It needs Python 3
and nothing else, and stands outside the gate.
"""
import os
import resource
import subprocess

TOP = os.path.dirname(os.path.dirname(os.path.abspath(__file__)))
PROGRAM = os.path.join(TOP, "crates", "test_store", "out", "test_store")
COUNTS = (50_000, 100_000, 200_000, 400_000)
BEGIN = "== heap\nnew 1099511627776 2147483647\nfill 0\ntable 0\n"
KINDS = (
    ("a call that changes nothing", lambda n: "size 1\n"),
    ("put", lambda n: "put =0 1\n"),
    ("put and get", lambda n: "put =0 1\nget =0\n"),
    ("store of a new integer", lambda n: "store =1 %d 1\n" % n),
    ("store of one of 16 integers", lambda n: "store =1 %d 1\n" % (n % 16)),
    ("store of a new text", lambda n: 'store =1 "%d 1\n' % n),
    ("look for one of 16 integers", lambda n: "look =1 %d\n" % (n % 16)),
)


def milliseconds(lines):
    """What one run on these lines takes of the processor."""
    before = resource.getrusage(resource.RUSAGE_CHILDREN)
    subprocess.run([PROGRAM], input=lines, stdout=subprocess.DEVNULL, check=True)
    after = resource.getrusage(resource.RUSAGE_CHILDREN)
    return 1000 * (after.ru_utime + after.ru_stime - before.ru_utime - before.ru_stime)


print("%-30s" % "milliseconds" + "".join("%10d" % count for count in COUNTS))
for name, call in KINDS:
    times = []
    for count in COUNTS:
        lines = (BEGIN + "".join(call(n) for n in range(count))).encode()
        times.append(min(milliseconds(lines) for _ in range(3)))
    print("%-30s" % name + "".join("%10.0f" % time for time in times))
