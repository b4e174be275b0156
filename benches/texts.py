#!/usr/bin/env python3
"""Times the functions over texts and those of scanning on texts of 100,000 to 1,000,000 bytes.

It runs the program test_rows, which `rt run` builds in its folder, on cases of one function and one long text, and
prints for each the time a case takes at each size. A case is read, applied and printed with its result, so what a case costs that
searches nothing is printed first. It needs Python 3 and nothing else, and stands outside the gate.
"""
import os
import subprocess
import time

TOP = os.path.dirname(os.path.dirname(os.path.abspath(__file__)))
PROGRAM = os.path.join(TOP, "crates", "test_rows", "out", "test_rows")
SIZES = (100_000, 200_000, 500_000, 1_000_000)
TIMES = 20
LIMIT = b"1099511627776 "


def over_texts(case):
    return "strings", lambda size: LIMIT + case(size)


def of_scanning(case):
    return "scan", lambda size: LIMIT + b'"x 1 ' + case(size)


CASES = [
    ("a case that searches nothing", of_scanning(lambda n: b"any 'b \"" + b"a" * n + b" 1 1")),
    ("find, which fails", of_scanning(lambda n: b'find "b "' + b"a" * n)),
    ("find of half of the text", of_scanning(lambda n: b'find "' + b"a" * (n // 2) + b'b "' + b"a" * n)),
    ("find of what is there nearly", of_scanning(lambda n: b'find "ab "' + b"aac" * (n // 3))),
    ("many", of_scanning(lambda n: b"many 'a \"" + b"a" * n)),
    ("upto, which fails", of_scanning(lambda n: b"upto 'b \"" + b"a" * n)),
    ("bal of half opening, half closing", of_scanning(lambda n: b"bal 'b &null &null \"" + b"(" * (n // 2) + b")" * (n // 2))),
    ("match of the whole text", of_scanning(lambda n: b'match "' + b"a" * n + b' "' + b"a" * n)),
    ("reverse", over_texts(lambda n: b'reverse "' + b"ab" * (n // 2))),
    ("map", over_texts(lambda n: b'map "' + b"AB" * (n // 2))),
    ("repl", over_texts(lambda n: b'repl "ab %d' % (n // 2))),
    ("left", over_texts(lambda n: b'left "ab %d "xyz' % n)),
    ("right", over_texts(lambda n: b'right "ab %d "xyz' % n)),
    ("center", over_texts(lambda n: b'center "ab %d "xyz' % n)),
    ("trim", over_texts(lambda n: b'trim "a' + b"_" * n)),
]


def seconds(part, line):
    """What one case takes, of many in one run."""
    cases = b"== %s\n" % part.encode() + (line + b"\n") * TIMES
    begin = time.perf_counter()
    subprocess.run([PROGRAM], input=cases, stdout=subprocess.DEVNULL, check=True)
    return (time.perf_counter() - begin) / TIMES


print("%-36s" % "milliseconds a case" + "".join("%11d" % size for size in SIZES))
for name, (part, case) in CASES:
    print("%-36s" % name + "".join("%11.2f" % (seconds(part, case(size)) * 1000) for size in SIZES))
