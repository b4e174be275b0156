#!/usr/bin/env python3
"""Measures the most memory that programs take which make much and keep little: lines, words, literals, lists, records, a queue.

    python3 benches/memory.py [--small] [--bin FOLDER] [FOLDER]

`make` builds the programs in bin/, which this takes; `--bin` names another folder. Where another Icon's `icont` and `iconx` are installed,
their folder as an argument (`benches/memory.py /usr/bin`) runs the same programs by them, and prints their memory beside. Each program
waits at its end, so that Linux can be asked how much it had (`VmHWM`). With `--small` all is a tenth as much. It needs Python 3 and
Linux, and stands outside the gate.
"""
import os
import subprocess
import sys
import tempfile

TOP = os.path.dirname(os.path.dirname(os.path.abspath(__file__)))
LIMITS = ["-s", "1000000000000", "-b", "4000000000"]

# A thousand lines of 100 bytes with their newlines.
LINES = b"".join(b"line %09d word%05d %s\n" % (number, number % 7919, b"x" * 74) for number in range(1000))

# Which program by what it is told of: its body, which reads a number from the first line, and that number; how many thousands of lines follow.
PROGRAMS = {
    "200 MB of lines, of which none is kept": ("x := 0; every 1 to n do x +:= *read()", 2_000_000, 2_000),
    "of these a word of each tenth, in a list": (
        'x := []; every i := 1 to n do { l := read(); if i % 10 = 0 then l ? { tab(16); put(x, tab(upto(" "))) } }; x := *x',
        2_000_000,
        2_000,
    ),
    "a literal": ('every 1 to n do x := "a literal of forty bytes, not one byte more"; x := *x', 2_000_000, 0),
    "lists of two, of which one is kept": ("every i := 1 to n do { l := [i, i]; if i = n / 2 then x := l }; x := x[1]", 6_000_000, 0),
    "records of two, of which one is kept": ("every i := 1 to n do { l := pair(i, i); if i = n / 2 then x := l }; x := x.a", 6_000_000, 0),
    "tables of one key, of which one is kept": (
        "every i := 1 to n do { l := table(); l[i] := i; if i = n / 2 then x := l }; x := *x",
        1_000_000,
        0,
    ),
    "a value through a queue": ("l := []; every i := 1 to n do { put(l, i); x := get(l) }", 20_000_000, 0),
}
SOURCE = """record pair(a, b)
procedure main()
   local i, l, n, x
   n := read()
   %s
   write(&errout, x)
   read()
end
"""


def most_memory(process):
    """How many KB of memory a process had at the most."""
    with open(f"/proc/{process.pid}/status", encoding="ascii") as status:
        return next(int(line.split()[1]) for line in status if line.startswith("VmHWM"))


def run(words, folder, number, thousands):
    """How many KB a program took at the most that reads a number and then lines, and what it put."""
    with subprocess.Popen(words, cwd=folder, stdin=subprocess.PIPE, stderr=subprocess.PIPE) as process:
        process.stdin.write(b"%d\n" % number)
        for _ in range(thousands):
            process.stdin.write(LINES)
        process.stdin.flush()
        put = process.stderr.readline()
        most = most_memory(process)
        process.stdin.close()
    return most, put


def main():
    words = sys.argv[1:]
    part = 10 if "--small" in words else 1
    words = [word for word in words if word != "--small"]
    ours = os.path.join(TOP, "bin")
    if words[:1] == ["--bin"]:
        ours = os.path.abspath(words[1])
        words = words[2:]
    beside = words[0] if words else None
    print("%-45s %12s %12s" % ("KB", "this", "beside" if beside else ""))
    with tempfile.TemporaryDirectory() as folder:
        for name, (body, number, thousands) in PROGRAMS.items():
            with open(os.path.join(folder, "p.icn"), "w", encoding="ascii") as file:
                file.write(SOURCE % body)
            subprocess.run([os.path.join(ours, "icont"), "p.icn"], cwd=folder, check=True)
            here, put = run([os.path.join(ours, "iconx"), *LIMITS, "p"], folder, number // part, thousands // part)
            there = ""
            if beside:
                subprocess.run([os.path.join(beside, "icont"), "-s", "-o", "other", "p.icn"], cwd=folder, check=True)
                most, other = run([os.path.join(beside, "iconx"), "other"], folder, number // part, thousands // part)
                there = "%12d%s" % (most, "" if other == put else " (put otherwise)")
            print("%-45s %12d %s" % (name, here, there), flush=True)


main()
