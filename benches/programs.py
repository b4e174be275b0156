#!/usr/bin/env python3
"""Times twenty programs of some 60 to 140 lines in the manner of the Icon book, by this Icon and by another one beside it.

The programs stand in benches/programs/, each with a head that says what it does; its first argument is its size. `make` builds
bin/icont and bin/iconx, which this takes; `--this FOLDER` takes those of another folder. Where another Icon's `icont` and `iconx` are
in /usr/bin, or in the folder that `--beside` names, each program is translated by both, run three times by each in turn, and the least
time of the processor of each is printed with the ratio; at the end stands the median of the ratios. An output that differs is told.

`--small` runs each program with its small size instead and compares what it writes with NAME.out, by both; that takes a moment.
Names of programs as arguments choose some of them. It needs Python 3 and nothing else, and stands outside the gate.
"""
import argparse
import os
import resource
import statistics
import subprocess
import sys
import tempfile

TOP = os.path.dirname(os.path.dirname(os.path.abspath(__file__)))
PROGRAMS = os.path.join(TOP, "benches", "programs")
LIMITS = ["-s", "8000000000", "-b", "400000000"]

# of each program the small size, the size that is timed, and the file of its input
SIZES = {
    "accounts": (300, 100000, None),
    "anagram": (500, 80000, None),
    "calc": (2, 2000, "calc.in"),
    "codec": (30, 12000, None),
    "concord": (2, 500, "prose.in"),
    "coqueens": (6, 9, None),
    "csv": (200, 60000, None),
    "derive": (3, 6, "derive.in"),
    "diff": (40, 900, None),
    "events": (200, 50000, None),
    "format": (3, 1000, "prose.in"),
    "huffman": (2, 120, "prose.in"),
    "knight": (8, 200, None),
    "life": (60, 4000, None),
    "markov": (150, 300000, "prose.in"),
    "segment": (30, 8000, "prose.in"),
    "sudoku": (3, 400, None),
    "tokenize": (2, 1500, "tokenize.in"),
    "wildcard": (300, 10000, None),
    "xref": (2, 900, "xref.in"),
}


class Icon:
    """One of the two, by the folder of its programs; the images that it makes stand in a folder of their own."""

    def __init__(self, commands, options, limits, images):
        self.commands, self.options, self.limits, self.images = os.path.abspath(commands), options, limits, images
        os.mkdir(images)

    def there(self):
        return all(os.path.exists(os.path.join(self.commands, name)) for name in ("icont", "iconx"))

    def translate(self, name):
        with open(os.path.join(PROGRAMS, name + ".icn"), "rb") as source:
            with open(os.path.join(self.images, name + ".icn"), "wb") as copy:
                copy.write(source.read())
        subprocess.run([os.path.join(self.commands, "icont"), *self.options, name + ".icn"], cwd=self.images, check=True)

    def run(self, name, size, text):
        """The time of the processor that a run took, and what it wrote."""
        words = [os.path.join(self.commands, "iconx"), *self.limits, name, str(size)]
        before = resource.getrusage(resource.RUSAGE_CHILDREN)
        with open(os.path.join(PROGRAMS, text) if text else os.devnull, "rb") as lines:
            ran = subprocess.run(words, cwd=self.images, stdin=lines, stdout=subprocess.PIPE, stderr=subprocess.STDOUT)
        after = resource.getrusage(resource.RUSAGE_CHILDREN)
        taken = after.ru_utime + after.ru_stime - before.ru_utime - before.ru_stime
        return taken, ran.stdout + (b"" if ran.returncode == 0 else b"status %d\n" % ran.returncode)


def small(names, icons):
    """How many programs wrote something else than they should."""
    wrong = 0
    for name in names:
        size, _, text = SIZES[name]
        with open(os.path.join(PROGRAMS, name + ".out"), "rb") as file:
            due = file.read()
        for kind, icon in icons:
            icon.translate(name)
            if icon.run(name, size, text)[1] != due:
                wrong += 1
                print("%s %d: %s wrote otherwise" % (name, size, kind))
    print("%d programs, %d wrote otherwise" % (len(names), wrong))
    return wrong


def timed(names, icons):
    print("%-12s %8s %s %8s" % ("", "size", " ".join("%8s" % kind for kind, _ in icons), "ratio" if len(icons) > 1 else ""))
    ratios = []
    wrong = 0
    for name in names:
        _, size, text = SIZES[name]
        for _, icon in icons:
            icon.translate(name)
        runs = [[icon.run(name, size, text) for _, icon in icons] for _ in range(3)]
        least = [min(runs[turn][i][0] for turn in range(3)) for i in range(len(icons))]
        line = "%-12s %8d %s" % (name, size, " ".join("%8.2f" % time for time in least))
        if len(icons) > 1:
            ratios.append(least[0] / max(least[1], 0.001))
            line += " %8.1f" % ratios[-1]
        if len({wrote for turn in runs for _, wrote in turn}) > 1:
            wrong += 1
            line += "  (wrote otherwise)"
        elif b"status " in runs[0][0][1][-12:]:
            wrong += 1
            line += "  (ended by an error)"
        print(line, flush=True)
    if ratios:
        print("median of the ratios %.1f, from %.1f to %.1f" % (statistics.median(ratios), min(ratios), max(ratios)))
    return wrong


def main():
    parser = argparse.ArgumentParser(description="times the programs of benches/programs/")
    parser.add_argument("--this", default=os.path.join(TOP, "bin"), help="the folder of this icont and iconx")
    parser.add_argument("--beside", default="/usr/bin", help="the folder of another icont and iconx, taken where they are there")
    parser.add_argument("--small", action="store_true", help="only compare what the small sizes write")
    parser.add_argument("names", nargs="*", help="programs; all where none is named")
    words = parser.parse_args()
    for name in words.names:
        if name not in SIZES:
            parser.error("no program " + name)
    names = words.names or list(SIZES)
    with tempfile.TemporaryDirectory() as folder:
        this = Icon(words.this, [], LIMITS, os.path.join(folder, "this"))
        beside = Icon(words.beside, ["-s", "-u"], [], os.path.join(folder, "beside"))
        if not this.there():
            sys.exit("no icont and iconx in %s: `make` builds them" % this.commands)
        icons = [("this", this)] + ([("beside", beside)] if beside.there() else [])
        sys.exit(1 if (small if words.small else timed)(names, icons) else 0)


main()
