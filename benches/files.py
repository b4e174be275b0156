#!/usr/bin/env python3
"""Times the built icont on many files: several sources against one of their size, their ucode written and read back, units that link
one another, many small files, and programs of a number.

It builds by make, or takes the program that ICONT names, writes its files into a folder of its own, and prints for each case the time
of the processor, the rate by what is read and the peak of memory. Each case is linear where its rate stays as its number grows. It
needs Python 3 and nothing else, and stands outside the gate.
"""
import os
import subprocess
import sys
import tempfile

TOP = os.path.dirname(os.path.dirname(os.path.abspath(__file__)))
ICONT = os.environ.get("ICONT") or os.path.join(TOP, "bin", "icont")
MIB = 1 << 20
LINE = b'  write("hello, world", 42, 16rFF)  # says it\n'


def ordinary(name, size):
    """A procedure of about so many bytes, with one line again and again."""
    head, tail = b"procedure %s()\n" % name, b"end\n"
    return head + LINE * ((size - len(head) - len(tail)) // len(LINE)) + tail


def put(folder, name, content):
    with open(os.path.join(folder, name), "wb") as file:
        file.write(content)



def one_source(folder, count):
    """One source of so many MiB."""
    put(folder, "a.icn", ordinary(b"main", count * MIB))
    return [], ["a.icn"]


def sources(folder, count):
    """So many sources of 1 MiB."""
    names = [f"a{k}.icn" for k in range(count)]
    for k, name in enumerate(names):
        put(folder, name, ordinary(b"main" if k == 0 else b"p%d" % k, MIB))
    return [], names


def ucode(folder, count):
    """The same, translated to ucode."""
    before, words = sources(folder, count)
    return before, ["-c"] + words


def units(folder, count):
    """The same from their ucode."""
    before, words = ucode(folder, count)
    return [words], [word.replace(".icn", ".u1") for word in words[1:]]


def one_line_each(folder, count):
    """So many thousand sources of one procedure of one line."""
    names = [f"a{k}.icn" for k in range(1000 * count)]
    for k, name in enumerate(names):
        put(folder, name, b"procedure p%d(); write(%d); end\n" % (k, k))
    return [], names


def one_line_units(folder, count):
    """The same from their ucode."""
    before, words = one_line_each(folder, count)
    return [["-c"] + words], [word.replace(".icn", ".u1") for word in words]


def star(folder, count):
    """A source that links so many thousand units."""
    before, words = one_line_units(folder, count)
    names = [word[: -len(".u1")] for word in words]
    put(folder, "main.icn", b"".join(b"link %s\n" % name.encode() for name in names) + b"procedure main(); end\n")
    return before, ["main.icn"]


def chain(folder, count):
    """So many thousand units, of which each links the next, from the first."""
    names = [f"a{k}.icn" for k in range(1000 * count)]
    for k, name in enumerate(names):
        link = b"link a%d\n" % (k + 1) if k + 1 < len(names) else b""
        put(folder, name, link + b"procedure p%d(); write(%d); end\n" % (k, k))
    return [["-c"] + names], ["a0.u1"]


def same_name(folder, count):
    """One source, named so many thousand times."""
    put(folder, "a.icn", ordinary(b"main", 1024))
    return [], ["a.icn"] * (1000 * count)


def of_number(folder, count):
    """The program of so many hundred procedures, translated, written, run and counted."""
    return [], ["-g", str(100 * count)]


CASES = [
    (one_source, [1, 4, 16]),
    (sources, [1, 4, 16, 64, 100]),
    (ucode, [1, 4, 16, 64]),
    (units, [1, 4, 16, 64]),
    (one_line_each, [1, 2, 4, 8]),
    (one_line_units, [1, 2, 4, 8]),
    (star, [1, 2, 4, 8]),
    (chain, [1, 2, 4, 8]),
    (same_name, [1, 2, 4, 8]),
    (of_number, [5, 10, 20]),
]


def run(folder, words):
    """The seconds of the processor, the peak of memory in bytes and the status of icont with these words."""
    pid = os.fork()
    if pid == 0:
        null = os.open(os.devnull, os.O_WRONLY)
        os.dup2(null, 1)
        os.dup2(null, 2)
        os.chdir(folder)
        os.execv(ICONT, ["icont"] + words)
    _, status, usage = os.wait4(pid, 0)
    return usage.ru_utime + usage.ru_stime, usage.ru_maxrss * 1024, os.waitstatus_to_exitcode(status)


def main():
    if "ICONT" not in os.environ:
        subprocess.run(["make", "-s", "-C", TOP, "bin/icont"], check=True)
    chosen = sys.argv[1:]
    print(f"{'case':15} {'count':>5} {'seconds':>8} {'a count':>8} {'memory':>9} status")
    for make, counts in CASES:
        if chosen and make.__name__ not in chosen:
            continue
        for count in counts:
            with tempfile.TemporaryDirectory() as folder:
                before, words = make(folder, count)
                for other in before:
                    run(folder, other)
                seconds, peak, status = run(folder, words)
            print(f"{make.__name__:15} {count:5} {seconds:8.2f} {seconds / count:8.3f} {peak / MIB:6.0f}MiB {status}", flush=True)


if __name__ == "__main__":
    main()
