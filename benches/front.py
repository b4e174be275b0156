#!/usr/bin/env python3
"""Times the built icont on large sources: from the bytes of a file over its unit to its image and its run, or to its refusal.

It builds by make, writes its sources into a folder of its own, and prints for each the time of the processor, the
rate and the peak of memory. It needs Python 3 and nothing else, and stands outside the gate.
"""
import os
import subprocess
import sys
import tempfile

TOP = os.path.dirname(os.path.dirname(os.path.abspath(__file__)))
ICONT = os.path.join(TOP, "bin", "icont")
MIB = 1 << 20


def filled(head, line, tail, size):
    """A source of about so many bytes, with one line again and again."""
    count = (size - len(head) - len(tail)) // len(line)
    return head + line * count + tail


def ordinary(size):
    return filled(b"procedure main()\n", b'  write("hello, world", 42, 16rFF)  # says it\n', b"end\n", size)


def tokens(size):
    """One procedure of expressions, 100,000 of them in 4.1 MiB. The first of them is an error of its run."""
    return filled(b"procedure main()\n", b"x := y + 10 * f(a, b, c) || s[i:j] & not z\n", b"end\n", size)


def comments(size):
    return filled(b"", b"# " + b"a long comment " * 200 + b"\n", b"procedure main()\nend\n", size)


def one_line(size):
    return filled(b"procedure main();write(1", b",2", b");end", size)


def defines(size):
    head = b"".join(b"$define N%d %d\n" % (i, i) for i in range(10000))
    return filled(head + b"procedure main()\n", b"  write(N17, N9999, N123, N4567, other)\n", b"end\n", size)


def empty_lines(size):
    return filled(b"", b"\n", b"", size)


FORMS = b"""procedure p%d(a, b, c[])
local d, e
static f
initial f := table(0)
  while d := read(a) do every e := 1 to *d by 2 do {
    if d == "x" then next else break
    case e of { 1 | 2: f[d] +:= 1; default: put(b, d[e:e + 1], \\x ~=== y) }
  }
  repeat { until not (e > 3) do suspend [a, b ! c] do fail; break write(d.g, &pos, 'abc') }
  return create p%d{a, b}(^@c, -d ^ 2 ^ 3 || "s" ||| f[1, 2]) ? tab(0) & a <-> b
end
"""


def forms(size):
    """Every form of expressions, in procedures of eleven lines. There is no `main`, so that a run is an error at once."""
    count = size // (len(FORMS) + 6)
    return b"".join(FORMS % (i, i) for i in range(count))


def literals(size):
    """An integer of its own on each line: 65536 of them in 0.8 MiB."""
    lines, length = [], 21
    while length < size - 20:
        lines.append(b"x := %d\n" % len(lines))
        length += len(lines[-1])
    return b"procedure main()\n" + b"".join(lines) + b"end\n"


def instructions(size):
    """A short expression on each line, a million instructions in 0.8 MiB: each line is a mark, two of them, an operation, and an end."""
    return filled(b"procedure main()\n", b"-1\n", b"end\n", size)


def junk(size):
    return b"\xa5" * size


SOURCES = [ordinary, tokens, comments, one_line, defines, empty_lines, forms, literals, instructions, junk]


def timed(folder, make, size):
    """The seconds of the processor and the peak of memory, in bytes, of icont on a source."""
    path = os.path.join(folder, "f.icn")
    source = make(size)
    with open(path, "wb") as file:
        file.write(source)
    pid = os.fork()
    if pid == 0:
        null = os.open(os.devnull, os.O_WRONLY)
        os.dup2(null, 1)
        os.dup2(null, 2)
        os.chdir(folder)
        os.execv(ICONT, ["icont", "f.icn", "-x"])
    _, status, usage = os.wait4(pid, 0)
    seconds = usage.ru_utime + usage.ru_stime
    return len(source), seconds, usage.ru_maxrss * 1024, os.waitstatus_to_exitcode(status)


def main():
    subprocess.run(["make", "-s", "-C", TOP, "bin/icont"], check=True)
    sizes = [int(word) for word in sys.argv[1:]] or [1, 2, 4, 8, 16]
    print(f"{'source':12} {'MiB':>4} {'seconds':>8} {'MB/s':>7} {'memory':>7} status")
    with tempfile.TemporaryDirectory() as folder:
        for make in SOURCES:
            for size in sizes:
                length, seconds, peak, status = timed(folder, make, size * MIB)
                rate = length / 1e6 / seconds
                print(f"{make.__name__:12} {size:4} {seconds:8.2f} {rate:7.1f} {peak / length:6.1f}x {status}")


if __name__ == "__main__":
    main()
