#!/usr/bin/env python3
"""Times programs that run for a second or so: loops and calls, building of strings, tables, generators and backtracking, scanning,
co-expressions and output.

`make` builds the programs in bin/, which this takes. Each program is translated once and its image is run three times; the least time
of the processor is printed. Where another Icon's `icont` and `iconx` are installed, their folder as an argument (`benches/run.py
/usr/bin`) runs the same programs by them, and prints their times beside. It needs Python 3 and nothing else, and stands outside the gate.
"""
import os
import resource
import subprocess
import sys
import tempfile

TOP = os.path.dirname(os.path.dirname(os.path.abspath(__file__)))
LIMITS = ["-n", "1000000000000", "-s", "100000000000", "-b", "4000000000", "-l", "100000"]

LINES = """
procedure main()
   every write(1 to 2000000)
end
"""

INTO_FILE = "output: 2,000,000 lines into a file"

PROGRAMS = {
    "a loop of 3,000,000 additions": """
procedure main()
   local i, sum
   i := sum := 0
   while (i +:= 1) <= 3000000 do sum +:= i % 7
   write(sum)
end
""",
    "calls: fib(27)": """
procedure fib(n)
   if n < 2 then return n
   return fib(n - 1) + fib(n - 2)
end
procedure main()
   write(fib(27))
end
""",
    "strings: 8,000 times a byte at the end of one": """
procedure main()
   local s
   s := ""
   every 1 to 8000 do s ||:= "x"
   write(*s)
end
""",
    "strings: 300,000 short ones": """
procedure main()
   local i, n
   n := 0
   every i := 1 to 300000 do n +:= *(left(i, 8) || "," || right(i, 8))
   write(n)
end
""",
    "tables: 200,000 counts of 50,000 keys": """
procedure main()
   local t, i
   t := table(0)
   every i := 0 to 199999 do t[i * 7919 % 50000] +:= 1
   write(*t)
end
""",
    "lists: 500,000 puts and gets": """
procedure main()
   local q, i, n
   q := []
   n := 0
   every i := 1 to 500000 do { put(q, i); if *q > 100 then n +:= get(q) }
   write(n)
end
""",
    "generators: sums of triples": """
procedure main()
   local n
   n := 0
   every ((1 to 120) + (1 to 120) + (1 to 120)) = 180 do n +:= 1
   write(n)
end
""",
    "backtracking: eight queens, all solutions": """
global rows, rising, falling
procedure main()
   local n
   rows := list(8, 0); rising := list(15, 0); falling := list(15, 0)
   n := 0
   every 1 to 6 do every solution(1) do n +:= 1
   write(n)
end
procedure solution(column)
   if column > 8 then return
   suspend place(1 to 8, column) & solution(column + 1)
end
procedure place(row, column)
   if rows[row] = rising[row + column - 1] = falling[8 + row - column] = 0 then
      suspend rows[row] <- rising[row + column - 1] <- falling[8 + row - column] <- row
end
""",
    "scanning: 200,000 words": """
procedure main()
   local text, t
   text := repl("the quick brown fox jumps over the lazy dog ", 2000)
   t := table(0)
   every 1 to 11 do text ? while tab(upto(&letters)) do t[tab(many(&letters))] +:= 1
   write(t["the"])
end
""",
    "co-expressions: 1,000,000 activations": """
procedure main()
   local c, n, x
   c := create seq()
   n := 0
   while (x := @c) <= 1000000 do n +:= x
   write(n)
end
""",
    "output: 2,000,000 lines into a pipe": LINES,
    INTO_FILE: LINES,
}


def run(words, folder, into_file=False):
    """The time of the processor that a command took, and what it wrote into a pipe or into a file."""
    before = resource.getrusage(resource.RUSAGE_CHILDREN)
    if into_file:
        with open(os.path.join(folder, "wrote"), "w+b") as file:
            subprocess.run(words, cwd=folder, stdout=file, stderr=subprocess.PIPE, check=True)
            file.seek(0)
            wrote = file.read()
    else:
        wrote = subprocess.run(words, cwd=folder, capture_output=True, check=True).stdout
    after = resource.getrusage(resource.RUSAGE_CHILDREN)
    return after.ru_utime + after.ru_stime - before.ru_utime - before.ru_stime, wrote


def best(words, folder, into_file):
    times = [run(words, folder, into_file) for _ in range(3)]
    return min(times)[0], times[0][1]


def main():
    beside = sys.argv[1] if len(sys.argv) > 1 else None
    print("%-50s %10s %10s" % ("seconds of the processor", "this", "beside" if beside else ""))
    with tempfile.TemporaryDirectory() as folder:
        for name, source in PROGRAMS.items():
            with open(os.path.join(folder, "p.icn"), "w") as file:
                file.write(source)
            run([os.path.join(TOP, "bin", "icont"), "p.icn"], folder)
            here, wrote = best([os.path.join(TOP, "bin", "iconx"), *LIMITS, "p"], folder, name == INTO_FILE)
            there = ""
            if beside:
                run([os.path.join(beside, "icont"), "-s", "-o", "other", "p.icn"], folder)
                taken, other = best([os.path.join(beside, "iconx"), "other"], folder, name == INTO_FILE)
                there = "%10.2f%s" % (taken, "" if other == wrote else " (wrote otherwise)")
            print("%-50s %10.2f %s" % (name, here, there))


main()
