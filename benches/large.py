#!/usr/bin/env python3
"""Times the built icont and iconx on programs with large tables: to their image, its run, and its second version.

It builds by make, writes its sources into a folder of its own, and prints for each the processor's seconds of `icont f.icn`,
`iconx f` and `iconx -m new f`, beside the sizes of the source and the image. It needs Python 3 and nothing else, and stands
outside the gate.
"""
import os
import subprocess
import sys
import tempfile

TOP = os.path.dirname(os.path.dirname(os.path.abspath(__file__)))
COUNTS = [16, 32, 64, 128]


def literals(count):
    """An integer of its own on each line."""
    return "procedure main()\n" + "".join(f"x := {i}\n" for i in range(count)) + "end\n"


def texts(count):
    """A string of its own on each line."""
    return "procedure main()\n" + "".join(f'x := "s{i}"\n' for i in range(count)) + "end\n"


def names(count):
    """A global of its own on each line."""
    declared = "global " + ", ".join(f"g{i}" for i in range(count)) + "\n"
    return declared + "procedure main()\n" + "".join(f"g{i} := 1\n" for i in range(count)) + "end\n"


def statics(count):
    """A procedure with a static for each call: so many procedures, each called once."""
    one = "procedure p%d()\nstatic s\ninitial s := 0\nreturn s +:= 1\nend\n"
    calls = "".join(f"p{i}()\n" for i in range(count))
    return "".join(one % i for i in range(count)) + "procedure main()\n" + calls + "end\n"


def instructions(count):
    """Four instructions on each line, sixteen times as many as the count says."""
    return "procedure main()\n" + "-1\n" * (4 * count) + "end\n"


def seconds(words, folder):
    """The processor's seconds of a command, which has to end with status 0."""
    pid = os.fork()
    if pid == 0:
        os.dup2(os.open(os.devnull, os.O_WRONLY), 1)
        os.chdir(folder)
        os.execv(words[0], words)
    _, status, usage = os.wait4(pid, 0)
    if status != 0:
        sys.exit(f"{' '.join(words)}: status {os.waitstatus_to_exitcode(status)}")
    return usage.ru_utime + usage.ru_stime


def main():
    subprocess.run(["make", "-s", "-C", TOP, "bin/icont", "bin/iconx"], check=True)
    icont, iconx = (os.path.join(TOP, "bin", name) for name in ("icont", "iconx"))
    counts = [int(word) for word in sys.argv[1:]] or COUNTS
    print(f"{'program':12} {'count':>8} {'source':>7} {'image':>7} {'icont':>6} {'iconx':>6} {'-m':>6}")
    for make in (literals, texts, names, statics, instructions):
        for count in counts:
            with tempfile.TemporaryDirectory() as folder:
                with open(os.path.join(folder, "f.icn"), "w") as file:
                    file.write(make(count << 10))
                times = [seconds(words, folder) for words in ([icont, "f.icn"], [iconx, "f"], [iconx, "-m", "new", "f"])]
                sizes = [os.path.getsize(os.path.join(folder, name)) / 1e6 for name in ("f.icn", "f")]
            print(f"{make.__name__:12} {count << 10:8} {sizes[0]:7.2f} {sizes[1]:7.2f} " + " ".join(f"{t:6.2f}" for t in times))


if __name__ == "__main__":
    main()
