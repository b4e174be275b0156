"""Runs both programs as they are built, once for each status, and compares status, output and error output, each by itself. One run reads
ten million lines in little memory.

python3 tools/statuses.py ICONT ICONX

The expected values are those of docs/formats/COMMANDS.md. The rows of `test_commands` try far more over files in memory; this tries what
no contract can say: that the real objects are put where they belong. It prints each row that is another, and exits with 1 then."""

import os
import resource
import subprocess
import sys
import tempfile

USAGE_ICONT = "usage: icont [-c] [-o name] [-n turns] [-g number] file ... [-x argument ...]\n"
USAGE_ICONX = "usage: iconx [-n turns] [-s bytes] [-b cells] [-l levels] image [argument ...] | iconx -m new image\n"

# A program by its name: its body in `main`.
PROGRAMS = {
    "both": 'write("out"); write(&errout, "err"); writes("in "); write(read())',
    "seven": 'write("out"); exit(7)',
    "stops": 'write("out"); stop("err")',
    "errs": 'write("out"); write("a" + 1)',
    "loops": 'write("out"); repeat {}',
    "fills": 'L := []; write("out"); every put(L, 1 to 3000000)',
    "reads": "n := 0; while line := read() do n +:= *line; write(n)",
    "broken": "break",
}
REPORT = 'Run-time error 102\nnumeric expected\noffending value: "a"\n'

# Which program, its words, what it reads, the most bytes of memory that it may have, and then status, output and error output. The
# program `icont` with `-x` is tried on the source, `iconx` on the image.
ROWS = [
    ("both", [], "line\n", None, 0, "out\nin line\n", "err\n"),
    ("seven", [], "", None, 7, "out\n", ""),
    ("stops", [], "", None, 1, "out\n", "err\n"),
    ("errs", [], "", None, 1, "out\n", REPORT),
    ("loops", ["-n", "1000"], "", None, 3, "out\n", "turn bound reached\n"),
    ("fills", [], "", 20_000_000, 5, "out\n", "no memory\n"),
]

# Which program, what it reads, and what stands in one pipe that is both its output and its error output.
IN_ONE = [
    ("both", "line\n", "out\nerr\nin line\n"),
    ("stops", "", "out\nerr\n"),
    ("errs", "", "out\n" + REPORT),
]

# Commands that run no program, and the run of a new image: the program, its words, and then status, output and error output.
COMMANDS = [
    ("icont", [], 2, "", USAGE_ICONT),
    ("icont", ["nowhere.icn"], 2, "", "nowhere.icn: not there\n"),
    ("icont", ["broken.icn"], 2, "", "broken.icn:2: C2 break outside a loop\n"),
    ("icont", ["seven.icn", "-o", "/dev/full"], 2, "", "file fault\n"),
    ("iconx", [], 2, "", USAGE_ICONX),
    ("iconx", ["nowhere"], 2, "", "nowhere: not there\n"),
    ("iconx", ["seven.icn"], 2, "", "seven.icn: bad image, I1\n"),
    ("icont", ["seven.icn"], 0, "", ""),
    ("iconx", ["-m"], 2, "", USAGE_ICONX),
    ("iconx", ["-m", "new", "nowhere"], 2, "", "nowhere: not there\n"),
    ("iconx", ["-m", "new", "seven.icn"], 2, "", "seven.icn: bad image, I1\n"),
    ("iconx", ["-m", "folder", "seven"], 2, "", "file fault\n"),
    ("iconx", ["-m", "new", "seven"], 0, "", ""),
    ("iconx", ["-m", "seven", "seven"], 0, "", ""),
    ("iconx", ["new"], 7, "out\n", ""),
]

# A thousand lines of 18 bytes, how often they are read by a program that keeps none of them, and the most bytes of memory that it may have.
LINES = b"".join(b"line %013d\n" % number for number in range(1000))
TIMES = 10_000
LITTLE = 8_000_000


def run(words, folder, text="", memory=None, output=subprocess.PIPE, errors=subprocess.PIPE):
    """The status, the output and the error output of a command."""
    limit = (lambda: resource.setrlimit(resource.RLIMIT_AS, (memory, memory))) if memory else None
    done = subprocess.run(words, cwd=folder, input=text.encode(), stdout=output, stderr=errors, preexec_fn=limit, timeout=60, check=False)
    return done.returncode, (done.stdout or b"").decode(), (done.stderr or b"").decode()


def run_over_lines(iconx, folder):
    """The status and the output of a program that reads many lines, in little memory."""
    limit = lambda: resource.setrlimit(resource.RLIMIT_AS, (LITTLE, LITTLE))
    with subprocess.Popen([iconx, "reads"], cwd=folder, stdin=subprocess.PIPE, stdout=subprocess.PIPE, preexec_fn=limit) as reader:
        try:
            for _ in range(TIMES):
                reader.stdin.write(LINES)
            reader.stdin.close()
        except BrokenPipeError:
            pass
        output = reader.stdout.read().decode()
    return reader.returncode, output


def told(what, got, want):
    """Prints a row that is another, and answers whether it is."""
    if got == want:
        return False
    print(f"{what}: {got}, and not {want}")
    return True


def main():
    if len(sys.argv) != 3:
        sys.exit(__doc__)
    programs = {name: os.path.abspath(path) for name, path in zip(("icont", "iconx"), sys.argv[1:])}
    others = 0
    with tempfile.TemporaryDirectory() as folder:
        os.mkdir(os.path.join(folder, "folder"))
        for name, body in PROGRAMS.items():
            with open(os.path.join(folder, f"{name}.icn"), "w", encoding="ascii") as file:
                file.write(f"procedure main()\n{body}\nend\n")
        for name, words, text, memory, *want in ROWS:
            icont = [programs["icont"], *words, f"{name}.icn", "-x"]
            others += told(f"icont {name}", run(icont, folder, text, memory), tuple(want))
            others += told(f"iconx {name}", run([programs["iconx"], *words, name], folder, text, memory), tuple(want))
        for name, text, want in IN_ONE:
            words = [programs["iconx"], name]
            got = run(words, folder, text, errors=subprocess.STDOUT)[1]
            others += told(f"iconx {name}, both outputs in one", got, want)
        for name, words, *want in COMMANDS:
            others += told(f"{name} {' '.join(words)}", run([programs[name], *words], folder), tuple(want))
        run([programs["icont"], "reads.icn"], folder)
        others += told("iconx reads", run_over_lines(programs["iconx"], folder), (0, f"{TIMES * (len(LINES) - 1000)}\n"))
        with open("/dev/full", "wb") as full:
            words = [programs["iconx"], "seven"]
            others += told("iconx into a full device", run(words, folder, output=full), (2, "", ""))
    sys.exit(1 if others else 0)


main()
