#!/usr/bin/env python3
"""Has each growth of memory refused in turn, one in each run: python3 benches/refusals.py bin/icont bin/iconx

The programs are the built ones, over real files and pipes. A small library in C, which is compiled here and loaded in front of the
system's, refuses the growth of one number (a call of `malloc` or `realloc`) and counts them all. The jobs are a program that counts
words, translated and run; the same run from its image; one translated to ucode; one linked from ucode and run; one with a
co-expression; and one that makes so many texts that memory is given back.

A command of which a growth is refused answers `no memory`, with status 5. Its output is a first part of what it puts with enough memory;
each file that it writes is whole or not there, an old one of that name stays as it was until then, nothing is left lying beside, and all
other files stay. A growth that is only asked for speed, or asked again where it was refused, may be refused without a trace. A job is
done once each of its growths was refused. What is printed is how many growths each command makes, and how many of these end it. It
needs Python 3 and a C compiler, and stands outside the gate.
"""
import os
import subprocess
import sys
import tempfile

LIBRARY = r"""
#include <fcntl.h>
#include <stdio.h>
#include <stdlib.h>
#include <string.h>
#include <unistd.h>

void *__libc_malloc(size_t);
void *__libc_realloc(void *, size_t);

static unsigned long asked;

static int is_refused(void) {
    static unsigned long number;
    if (asked == 0) {
        const char *word = getenv("REFUSED_GROWTH");
        number = word ? strtoul(word, 0, 10) : 0;
    }
    asked += 1;
    return asked == number;
}

void *malloc(size_t bytes) { return is_refused() ? 0 : __libc_malloc(bytes); }

void *realloc(void *old, size_t bytes) { return is_refused() ? 0 : __libc_realloc(old, bytes); }

__attribute__((destructor)) static void tell(void) {
    const char *name = getenv("COUNTED_GROWTHS");
    char line[32];
    int file = name ? open(name, O_WRONLY | O_CREAT | O_TRUNC, 0600) : -1;
    if (file >= 0 && write(file, line, snprintf(line, sizeof line, "%lu", asked)) >= 0) close(file);
}
"""

WORDS = """procedure main()
   local t, k, line
   t := table(0)
   while line := read() do line ? while tab(upto(&letters)) do t[tab(many(&letters))] +:= 1
   every write(k := key(t), " ", t[k])
end
"""
HELLO = 'procedure main()\n   write("hi")\nend\n'
TRANSFERS = """procedure main()
   local c
   c := create write("got ", "a" @ &source)
   write(@c)
   "b" @ c
end
"""
GIVEN_BACK = """procedure main()
   local i, s, kept
   kept := []
   every i := 1 to 400 do {
      s := repl("0123456789", 200) || i
      if i % 40 = 0 then put(kept, s[-4:0])
   }
   every writes(!kept, " ")
end
"""
INPUT = "to be or not to be\n"
COUNTED = "to 2\nbe 2\nor 1\nnot 1\n"
KEPT = "8940 8980 9120 9160 9200 9240 9280 9320 9360 9400 "

# What each job begins with (a source, and commands that make its other files), its command, its output, and the files that it writes.
JOBS = [
    ("words, from the source", WORDS, [], ["icont", "f.icn", "-x"], COUNTED, ["f"]),
    ("words, from the image", WORDS, [["icont", "f.icn"]], ["iconx", "f"], COUNTED, []),
    ("to ucode", HELLO, [], ["icont", "-c", "f.icn"], "", ["f.u1", "f.u2"]),
    ("from ucode", HELLO, [["icont", "-c", "f.icn"]], ["icont", "f.u1", "-x"], "hi\n", ["f"]),
    ("over an old image", HELLO, [["icont", "f.icn"]], ["icont", "f.icn", "-x"], "hi\n", ["f"]),
    ("a co-expression", TRANSFERS, [], ["icont", "f.icn", "-x"], "a\ngot b\n", ["f"]),
    ("memory given back", GIVEN_BACK, [["icont", "f.icn"]], ["iconx", "f"], KEPT, []),
    ("a new image", HELLO, [["icont", "f.icn"]], ["iconx", "-m", "new", "f"], "", ["new"]),
]


def run(programs, folder, words, **environment):
    """Status, output and error output of one command."""
    done = subprocess.run(
        [programs[words[0]], *words[1:]], cwd=folder, input=INPUT.encode(), capture_output=True, env={**os.environ, **environment}
    )
    return done.returncode, done.stdout.decode(), done.stderr.decode()


def held(folder):
    """The files of a folder, with their bytes."""
    files = {}
    for name in os.listdir(folder):
        with open(os.path.join(folder, name), "rb") as file:
            files[name] = file.read()
    return files


def begun(programs, job):
    """A new folder in which a job can be run."""
    _, source, commands, *_ = job
    folder = tempfile.TemporaryDirectory()
    with open(os.path.join(folder.name, "f.icn"), "w", encoding="ascii") as file:
        file.write(source)
    for words in commands:
        run(programs, folder.name, words)
    return folder


def fault(job, told, before, now, whole):
    """What is wrong with a run of which one growth was refused; nothing where all is right."""
    _, _, _, _, output, written = job
    status, put, errors = told
    if told == (0, output, "") and now == whole:
        return None
    if (status, errors) != (5, "no memory\n"):
        return f"it ends with status {status} and {errors!r}"
    if not output.startswith(put):
        return f"its output is no first part: {put!r}"
    for name in sorted(now.keys() | before.keys()):
        ways = [before.get(name)] + ([whole[name]] if name in written else [])
        if now.get(name) not in ways:
            return f"{name} is neither as it was nor whole"
    return None


def refuse_all(programs, library, job):
    """How many growths a job makes, how many of them end it, and whether each run was right."""
    name, _, _, words, output, _ = job
    with begun(programs, job) as folder, tempfile.NamedTemporaryFile() as counted:
        told = run(programs, folder, words, LD_PRELOAD=library, COUNTED_GROWTHS=counted.name)
        growths, whole = int(counted.read()), held(folder)
    if told != (0, output, ""):
        sys.exit(f"{name}: with enough memory it gives {told}")
    ends, is_right = 0, True
    for number in range(1, growths + 1):
        with begun(programs, job) as folder:
            before = held(folder)
            told = run(programs, folder, words, LD_PRELOAD=library, REFUSED_GROWTH=str(number))
            wrong = fault(job, told, before, held(folder), whole)
        ends += told[0] == 5
        if wrong:
            print(f"{name}, growth {number}: {wrong}")
            is_right = False
    return growths, ends, is_right


def main():
    if len(sys.argv) != 3:
        sys.exit(__doc__)
    programs = {name: os.path.abspath(path) for name, path in zip(("icont", "iconx"), sys.argv[1:])}
    is_right = True
    with tempfile.TemporaryDirectory() as folder:
        source, library = os.path.join(folder, "growths.c"), os.path.join(folder, "growths.so")
        with open(source, "w", encoding="ascii") as file:
            file.write(LIBRARY)
        subprocess.run([os.environ.get("CC", "cc"), "-O1", "-fno-builtin", "-shared", "-fPIC", "-o", library, source], check=True)
        for job in JOBS:
            growths, ends, is_job_right = refuse_all(programs, library, job)
            is_right = is_right and is_job_right
            print(f"{job[0]:24} {growths:6} growths, of which {ends:6} end it", flush=True)
    sys.exit(0 if is_right else 1)


if __name__ == "__main__":
    main()
