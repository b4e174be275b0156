"""Proves and builds a program, at the top of a checkout: python3 tools/build.py NAME OUT [the words of its first run]

It says first what is missing, then each crate as its proof ends, with how many are left, and copies the program to OUT. The program is built
by `rt run`, which proves what it stands on and has not changed since, and runs it once; what that prints is kept in OUT.log. Where the
disk or the memory may not do, that is told and no more: the proofs are tried.
"""
import os, shutil, subprocess, sys, time

MEGABYTE = 1_000_000
# From nothing all sources are read at once: 10.6 GB were seen.
DISK, MEMORY = 3000 * MEGABYTE, 11000 * MEGABYTE


def crates_below(name):
    """The crates of this checkout that a crate stands on, and itself, each behind those that it stands on."""
    uses = {}
    with open("crates.txt", encoding="utf-8") as file:
        for line in file:
            words = line.partition("#")[0].replace(":", " ").split()
            if words:
                uses[words[0]] = words[1:]
    order = []

    def add(crate):
        if crate in uses and crate not in order:
            for low in uses[crate]:
                add(low)
            order.append(crate)

    add(name)
    return order, uses


def free_memory():
    """The memory that can be had, in bytes, where the system tells it."""
    try:
        with open("/proc/meminfo", encoding="ascii") as file:
            return next((int(line.split()[1]) * 1024 for line in file if line.startswith("MemAvailable:")), None)
    except OSError:
        return None


def look_round():
    """Stops where the kit is not there, and tells of a disk or a memory that may be too small."""
    if not shutil.which("rt"):
        sys.exit("rt is not there: the Rattle kit is needed to build this, with its folder bin in PATH")
    disk, memory = shutil.disk_usage(".").free, free_memory()
    if disk < DISK:
        print(f"note: the disk has {disk // MEGABYTE} MB left, and the proofs want about {DISK // MEGABYTE}")
    if memory is not None and memory < MEMORY:
        print(f"note: {memory // MEGABYTE} MB of memory are free, and from nothing the reading of all sources may want {MEMORY // MEGABYTE}")


def stamp(crate):
    """When the proof of a crate ended, as rt notes it."""
    try:
        return os.stat(f"crates/{crate}/out/rlib/stamp").st_mtime
    except OSError:
        return None


def last_change(crate):
    times = [os.stat(f"crates/{crate}").st_mtime]
    for part in ("src", "specs", "proofs"):
        for folder, _, names in os.walk(f"crates/{crate}/{part}"):
            times += [os.stat(os.path.join(folder, name)).st_mtime for name in names]
    return max(times)


def to_prove(name):
    """The libraries below a program that are not proved, or changed since, by the times of their files."""
    order, uses = crates_below(name)
    due = []
    for crate in order[:-1]:
        ended = stamp(crate)
        if ended is None or ended < last_change(crate) or any(low in due for low in uses[crate]):
            due.append(crate)
    return due


def told(due, before):
    """Tells of each crate whose proof has ended since, with how many are left, and gives those."""
    left = list(due)
    for crate in due:
        if stamp(crate) not in (None, before[crate]):
            left.remove(crate)
            print(f"  {crate} is proved, {len(left)} left", flush=True)
    return left


def build(name, out, words):
    due = to_prove(name)
    before = {crate: stamp(crate) for crate in due}
    begun = time.monotonic()
    long = " (from nothing, half an hour on four processors)" if len(due) > 20 else ""
    print(f"{name}: {len(due)} libraries to prove, and the program{long}", flush=True)
    if long:
        print("  first all sources are read, for some minutes in which no library is told", flush=True)
    with open(f"{out}.log", "w", encoding="utf-8") as log:
        run = subprocess.Popen(["rt", "run", "--", *words], cwd=f"crates/{name}", stdout=log, stderr=subprocess.STDOUT)
        while run.poll() is None:
            time.sleep(0.5)
            due = told(due, before)
        told(due, before)
    if run.returncode:
        with open(f"{out}.log", encoding="utf-8", errors="replace") as log:
            print("".join(log.readlines()[-20:]), end="")
        sys.exit(f"{name} is not built; all that was printed stands in {out}.log")
    shutil.copy(f"crates/{name}/out/{name}", out)
    print(f"{name}: built in {time.monotonic() - begun:.0f} seconds, {out}")


def main():
    if len(sys.argv) < 3:
        sys.exit(__doc__)
    look_round()
    os.makedirs(os.path.dirname(sys.argv[2]) or ".", exist_ok=True)
    build(sys.argv[1], sys.argv[2], sys.argv[3:])


main()
