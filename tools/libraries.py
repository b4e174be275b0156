"""Checks that crates.txt gives each crate the crates that its files name, which a run of the gate tells only once it proves that crate.

python3 tools/libraries.py
Exits with 1 where one is missing. Of the project's crates alone: the kit's are told by the prover in seconds."""

import pathlib
import re
import sys

ROOT = pathlib.Path(__file__).resolve().parent.parent
NAMED = re.compile(r"\bRattle\.([a-z_0-9]+)\.|^(?:pub )?use ([a-z_0-9]+)::", re.MULTILINE)
FOLDERS = ("src", "specs", "proofs")
SOURCES = {".rt", ".antt"}


def libraries_of_crates():
    """The crates that crates.txt gives to each crate."""
    lines = (line.partition("#")[0] for line in (ROOT / "crates.txt").read_text(encoding="utf-8").splitlines())
    pairs = (line.split(":", 1) for line in lines if ":" in line)
    return {name.split()[0]: set(libraries.split()) for name, libraries in pairs}


def files_of(crate):
    for folder in FOLDERS:
        yield from sorted(path for path in (ROOT / "crates" / crate / folder).rglob("*") if path.suffix in SOURCES)


def named_in(path):
    return {rattle or rust for rattle, rust in NAMED.findall(path.read_text(encoding="utf-8"))}


def faults():
    given = libraries_of_crates()
    for crate, libraries in given.items():
        told = libraries | {crate}
        for path in files_of(crate):
            for missing in sorted(named_in(path) & given.keys() - told):
                told.add(missing)
                yield f"{path.relative_to(ROOT)}: names `{missing}`, which crates.txt does not give to `{crate}`"


def main():
    found = list(faults())
    for fault in found:
        print(fault)
    return 1 if found else 0


if __name__ == "__main__":
    sys.exit(main())
