#!/usr/bin/env python3
"""Times transfers between two co-expressions: an activation and the result that it gets, again and again.

It writes a program over the crates of the stacks into a folder of its own, proves and builds it there with rt, and
prints how long a transfer takes. It needs Python 3 and rt, and stands outside the gate.
"""
import os
import resource
import shutil
import subprocess
import sys
import tempfile

TOP = os.path.dirname(os.path.dirname(os.path.abspath(__file__)))
ROUNDS = 5_000_000

PROGRAM = """//! Two co-expressions that pass a value to and fro.
#![tactic(auto)]

use icn_coexp::Stacks;
use icn_frames::{Cell, Frames, Stack, VecStack};
use icn_value::Val;
use std::alloc::{AllocError, Global};
use std::process::ExitCode;

// Drops an operand of the stack that runs, where it has one.
fn take<K: Stack<Cell> + Drop>(stacks: &mut Stacks<K>) {
    if stacks.runs() && stacks.frames().has_operand() {
        stacks.frames().pop();
    }
}

// An activation of 1, where it can be.
fn activate<K: Stack<Cell> + Drop>(stacks: &mut Stacks<K>) -> Result<(), AllocError> {
    if stacks.len() > 1 && stacks.runs() {
        stacks.frames().reserve(1)?;
        stacks.activate(1, Val::Integer(7));
    }
    Ok(())
}

// A result of the active one, where it can give one.
fn give<K: Stack<Cell> + Drop>(stacks: &mut Stacks<K>) -> Result<(), AllocError> {
    if stacks.active() != 0 && stacks.runs() {
        stacks.frames().reserve(1)?;
        stacks.give(Val::Integer(8));
    }
    Ok(())
}

fn rounds(alloc: Global) -> Result<(), AllocError> {
    let mut stacks: Stacks<VecStack<Cell>> = Stacks::new(alloc, Frames::new(alloc, 0, &[], 0)?)?;
    stacks.create(alloc, &[], 0, 0)?;
    for _ in 0..ROUNDS {
        activate(&mut stacks)?;
        take(&mut stacks);
        give(&mut stacks)?;
        take(&mut stacks);
    }
    Ok(())
}

fn main(rt: HostRuntime) -> ExitCode {
    match rounds(rt.alloc()) {
        Ok(()) => ExitCode::SUCCESS,
        Err(_) => ExitCode::FAILURE,
    }
}
"""


def needed(name, lines, found):
    """A crate and all below it."""
    if name in lines and name not in found:
        found.append(name)
        for other in lines[name]:
            needed(other, lines, found)


def processor():
    """The time of the processor that all programs took which were waited for."""
    used = resource.getrusage(resource.RUSAGE_CHILDREN)
    return used.ru_utime + used.ru_stime


def seconds(program):
    """How long the program takes of the processor, at best of five."""
    best = None
    for _ in range(5):
        begin = processor()
        subprocess.run([program], check=True)
        took = processor() - begin
        best = took if best is None else min(best, took)
    return best


def written(folder, lines, names):
    for name in names:
        shutil.copytree(os.path.join(TOP, "crates", name), os.path.join(folder, "crates", name), ignore=shutil.ignore_patterns("out", "must-fail"))
    source = os.path.join(folder, "crates", "transfer_times", "src")
    os.makedirs(source)
    with open(os.path.join(source, "main.rt"), "w") as file:
        file.write(PROGRAM.replace("ROUNDS", str(ROUNDS)))
    with open(os.path.join(folder, "crates.txt"), "w") as file:
        for name in names:
            file.write("%s: %s\n" % (name, " ".join(lines[name])))
        file.write("transfer_times: icn_frames icn_coexp icn_value\n")
    subprocess.run(["git", "init", "-q", "."], cwd=folder, check=True)


def main():
    lines = {}
    with open(os.path.join(TOP, "crates.txt")) as file:
        for line in file:
            name, colon, rest = line.partition(":")
            if colon and not line.startswith("#"):
                lines[name.strip()] = rest.split()
    names = []
    needed("icn_coexp", lines, names)
    with tempfile.TemporaryDirectory() as folder:
        written(folder, lines, names)
        crate = os.path.join(folder, "crates", "transfer_times")
        subprocess.run(["rt", "run"], cwd=crate, check=True, stdout=subprocess.DEVNULL)
        took = seconds(os.path.join(crate, "out", "transfer_times")) / (2 * ROUNDS)
    print("%.1f ns a transfer, %.2f ms for a hundred thousand" % (took * 1e9, took * 1e5 * 1e3))
    return 0


if __name__ == "__main__":
    sys.exit(main())
