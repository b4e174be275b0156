#!/usr/bin/env python3
"""Names that the prover would look for and not find: python3 tools/names.py, at the top, some seconds.

A renaming breaks places that no compiler of the code reads, and the prover comes to them after an hour. This looks up
  - what each `use` of a crate of the project brings in, and each `Rattle.CRATE..` inside of a term;
  - that a file of answers opens the goals of its own function;
  - the lemmas and definitions that attributes name (`using(..)`, `unfolding(..)`);
  - that a goal `returns-clause-NAME` is a clause of the function whose folder it stands in.
Modules that the prover makes (views of types, contracts, goals) are not looked into. It fails where something is not there.
"""
import os
import re
import sys

TOP = os.path.dirname(os.path.dirname(os.path.abspath(__file__)))
CRATES = os.path.join(TOP, "crates")
NAME = r"[^\s(){}\[\];,.:\"`«»@]+"
HEAD = re.compile(rf"^\s*(?:(?:abbrev|unfoldable|opaque|pub|record|data|ruleset) )*({NAME})(?= )", re.M)
FIELDS = re.compile(r"^\s+(?:pub )?((?:[^\s(){}:]+ )+): ", re.M)
USE = re.compile(r"^\s*(?:pub |ghost )*use (Rattle\.[^\s;{]+?)(?:\.\{([^}]*)\}|(?: as [^\s;]+)?;?$)", re.M)
MADE = ("declared", "contracts", "Goals", "Given", "TheImpl", "TheLaws", "Tests", "TheVariants", "TheConstants", "Statement", "Code")


def texts():
    for folder, folders, files in os.walk(CRATES):
        folders[:] = sorted(f for f in folders if f not in ("out", "data"))
        for file in sorted(files):
            if file.endswith((".antt", ".rt")):
                path = os.path.join(folder, file)
                with open(path, encoding="utf-8") as text:
                    yield os.path.relpath(path, CRATES), text.read()


def module(path):
    return "Rattle." + path[: -len(".antt")].replace("/", ".")


def defined(text):
    """What a file of definitions or proofs has: heads, fields and constructors, and what it passes on."""
    names = set(HEAD.findall(text))
    for fields in FIELDS.findall(text):
        names.update(fields.split())
    for m in re.finditer(r"^pub use [^{\n]*\{([^}]*)\}", text, re.M):
        names.update(item.split(" as ")[-1].strip() for item in m.group(1).split(","))
    for m in re.finditer(r"^(?:pub )?mod (\S+)", text, re.M):
        names.add(m.group(1))
    return names


class Tree:
    def __init__(self):
        self.texts = dict(texts())
        self.modules = {module(p): defined(t) for p, t in self.texts.items() if p.endswith(".antt")}
        self.crates = {p.split("/")[0] for p in self.texts}
        self.faults = []

    def fault(self, path, text):
        self.faults.append(f"{path}: {text}")

    def is_looked_up(self, name):
        """Whether a path leads into a crate of the project, and not into what the prover makes."""
        parts = name.split(".")
        return len(parts) > 2 and parts[1] in self.crates and not any(part in MADE for part in parts[2:])

    def has(self, name):
        """Whether a path is a module, or what a module has (a record's name is a module of its fields)."""
        if name in self.modules:
            return True
        owner, _, last = name.rpartition(".")
        return owner in self.modules and last in self.modules[owner]

    def uses(self, path, text):
        for m in USE.finditer(text):
            name, items = m.group(1), m.group(2)
            if not self.is_looked_up(name):
                continue
            if not self.has(name):
                self.fault(path, f"no module {name}")
            elif name in self.modules:
                for item in (items or "").split(","):
                    wanted = item.split(" as ")[0].strip()
                    if wanted and wanted not in self.modules[name]:
                        self.fault(path, f"{name} has no {wanted}")

    def terms(self, path, text):
        for line in text.split("\n"):
            if re.match(r"\s*(?:pub |ghost )*use ", line) or line.lstrip().startswith(("--", "//")):
                continue
            for name in re.findall(r"\bRattle\.[A-Za-z_0-9.]+", line):
                if self.is_looked_up(name) and not self.has(name.rstrip(".")):
                    self.fault(path, f"no module or name {name}")

    def goals(self, path, text):
        own = "Rattle." + os.path.dirname(path).replace("/", ".")
        for m in re.finditer(r"^use (Rattle\.\S+)\.(?:Goals|Given)\b", text, re.M):
            if m.group(1) != own:
                self.fault(path, f"goals of {m.group(1)}")

    def attributes(self, path, text):
        crate = path.split("/")[0]
        for attribute in re.findall(r"#!?\[tactic\(((?:[^\[\]]|\[[^\]]*\])*)\)\]", text):
            for owner, rest in re.findall(r"\b(\w+)::((?:specs|proofs)::[\w:'-]+)", attribute):
                name = ".".join(["Rattle", crate if owner == "crate" else owner, *rest.split("::")])
                if self.is_looked_up(name) and not self.has(name):
                    self.fault(path, f"an attribute names {name}")

    def clauses(self, path, text):
        """Of a file src/MODULE.rt: the names of clauses that stand in the answers of its functions."""
        crate, stem = path.split("/")[0], os.path.basename(path)[: -len(".rt")]
        heads = [(m.start(), m.group(1)) for m in re.finditer(r"\bfn ([a-z_0-9]+)", text)]
        found = {}
        for k, (start, name) in enumerate(heads):
            end = heads[k + 1][0] if k + 1 < len(heads) else len(text)
            found.setdefault(name, set()).update(re.findall(r"\b(?:ensures|requires)\*? ([a-z_0-9]+) \{", text[start:end]))
        if "impl" in text and " for " in text:
            return  # a method of a trait may have the trait's clauses
        for name, clauses in found.items():
            for answers in (f"{crate}/proofs/{stem}/{name}/Answers.antt",):
                for clause in re.findall(r"^(?:pub )?[\w-]*returns[\w-]*?-clause-(\w+)", self.texts.get(answers, ""), re.M):
                    if clause not in clauses and not clause.isdigit():
                        self.fault(answers, f"{name} has no clause {clause}")

    def look(self):
        for path, text in self.texts.items():
            self.uses(path, text)
            self.terms(path, text)
            if os.path.basename(path) in ("Answers.antt", "Invariants.antt", "Proof.antt"):
                self.goals(path, text)
            elif path.endswith(".rt"):
                self.attributes(path, text)
                self.clauses(path, text)
        return self.faults


def main():
    tree = Tree()
    faults = tree.look()
    for fault in faults:
        print(fault)
    print(f"names: {len(tree.texts)} files, {len(faults)} names that are not there")
    sys.exit(1 if faults else 0)


main()
