"""The files that name a case of a type, at the top of a checkout: where a line is due when a case is added.

    python3 tools/places.py Reverse            the files that name the function, or what a name with a type in front stands for,
    python3 tools/places.py Residual.Found     as here, and `Op.Size`, `Keyword.Random`, `Instr.Dup`, `UnitInstr.Dup`, `Tree.Create`
    python3 tools/places.py 'Keyword.*'        the files that name each case of a type
    python3 tools/places.py --check            the lists in docs/EXTENDING.md against the tree

A file names a case where its code says `Type::Case`, where a proof brings the case in from the module of its type and uses it, where it
says `Module.Case` of a module that stands for that type, and where it says `in-Case` and is the proof of code that names the case. Of a
function the row that `function_of` gives it is looked for too.

In docs/EXTENDING.md a list stands between `<!-- places: NAMES -->` and `<!-- end -->`. A line in it begins with a crate in backquotes,
and has the files of that crate behind it, in backquotes too. `--check` fails where such a list isn't what the tree has, and where
the page names a file of a crate that is not there.
"""
import functools, os, re, sys

PAGE = "docs/EXTENDING.md"
USE = re.compile(r"^[ \t]*(?:pub )?(?:ghost )?use ([\w.:-]+?)(?:(?:\.|::)\{([^}]*)\})?(?: as (\w+))?;?[ \t]*$", re.M)
LIST = re.compile(r"<!-- places: (.*?) -->\n(.*?)<!-- end -->", re.S)
QUOTED = re.compile(r"`([^`\n]+)`")
ROWS = "crates/icn_defs/specs/Applying.antt"


@functools.cache
def sources():
    """Each source of the crates: its path from the top, and its text."""
    found = {}
    for folder, folders, names in os.walk("crates"):
        folders[:] = [name for name in folders if name not in ("out", "data", "must-fail")]
        for name in names:
            if name.endswith((".rt", ".antt")):
                path = os.path.join(folder, name)
                with open(path, encoding="utf-8") as file:
                    found[path] = file.read()
    return found


def crate_of(path):
    return path.split("/")[1]


@functools.cache
def uses(path):
    """What a source brings in: of which module which names, and under which name."""
    return USE.findall(sources()[path])


@functools.cache
def body(path):
    """A source without the lines that bring in."""
    return USE.sub("", sources()[path])


@functools.cache
def homes(kind):
    """Where a type is defined: the files, and the modules by which proofs see its cases."""
    paths, modules = [], set()
    for path, text in sources().items():
        crate, name = crate_of(path), os.path.splitext(os.path.basename(path))[0]
        if path.endswith(".rt") and re.search(rf"\benum {kind}\b", text):
            paths.append(path)
            modules.add(f"Rattle.{crate}.specs.declared.{name}.{kind}.TheVariants")
        if path.endswith(".antt") and "/specs/" in path and re.search(rf"^[ \t]*(?:pub )?data {kind} ", text, re.M):
            paths.append(path)
            modules.add(f"Rattle.{crate}.specs.{name}")
    return paths, modules


def named_in_code(path, kind, case):
    text = sources()[path]
    names = {kind, *re.findall(rf"\b{kind} as (\w+)", text)} if f"::{case}" in text else ()
    return any(re.search(rf"\b{name}::{case}\b", text) for name in names)


def named_in_proofs(path, modules, case):
    if case not in sources()[path]:
        return False
    for module, inner, alias in uses(path):
        if module not in modules:
            continue
        if alias and re.search(rf"(?<![\w.]){alias}\.{case}(?!\w)", body(path)):
            return True
        for word in (part.split() for part in inner.split(",")):
            if word and word[0] == case and re.search(rf"(?<![\w.-]){word[-1]}(?![\w-])", body(path)):
                return True
    return False


def row_of(case):
    """The row of a function, by the definition that goes over all functions."""
    found = re.search(rf"^function_of names {case} args = (\w+)", sources()[ROWS], re.M)
    return found.group(1) if found else None


@functools.cache
def cases(kind):
    """The cases of a type, by the code or by the definitions."""
    for path in homes(kind)[0]:
        text = sources()[path]
        code = re.search(rf"\benum {kind} \{{\n(.*?)^\}}", text, re.M | re.S)
        if code:
            return re.findall(r"^    ([A-Z]\w*)", code.group(1), re.M)
        data = re.search(rf"^([ \t]*)(?:pub )?data {kind} .*\n((?:\1[ \t]+.*\n|[ \t]*\n)*)", text, re.M)
        if data:
            heads = re.findall(r"^[ \t]+([A-Z][\w ]*?) :", data.group(2), re.M)
            return [case for head in heads for case in head.split()]
    return []


def places(name):
    kind, _, case = name.rpartition(".")
    kind = kind or "Func"
    if case == "*":
        return set.intersection(set(sources()), *(places(f"{kind}.{each}") for each in cases(kind)))
    paths, modules = homes(kind)
    found = {path for path in paths if re.search(rf"\b{case}\b", sources()[path])}
    for path in sources():
        named = named_in_code(path, kind, case) if path.endswith(".rt") else named_in_proofs(path, modules, case)
        if named:
            found.add(path)
    coded = {crate_of(path) for path in found if "/src/" in path}
    found.update(path for path in sources() if path.endswith("Answers.antt") and crate_of(path) in coded and f"in-{case}." in sources()[path])
    row = row_of(case) if kind == "Func" else None
    if row:
        found.update(path for path, text in sources().items() if row in text and re.search(rf"(?<![\w-]){row}(?![\w-])", text))
    return found


def by_crate(paths):
    table = {}
    for path in sorted(paths):
        table.setdefault(crate_of(path), []).append(path.split("/", 2)[2])
    return table


def listed(text):
    """The files of a list of the page."""
    found = set()
    for line in text.splitlines():
        words = QUOTED.findall(line)
        if words:
            found.update(f"crates/{words[0]}/{word}" for word in words[1:])
    return found


def check():
    with open(PAGE, encoding="utf-8") as file:
        page = file.read()
    wrong = []
    for names, text in LIST.findall(page):
        said, there = listed(text), set().union(*(places(name) for name in names.split()))
        wrong += [f"{PAGE}: {names} is named in {path}, which is not listed" for path in sorted(there - said)]
        wrong += [f"{PAGE}: {path} is listed, and does not name {names}" for path in sorted(said - there)]
    for word in QUOTED.findall(LIST.sub("", page)):
        if re.fullmatch(r"\w+/(src|specs|proofs)/\S+", word) and not os.path.exists(f"crates/{word}"):
            wrong.append(f"{PAGE}: crates/{word} is not there")
    print("\n".join(wrong), end="\n" if wrong else "")
    sys.exit(1 if wrong else 0)


def main():
    words = sys.argv[1:]
    if not words:
        sys.exit(__doc__)
    if words == ["--check"]:
        check()
    for name in words:
        found = places(name)
        if not found:
            sys.exit(f"places: nothing names {name}")
        for crate, names in by_crate(found).items():
            print(f"- `{crate}`: " + ", ".join(f"`{name}`" for name in names))


main()
