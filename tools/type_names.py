"""Type names that stand in two crates: python3 tools/type_names.py, at the top of a checkout.

A type of the code (`struct`, `enum`, `trait`, `type` of a .rt file) and what the definitions of its own crate see of it (`record`,
`data` of specs/*.antt) may have one name. A name that stands in two crates has to be among those below, with what is the same of
all that have it; any other such name fails, and so does a name below that is none.
"""
import collections, os, re, sys

VIEW = "the type of the code, and what definitions of a crate below it see of it"
BOTH = "the same of `icont` and of `iconx`, each by its own words and files"
MODEL = "the same in the meaning of a program and in the run of its code"

ALLOWED = {
    "AnswersCommand": BOTH,
    "Callee": MODEL,
    "Cell": VIEW,
    "Coexp": "of the run, and as the machine holds it",
    "Completes": BOTH,
    "Draft": "what is written and not in its place yet: a file, and the code of a procedure",
    "EndsBroken": BOTH,
    "EndsBy": BOTH,
    "EndsByFault": BOTH,
    "EndsIdle": BOTH,
    "EndsTorn": BOTH,
    "Frames": VIEW,
    "Heap": VIEW,
    "IsAnswered": BOTH,
    "IsJob": BOTH,
    "IsWholeCall": BOTH,
    "Job": BOTH,
    "LeavesFiles": BOTH,
    "Mover": VIEW,
    "Names": VIEW,
    "OpenLiteral": VIEW,
    "Outcome": VIEW,
    "Pair": VIEW,
    "PrefixForm": "what a prefix operator is, in the code that translates and in the translation of the proof",
    "Registers": VIEW,
    "Residual": VIEW,
    "Standing": "what there is: for a keyword as it is read, and under a name of a file system",
    "Status": MODEL,
    "Store": MODEL,
    "Streams": "the input and both outputs: the object that a run is handed, and what it tells",
    "UpdateForm": "what an operator with `:=` behind it is, in the code that translates and in the translation of the proof",
    "Why": VIEW,
    "WordsReading": BOTH,
    "World": VIEW,
}

CODE = re.compile(r"^[ \t]*(?:pub(?:\([a-z]+\))? )?(?:struct|enum|trait|type(?=[^;:]*=)) ([A-Z]\w*)", re.M)
SPEC = re.compile(r"^(?:pub )?(?:record|data) ([A-Z]\w*)", re.M)
# a type of an `impl` is none of its own: `type Item = ..` of an iterator; nor is one that a trait asks for
IMPL = re.compile(r"^([ \t]*)(?:unsafe )?impl\b.*?^\1\}", re.M | re.S)


def types(path):
    with open(path, encoding="utf-8") as file:
        text = file.read()
    if path.endswith(".rt"):
        return CODE.findall(IMPL.sub("", text))
    return SPEC.findall(text)


def sources(crate):
    for part, end in (("src", ".rt"), ("specs", ".antt")):
        for folder, _, names in os.walk(os.path.join(crate, part)):
            for name in names:
                if name.endswith(end):
                    yield os.path.join(folder, name)


def main():
    crates = collections.defaultdict(set)
    for crate in sorted(os.listdir("crates")):
        for path in sources(os.path.join("crates", crate)):
            for name in types(path):
                crates[name].add(crate)
    shared = {name for name, where in crates.items() if len(where) > 1}
    for name in sorted(shared - set(ALLOWED)):
        print(f"type name {name} stands in {', '.join(sorted(crates[name]))}")
    for name in sorted(set(ALLOWED) - shared):
        print(f"type name {name} is allowed in two crates, and stands in {', '.join(sorted(crates[name])) or 'none'}")
    sys.exit(1 if shared ^ set(ALLOWED) else 0)


main()
