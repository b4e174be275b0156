"""What must be read to trust the headline: python3 tools/reading.py [--check], at the top of a checkout.

It begins with what the clause `headline` of icont_main and the clause `outcome` of iconx_main name, and goes on through the definitions
(crates/*/specs): what the text of a definition names, by its file's `use` lines, is to be read too. It prints the files in the order of
crates.txt, with how many lines of each crate are reached; `--write` puts that into docs/READING.md between its marks, and
`--check` fails where that page says something else. Words of the kit's own library and the types of the code are not followed. A paragraph of
a file is what stands between two empty lines, and is read whole.
"""
import os, re, sys

PAGE = "docs/READING.md"
MARKS = re.compile(r"(<!-- read -->\n).*?(<!-- end -->)", re.S)
BEGINS = (("crates/icont_top/src/top.rt", "icont_main", "headline"), ("crates/iconx_top/src/top.rt", "iconx_main", "outcome"))
USE = re.compile(r"^[ \t]*(?:pub )?(?:ghost )?use (Rattle\.[\w.]+?)(?:\.\{([^}]*)\})?(?: as (\w+))?;?[ \t]*$", re.M)
WORD = re.compile(r"[^\W\d][\w'-]*(?:\.[^\W\d][\w'-]*)*")
TYPE = re.compile(r"^[ \t]*(?:(?:abbrev|pub|unfoldable) )*(?:record|data) ([^\s:()]+)")
HEAD = re.compile(r"^[ \t]*(?:(?:abbrev|pub|unfoldable|tabled|mutual) )*(?:record |data )?([^\s:()]+(?: [^\s:()]+)*?)(?: [({].*?[)}])* :(?: |$)")


def path_of(module):
    parts = module.split(".")
    if len(parts) < 4 or parts[2] != "specs" or parts[3] == "declared":
        return None
    path = f"crates/{parts[1]}/specs/{'/'.join(parts[3:])}.antt"
    return path if os.path.exists(path) else None


class Source:
    """A file: what its `use` lines bring in, its paragraphs, and which paragraph a name is defined in."""

    def __init__(self, path):
        with open(path, encoding="utf-8") as file:
            text = file.read()
        self.names, self.modules, self.paragraphs, self.defined = {}, {}, [], {}
        for module, inner, alias in USE.findall(text):
            there = path_of(module)
            if there and alias:
                self.modules[alias] = there
            for word in (part.split() for part in inner.split(",")):
                if there and word:
                    self.names[word[-1]] = (there, word[0])
        for paragraph in re.split(r"\n[ \t]*\n", USE.sub("", text)):
            for line in paragraph.split("\n"):
                head = TYPE.match(line) or HEAD.match(line) if not line.lstrip().startswith("--") else None
                for name in head.group(1).split() if head else ():
                    self.defined.setdefault(name, len(self.paragraphs))
            self.paragraphs.append(paragraph)

    def leads(self, text, here):
        """Which definitions a text names, by file and name."""
        text = "\n".join(line for line in text.split("\n") if not line.lstrip().startswith(("--", "//")))
        for name in [*self.names, *(self.defined if here else ())]:
            if "◌" in name and all(part in text for part in name.split("◌")):
                yield self.names.get(name) or (here, name)
        for word in WORD.findall(text):
            first, _, rest = word.partition(".")
            if first in self.names:
                yield self.names[first]
            elif rest and first in self.modules:
                yield self.modules[first], rest.split(".")[0]
            elif here and first in self.defined:
                yield here, first


def clause(path, function, name):
    with open(path, encoding="utf-8") as file:
        text = file.read()
    text = text[text.index(f"pub fn {function}"):]
    text = text[text.index(f"ensures {name} {{"):]
    depth = 0
    for place, byte in enumerate(text):
        depth += (byte == "{") - (byte == "}")
        if byte == "}" and not depth:
            return text[:place]
    return text


def reached():
    """The paragraphs that are reached, by file."""
    sources, found, handed = {}, {}, set()
    todo = [lead for path, function, name in BEGINS for lead in Source(path).leads(clause(path, function, name), None)]
    while todo:
        path, name = todo.pop()
        if path not in sources:
            sources[path] = Source(path)
        source = sources[path]
        number = source.defined.get(name)
        if number is None and name in source.names:  # a name that a file hands on
            if (path, name) not in handed:
                handed.add((path, name))
                todo.append(source.names[name])
            continue
        if number is None or number in found.setdefault(path, set()):
            continue
        found[path].add(number)
        todo += source.leads(source.paragraphs[number], path)
    return {path: sum(len([line for line in sources[path].paragraphs[n].split("\n") if line.strip()]) for n in numbers)
            for path, numbers in found.items() if numbers}


def table():
    lines, order = reached(), {}
    with open("crates.txt", encoding="utf-8") as file:
        for line in file:
            if ":" in line and not line.startswith("#"):
                order[line.split(":")[0].split()[0]] = len(order)
    out = ["| Crate | Files of `specs/` that are reached | Lines |", "|---|---|---|"]
    for crate in sorted({path.split("/")[1] for path in lines}, key=order.get):
        files = {os.path.basename(path)[:-5]: n for path, n in sorted(lines.items()) if path.split("/")[1] == crate}
        out.append(f"| `{crate}` | " + ", ".join(files) + f" | {sum(files.values())} |")
    out.append(f"| | all | {sum(lines.values())} |")
    return "\n".join(out) + "\n"


def main():
    made = table()
    if sys.argv[1:] in (["--check"], ["--write"]):
        with open(PAGE, encoding="utf-8") as file:
            page = file.read()
        right = MARKS.sub(lambda marks: marks.group(1) + made + marks.group(2), page)
        if sys.argv[1] == "--write":
            with open(PAGE, "w", encoding="utf-8") as file:
                file.write(right)
        elif right != page:
            sys.exit(f"{PAGE} does not have what tools/reading.py finds: run it with --write")
    else:
        print(made, end="")


main()
