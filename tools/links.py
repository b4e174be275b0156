"""Checks the Markdown files: relative links and their headings, names of crates and of files of crates in backticks, and the length of pages.

python3 tools/links.py [--words]
With --words each page is printed with its length. Exits with 1 where something is wrong."""

import os
import re
import sys
import urllib.parse

ROOT = os.path.dirname(os.path.dirname(os.path.abspath(__file__)))
MOST_WORDS = 2200
LINK = re.compile(r"\[[^\]]*\]\(([^)\s]+)\)")
CRATE = re.compile(r"`((?:icn|icont|iconx|law|test|cases)(?:_[a-z0-9]+)+)`")
FILE = re.compile(r"`(?:([a-z_]+)/)?((?:[A-Za-z_]+/)*[A-Za-z_]+\.(?:antt|rt))`")
SKIPPED = {"out", "target", "wip", "node_modules"}


def pages():
    """The Markdown files of the tree, by their path from its root."""
    for folder, folders, files in os.walk(ROOT):
        folders[:] = sorted(f for f in folders if f not in SKIPPED and not f.startswith("."))
        for name in sorted(files):
            if name.endswith(".md"):
                yield os.path.relpath(os.path.join(folder, name), ROOT)


def lines_of(page):
    with open(os.path.join(ROOT, page), encoding="utf-8") as text:
        return text.read().split("\n")


def prose(lines):
    """The lines with their numbers, without blocks of code."""
    fenced = False
    for number, line in enumerate(lines, 1):
        if line.startswith("```"):
            fenced = not fenced
        elif not fenced and not line.startswith("    "):
            yield number, line


def anchors(page):
    """The anchors of a page's headings, as Git hosts make them."""
    found = set()
    for _, line in prose(lines_of(page)):
        if line.startswith("#"):
            heading = line.lstrip("#").strip().lower()
            found.add(re.sub(r"[^\w\- ]", "", heading).replace(" ", "-"))
    return found


def length(lines):
    """How many words a page has: what stands between blanks and has a letter or a digit."""
    return sum(1 for line in lines for word in line.split() if re.search(r"\w", word))


def crates_of_the_map():
    with open(os.path.join(ROOT, "crates.txt"), encoding="utf-8") as text:
        return {line.split(":")[0] for line in text if ":" in line and not line.startswith("#")}


def sources():
    """The names of files and folders in the crates, and of functions and lemmas that begin like a crate of cases or tests."""
    found = set()
    for folder, folders, files in os.walk(os.path.join(ROOT, "crates")):
        folders[:] = [f for f in folders if f not in SKIPPED]
        found.update(os.path.splitext(name)[0] for name in files + folders)
        for name in files:
            if name.endswith((".rt", ".antt")):
                with open(os.path.join(folder, name), encoding="utf-8") as text:
                    found.update(re.findall(r"\b(?:cases|test)_\w+", text.read()))
    return found


def link_fault(page, target):
    """What is wrong with a link, if anything."""
    if re.match(r"[a-z]+:", target):
        return None
    path, _, anchor = urllib.parse.unquote(target).partition("#")
    goal = os.path.normpath(os.path.join(os.path.dirname(page), path)) if path else page
    if not os.path.exists(os.path.join(ROOT, goal)):
        return f"link to {target}, which is not there"
    if anchor and goal.endswith(".md") and anchor not in anchors(goal):
        return f"link to {target}: no such heading"
    return None


def file_fault(names, crate, path):
    """What is wrong with the name of a file of definitions or code, which may stand behind that of its crate."""
    if crate and os.path.isdir(os.path.join(ROOT, "crates", crate)):
        return None if os.path.exists(os.path.join(ROOT, "crates", crate, path)) else f"no file `{crate}/{path}`"
    name = os.path.splitext(os.path.basename(path))[0]
    return None if name in names else f"no file `{path}`"


def faults():
    files = sources()
    known = crates_of_the_map() | files
    for page in pages():
        lines = lines_of(page)
        for number, line in prose(lines):
            for target in LINK.findall(line):
                fault = link_fault(page, target)
                if fault:
                    yield f"{page}:{number}: {fault}"
            for name in CRATE.findall(line):
                if name not in known:
                    yield f"{page}:{number}: no crate `{name}`"
            for crate, path in FILE.findall(line):
                fault = file_fault(files, crate, path)
                if fault:
                    yield f"{page}:{number}: {fault}"
        words = length(lines)
        if page.startswith("docs/") and words > MOST_WORDS:
            yield f"{page}: {words} words, more than {MOST_WORDS}"


def main():
    if "--words" in sys.argv[1:]:
        for page in pages():
            print(f"{length(lines_of(page)):6} {page}")
    found = list(faults())
    for fault in found:
        print(fault)
    return 1 if found else 0


if __name__ == "__main__":
    sys.exit(main())
