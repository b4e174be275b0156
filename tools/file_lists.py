#!/usr/bin/env python3
"""The list of files in the README of each crate, made from the head comments of the files.

    tools/file_lists.py [CRATE ..]            prints the lists
    tools/file_lists.py --write [CRATE ..]    puts them between the two marks of each README
    tools/file_lists.py --check [CRATE ..]    tells each README whose list is another, and fails if one is

Without names it takes every crate; --write passes over a crate that has no README, and --check tells it.
A file has a line if a comment stands at its head. Of proofs/ only the files at the top are told. Behind the table stand
the names of the edits in must-fail/, if there are any.
"""

import argparse
import pathlib
import re
import sys

CRATES = pathlib.Path(__file__).resolve().parent.parent / "crates"
BEGIN, END = "<!-- files -->", "<!-- /files -->"
PLACES = (("src", "**/*.rt"), ("specs", "**/*.antt"), ("proofs", "*.antt"))
COMMENT = re.compile(r"(?://[/!]?|--+)(?:\s+(.*)|$)")
MOST_WORDS = 40


def head_comment(path):
    """The comment at the head of a file, as one text."""
    lines = []
    for line in path.read_text(encoding="utf-8").splitlines():
        comment = COMMENT.match(line)
        if comment is None:
            break
        lines.append((comment.group(1) or "").strip())
    return " ".join(line for line in lines if line)


def shortened(text):
    """The first sentences of a text, as many as fit a cell of a table; of a longer one what is before its colon."""
    sentences = re.split(r"(?<=[.!?])\s+(?=[A-Z`])", text)
    taken = sentences[:1]
    for sentence in sentences[1:]:
        if len(" ".join(taken + [sentence]).split()) > MOST_WORDS:
            break
        taken.append(sentence)
    kept = " ".join(taken)
    return kept if len(kept.split()) <= MOST_WORDS else kept.split(": ")[0]


def sentence_of(comment):
    """A comment as a cell: it begins with a capital, ends with a full stop, and has no bar."""
    text = shortened(comment).replace("|", "\\|")
    if text[0].islower() and not re.match(r"[\w]*_|[\w]+\(", text):
        text = text[0].upper() + text[1:]
    return text if text[-1] in ".!?:`" else text + "."


def file_list(crate):
    """The lines of a crate's list."""
    rows = []
    for place, pattern in PLACES:
        folder = crate / place
        for path in sorted(folder.glob(pattern)):
            comment = head_comment(path)
            if comment:
                rows.append(f"| `{path.relative_to(crate)}` | {sentence_of(comment)} |")
    table = ["| File | What stands in it |", "|---|---|"] + rows if rows else []
    return table + edits(crate)


def edits(crate):
    """The sentence on the wrong bodies that the gate tries."""
    names = sorted(path.stem for path in crate.glob("must-fail/*.edit"))
    if not names:
        return []
    return ["", "The gate tries these wrong bodies (`must-fail/`): " + ", ".join(f"`{name}`" for name in names) + "."]


def with_list(text, rows):
    """The text of a README with these rows between its marks, or None where it has no marks."""
    parts = re.split(f"({re.escape(BEGIN)}|{re.escape(END)})", text)
    if len(parts) != 5 or (parts[1], parts[3]) != (BEGIN, END):
        return None
    return "".join(parts[:2]) + "\n" + "".join(row + "\n" for row in rows) + "".join(parts[3:])


def compare(crate, write):
    """What is wrong with the list in a crate's README; with `write` it is put right first."""
    readme = crate / "README.md"
    if not readme.exists():
        return None if write else "has no README.md"
    text = readme.read_text(encoding="utf-8")
    made = with_list(text, file_list(crate))
    if made is None:
        return f"its README.md has not one {BEGIN} and one {END}"
    if write:
        if made != text:
            readme.write_text(made, encoding="utf-8")
        return None
    return None if made == text else "the list of files in its README.md is another"


def main():
    parser = argparse.ArgumentParser(description="Lists of files in the READMEs of crates.")
    mode = parser.add_mutually_exclusive_group()
    mode.add_argument("--write", action="store_true", help="put the lists into the READMEs")
    mode.add_argument("--check", action="store_true", help="compare the lists with the READMEs")
    parser.add_argument("crates", nargs="*", metavar="CRATE")
    options = parser.parse_args()
    names = options.crates or sorted(path.name for path in CRATES.iterdir() if path.is_dir())
    wrong = False
    for name in names:
        if options.write or options.check:
            fault = compare(CRATES / name, options.write)
            if fault:
                wrong = True
                print(f"crates/{name}: {fault}", file=sys.stderr)
        else:
            print(f"crates/{name}", *file_list(CRATES / name), "", sep="\n")
    return 1 if wrong else 0


if __name__ == "__main__":
    sys.exit(main())
