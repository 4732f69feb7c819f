#!/usr/bin/env python3
"""Brings the repository's own names to today's spelling.

usage: python3 tools/respell.py [FOLDER]      (FOLDER: the top of a checkout; else the folder above this script)

Definitions and lemmas were spelled in camel case, as rowBound and rowBound-le. Today words are in snake case, and a
dash joins two names: row_bound, row_bound-le. The script is run once, on what the toolchain's porting script left. It
rewrites crates/ (sources, definitions, proofs, edits), docs/*.md and README.md in place, and prints how many names and
files it changed. Types and modules keep their capital; functions of src/ had no camel case. It stops, and changes
nothing, where two names would fall together.
"""

import os
import re
import sys

NAME = re.compile(r"(?<![\w'.₀-₉-])[A-Za-z_μ][\w'₀-₉-]*|(?<=\.)[A-Za-z_][\w'₀-₉-]*")
CAMEL = re.compile(r"^[a-z][a-z0-9']*[A-Z]")
# lemmas that have the name which a definition gets: the first name of each pair, in that file alone
TAKEN = {
    "crates/rules/proofs/moves/ShapeExact.antt": [("end_fits", "end_fits-true")],
    "crates/sheet/proofs/narrow/RowCut.antt": [("no_step", "no_step_behind")],
    "crates/sheet/proofs/narrow/SheetKept.antt": [("no_step", "no_step_behind")],
    "crates/bench/proofs/choice/ChoiceLaws.antt": [("open_after", "open_after-is")],
    "crates/bench/proofs/choice/NextLaws.antt": [("open_after", "open_after-is")],
    "crates/load_file/proofs/faults/ZeroLaws.antt": [("zero_row", "zero_row-is")],
    "crates/load_file/proofs/round_trip/WrittenFile.antt": [("zero_row", "zero_row-is")],
    "crates/sheet/proofs/trip/WrittenSheet.antt": [("zero_row", "zero_row-is")],
}
# words of the library that stand in the names of lemmas
LIBRARY = {"getD": "get_or"}


def files(root):
    for folder, dirs, names in os.walk(os.path.join(root, "crates")):
        dirs[:] = sorted(d for d in dirs if d != "out")
        for name in sorted(names):
            if name.endswith((".antt", ".rt", ".edit")):
                yield os.path.join(folder, name)
    docs = os.path.join(root, "docs")
    for name in sorted(os.listdir(docs)):
        if name.endswith(".md") and not name.startswith("PORT"):
            yield os.path.join(docs, name)
    yield os.path.join(root, "README.md")


def read(path):
    with open(path, encoding="utf-8", newline="") as f:
        return f.read()


def words(text):
    for line in text.split("\n"):
        for m in NAME.finditer(line):
            yield m.group(0)


def spelled(name):
    def one(part):
        if part in LIBRARY:
            return LIBRARY[part]
        return re.sub("[A-Z]", lambda m: "_" + m.group(0).lower(), part) if CAMEL.match(part) else part

    return "-".join(one(p) for p in name.split("-"))


def main(argv):
    root = argv[0] if argv else os.path.dirname(os.path.dirname(os.path.abspath(__file__)))
    texts = {p: read(p) for p in files(root)}
    ours = {w for p, t in texts.items() if p.endswith((".antt", ".edit")) for w in words(t) if spelled(w) != w}
    new = {w: spelled(w) for w in ours}
    if len(set(new.values())) != len(new):
        print("respell: names fall together; nothing was changed", file=sys.stderr)
        return 1
    changed = 0
    for path, text in texts.items():
        out = text
        for old, to in TAKEN.get(os.path.relpath(path, root), ()):
            out = re.sub(r"(?<![\w'₀-₉-])" + old + r"(?![\w'₀-₉-])(?!\.)", to, out)
        out = NAME.sub(lambda m: new.get(m.group(0), m.group(0)), out)
        if out != text:
            changed += 1
            with open(path, "w", encoding="utf-8", newline="") as f:
                f.write(out)
    print(f"respell: {len(new)} names, {changed} files")
    return 0


if __name__ == "__main__":
    raise SystemExit(main(sys.argv[1:]))
