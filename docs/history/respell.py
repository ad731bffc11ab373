#!/usr/bin/env python3
"""Respells the repository's own definitions and lemmas, once, after the kit's port.py.

usage: python3 tools/respell.py [FOLDER]

Reads tools/respell.tsv beside this file: rows of an old name, a new name and, where a row
holds in some files alone, the beginnings of their paths with commas between. A name is a whole
word. It is turned in all of an .antt file but text in quotes, and in an .rt file in its ghost
items and clauses alone, so that functions, strings and exported names stay as they are. Names
that come from the kit are in no row. A name that the kit makes of a function's, in an answer
file, turns too where it is spelled like a row, as most-repeated of a function most_repeated
did: mend that by hand.
"""

import re
import sys
from pathlib import Path

WORD = re.compile(r"(?<![\w\-'])[A-Za-z_][\w'\-]*(?![\w'\-])")
QUOTED = re.compile(r'("(?:[^"\\\n]|\\.)*")')
GHOST = re.compile(r"^\s*(?:pub )?(?:ghost |requires|ensures)")
# a word that only the older spelling has; where no file has it, the names are turned already
OLDER = "tableAnswer"


def rows(path):
    table = []
    for line in path.read_text(encoding="utf-8").splitlines():
        if line and not line.startswith("#"):
            old, new, *where = line.split("\t")
            table.append((old, new, where[0].split(",") if where else [""]))
    return table


def names_for(table, path):
    return {old: new for old, new, where in table if any(path.startswith(w) for w in where)}


def turn(text, names):
    """The text with each name turned, outside quotes."""
    pieces = QUOTED.split(text)
    for i in range(0, len(pieces), 2):
        pieces[i] = WORD.sub(lambda m: names.get(m.group(0), m.group(0)), pieces[i])
    return "".join(pieces)


def turn_source(text, names):
    """Ghost items and clauses stand on one line each in this repository."""
    lines = text.split("\n")
    return "\n".join(turn(line, names) if GHOST.match(line) else line for line in lines)


def main():
    root = Path(sys.argv[1] if len(sys.argv) > 1 else ".")
    table = rows(Path(__file__).with_name("respell.tsv"))
    files = [p for kind in ("antt", "rt") for p in root.glob(f"crates/**/*.{kind}")]
    files = sorted(p for p in files if "out" not in p.relative_to(root).parts)
    texts = {p: p.read_text(encoding="utf-8") for p in files}
    if not any(OLDER in text for text in texts.values()):
        sys.exit("respell: the names are turned already")
    for path, text in texts.items():
        names = names_for(table, path.relative_to(root).as_posix())
        new = (turn if path.suffix == ".antt" else turn_source)(text, names)
        if new != text:
            path.write_text(new, encoding="utf-8")


main()
