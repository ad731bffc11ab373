#!/usr/bin/env python3
"""Tries the stored answers of the program texts by two parsers that know nothing of its reader.

usage: python3 bench/texts.py

The one is a chart parser over the productions of docs/TEXTS.md: it says how long the longest
start of a text is that begins a text of declarations, and whether the whole text is one. The
other is xmllint, where it is there: it says whether a file is a DTD. Both know nothing of
limits, ANY and repeated declarations, so of the refusals 15 and 16 the chart says only that
what stands up to their place begins such a text. Rows with two texts, which are compared, are
passed over.
"""

import re
import shutil
import subprocess
import sys
import tempfile
from pathlib import Path
from urllib.parse import unquote_to_bytes

CRATE = Path(__file__).resolve().parent.parent / "crates" / "texts"

BLANK = frozenset(b"\t\n\r ")
LETTER = frozenset(b"ABCDEFGHIJKLMNOPQRSTUVWXYZabcdefghijklmnopqrstuvwxyz_")
NAME = LETTER | frozenset(b"0123456789.-")
DASH = frozenset(b"-")
INNER = (frozenset((9, 10, 13)) | frozenset(range(32, 128))) - DASH


def word(text):
    """The signs that spell a word."""
    return [frozenset((byte,)) for byte in text.encode()]


# each symbol with its productions; a set of bytes stands for one of them
GRAMMAR = {
    "text": [[], ["text", BLANK], ["text", "comment"], ["text", "declaration"]],
    "comment": [word("<!--") + ["inside"] + word("-->")],
    "inside": [[], ["inside", INNER], ["inside", DASH, INNER]],
    "declaration": [word("<!ELEMENT") + ["gap", "name", "gap", "content", "blanks"] + word(">")],
    "gap": [[BLANK], ["gap", BLANK]],
    "blanks": [[], ["gap"]],
    "name": [[LETTER], ["name", NAME]],
    "content": [word("EMPTY"), word("ANY"), ["mixed"], ["group", "suffix"]],
    "suffix": [[], word("?"), word("*"), word("+")],
    "group": [
        word("(") + ["blanks", "member", "commas", "blanks"] + word(")"),
        word("(") + ["blanks", "member", "bars", "blanks"] + word(")"),
    ],
    "member": [["name", "suffix"], ["group", "suffix"]],
    "commas": [[], ["commas", "blanks"] + word(",") + ["blanks", "member"]],
    "bars": [[], ["bars", "blanks"] + word("|") + ["blanks", "member"]],
    "mixed": [
        word("(") + ["blanks"] + word("#PCDATA") + ["blanks"] + word(")"),
        word("(") + ["blanks"] + word("#PCDATA") + ["names", "blanks"] + word(")*"),
    ],
    "names": [[], ["names", "blanks"] + word("|") + ["blanks", "name"]],
}
EMPTY = {name for name, ways in GRAMMAR.items() if [] in ways}


class Column:
    """The items that stand behind so many bytes."""

    def __init__(self):
        self.items = []
        self.known = set()

    def add(self, item):
        if item not in self.known:
            self.known.add(item)
            self.items.append(item)


def complete(columns):
    """Adds to the last column all that follows from what it has."""
    here = len(columns) - 1
    for name, way, done, start in (column := columns[-1]).items:
        signs = GRAMMAR[name][way]
        if done == len(signs):
            for item in columns[start].items:
                over = GRAMMAR[item[0]][item[1]]
                if item[2] < len(over) and over[item[2]] == name:
                    column.add((item[0], item[1], item[2] + 1, item[3]))
        elif isinstance(signs[done], str):
            for number in range(len(GRAMMAR[signs[done]])):
                column.add((signs[done], number, 0, here))
            if signs[done] in EMPTY:
                column.add((name, way, done + 1, start))


def is_whole(column):
    """Whether a text may end here."""
    return any(
        name == "text" and start == 0 and done == len(GRAMMAR[name][way])
        for name, way, done, start in column.items
    )


def chart(text):
    """The length of the longest start that begins a text, and whether the text is one."""
    first = Column()
    for number in range(len(GRAMMAR["text"])):
        first.add(("text", number, 0, 0))
    columns = [first]
    complete(columns)
    for place, byte in enumerate(text):
        column = Column()
        for name, way, done, start in columns[-1].items:
            signs = GRAMMAR[name][way]
            if done < len(signs) and not isinstance(signs[done], str) and byte in signs[done]:
                column.add((name, way, done + 1, start))
        if not column.items:
            return place, False
        columns.append(column)
        complete(columns)
    return len(text), is_whole(columns[-1])


def agrees(answer, longest, whole):
    """Whether an answer can be, where the chart says so much."""
    refusal = re.match(r"refused (\d+), text, place (\d+),", answer)
    if refusal is None:
        return whole
    number, place = int(refusal[1]), int(refusal[2])
    if number == 14:
        return not whole and place == longest
    return whole or longest > place


def takes(text, folder):
    """Whether xmllint takes a text as a DTD."""
    document, file = folder / "document.xml", folder / "text.dtd"
    document.write_text("<document/>\n")
    file.write_bytes(text)
    said = subprocess.run(
        ["xmllint", "--noout", "--dtdvalid", file, document], capture_output=True
    ).stderr
    return b"parser error" not in said and b"Could not parse DTD" not in said


def main():
    rows = [row.split("\t") for row in (CRATE / "stdin").read_text().splitlines()]
    texts = [row for row in rows if len(row) == 2]
    told = (CRATE / "stdout").read_text().splitlines()
    answers = dict(line.split("\t") for line in told if "\t" in line)
    differ, by_xmllint, apart = 0, 0, []
    with tempfile.TemporaryDirectory() as folder:
        for name, written in texts:
            answer = answers[name]
            text = unquote_to_bytes(written)
            longest, whole = chart(text)
            if not agrees(answer, longest, whole):
                differ += 1
                print(f"{name}: {answer}, and the chart: {longest}, {whole}")
            if shutil.which("xmllint") and not answer.startswith(("refused 15", "refused 16")):
                by_xmllint += 1
                if takes(text, Path(folder)) == answer.startswith("refused"):
                    apart.append(name)
    print(f"{len(texts)} texts tried by the chart, {differ} differ")
    print(f"{by_xmllint} tried by xmllint, {len(apart)} otherwise: {' '.join(apart)}")
    sys.exit(differ > 0)


if __name__ == "__main__":
    main()
