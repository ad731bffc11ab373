#!/usr/bin/env python3
"""Counts the instructions that reading a text of element declarations takes, beside xmllint.

usage: python3 bench/reading.py [--bytes N]

The text is of 1 MB: comments, and between them 32 declarations near the limits, each a row of
127 names of 32 bytes, so 253 parts. season --compare reads it as the sent file, and an empty
one as the expected file, so that nothing is compared; xmllint reads it as the DTD that a
document of one element is checked against. Of each program the count for a text without
anything is taken off. Counted by callgrind, which is of valgrind. The program has to be built:
./season --help.
"""

import argparse
import re
import subprocess
import tempfile
from pathlib import Path

SEASON = Path(__file__).resolve().parent.parent / "crates" / "season" / "out" / "season"
NAMES = [f"element-{number:02}-of-a-long-name-here"[:32].ljust(32, "x") for number in range(64)]


def text_of(size):
    """A text of about so many bytes."""
    declarations = []
    for number in range(32):
        row = ",".join(NAMES[(number + place) % 64] for place in range(127))
        declarations.append(f"<!ELEMENT {NAMES[number]} ({row})>\n")
    line = "<!-- what a terminal expects of this pool, and why it is so - see the log -->\n"
    left = max(0, size - sum(map(len, declarations)))
    comments = line * (left // len(line) // len(declarations))
    return "".join(comments + declaration for declaration in declarations)


def instructions(command):
    """How many instructions a command takes."""
    tool = ["valgrind", "--tool=callgrind", "--callgrind-out-file=/dev/null"]
    said = subprocess.run([*tool, *command], capture_output=True, text=True).stderr
    return int(re.search(r"Collected : (\d+)", said)[1])


def main():
    parser = argparse.ArgumentParser(description=__doc__.splitlines()[0])
    parser.add_argument("--bytes", type=int, default=1_000_000)
    args = parser.parse_args()
    with tempfile.TemporaryDirectory() as folder:
        text, empty, document = (Path(folder) / name for name in ("text", "empty", "document"))
        text.write_text(text_of(args.bytes))
        empty.write_text("")
        document.write_text("<document/>\n")
        commands = {
            ("season", "text"): [SEASON, "--compare", text, empty],
            ("season", "empty"): [SEASON, "--compare", empty, empty],
            ("xmllint", "text"): ["xmllint", "--noout", "--dtdvalid", text, document],
            ("xmllint", "empty"): ["xmllint", "--noout", "--dtdvalid", empty, document],
        }
        counts = {case: instructions(command) for case, command in commands.items()}
        size = text.stat().st_size
    taken = {name: counts[name, "text"] - counts[name, "empty"] for name in ("season", "xmllint")}
    for name, count in taken.items():
        print(f"{name}: {count} instructions for {size} bytes, {count / size:.1f} a byte")
    print(f"season takes {taken['season'] / taken['xmllint']:.2f} of the instructions of xmllint")


if __name__ == "__main__":
    main()
