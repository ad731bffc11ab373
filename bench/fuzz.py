#!/usr/bin/env python3
"""Hands bytes of any kind to the programs: the texts of the program texts, altered by chance.

usage: python3 bench/fuzz.py [--inputs N] [--seed N]

The program texts reads them all in one run, and each answer is tried by the chart parser of
bench/texts.py; and season --compare is run on each with the one before it: it has to end with
status 0 or 1 and lines on standard output, or with status 2, one line on standard error and
nothing on standard output. Both programs have to be built: ./season --help, and rt run in
crates/texts.
"""

import argparse
import random
import subprocess
import sys
import tempfile
from pathlib import Path
from urllib.parse import quote_from_bytes, unquote_to_bytes

import texts

ROOT = Path(__file__).resolve().parent.parent
# what declarations are made of, and some bytes that stand nowhere
PIECES = [
    b"<!ELEMENT ", b"<!--", b"-->", b"(#PCDATA|", b"(", b")", b")*", b",", b"|", b"?", b"*",
    b"+", b">", b" ", b"\n", b"ANY", b"EMPTY", b"a", b"b-", b"_.", b"\x00", b"\x7f", b"\x80", b"&",
]
# a text that stands unescaped in a row: all but % and what ends a row or a word of it
PLAIN = bytes(byte for byte in range(32, 127) if byte != ord("%"))


def altered(chance, text, other):
    """A text with up to four bytes or pieces put in, taken out or exchanged."""
    text = bytearray(text)
    for _ in range(chance.randint(1, 4)):
        place = chance.randint(0, len(text))
        end = min(len(text), place + chance.choice((0, 0, 1, 1, 2, 8)))
        what = chance.choice(("piece", "byte", "nothing", "other"))
        if what == "piece":
            text[place:end] = chance.choice(PIECES)
        elif what == "byte":
            text[place:end] = bytes((chance.randrange(256),))
        elif what == "nothing":
            del text[place:end]
        else:
            start = chance.randint(0, len(other))
            text[place:end] = other[start : start + chance.randint(0, 40)]
    return bytes(text[:2000])


def compared(season, folder, sent, expected):
    """What is wrong with a run of the compare, or None."""
    (folder / "sent").write_bytes(sent)
    (folder / "expected").write_bytes(expected)
    run = subprocess.run(
        [season, "--compare", "sent", "expected"], cwd=folder, capture_output=True, timeout=20
    )
    if run.returncode in (0, 1) and run.stdout.endswith(b"\n") and not run.stderr:
        return None
    if run.returncode == 2 and run.stderr.count(b"\n") == 1 and not run.stdout:
        return None
    return f"status {run.returncode}, {run.stdout!r}, {run.stderr!r}"


def main():
    parser = argparse.ArgumentParser(description=__doc__.splitlines()[0])
    parser.add_argument("--inputs", type=int, default=10_000)
    parser.add_argument("--seed", type=int, default=1)
    args = parser.parse_args()
    chance = random.Random(args.seed)
    rows = (texts.CRATE / "stdin").read_text().splitlines()
    seeds = [unquote_to_bytes(row.split("\t", 1)[1]) for row in rows]
    inputs = [altered(chance, chance.choice(seeds), chance.choice(seeds)) for _ in range(args.inputs)]
    table = "".join(f"{n}\t{quote_from_bytes(text, PLAIN)}\n" for n, text in enumerate(inputs))
    read = subprocess.run(
        [texts.CRATE / "out" / "texts"], input=table.encode(), capture_output=True
    )
    answers = read.stdout.decode().splitlines()
    if read.returncode != 0 or len(answers) != len(inputs):
        sys.exit(f"texts: status {read.returncode}, {len(answers)} answers, {read.stderr!r}")
    wrong, taken, before = 0, 0, b""
    with tempfile.TemporaryDirectory() as folder:
        for text, said in zip(inputs, answers):
            answer = said.split("\t", 1)[1]
            taken += not answer.startswith("refused")
            fault = compared(ROOT / "crates" / "season" / "out" / "season", Path(folder), text, before)
            if not texts.agrees(answer, *texts.chart(text)) or fault:
                wrong += 1
                print(f"{text!r}: {answer}; {fault}")
            before = text
    print(f"{len(inputs)} inputs, {taken} of them read whole, {wrong} wrong")
    sys.exit(wrong > 0)


if __name__ == "__main__":
    main()
