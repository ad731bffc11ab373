#!/usr/bin/env python3
"""Measures how many calls of compare and of judge the program season answers a second.

usage: python3 bench/season.py [--program PATH] [--quick]

Each case is a script that declares its models, issues the set and makes one call over and
over. The time of a call is the time of the script with many such calls less that of the same
script with few, shared among those that it has more, so that starting, declaring and issuing
fall out. It is processor time, and that of each script is the best of some runs. Part of it
goes to the line, which is read and written whatever is asked: that is measured by the same
line with the number 33, which the first question refuses.

compare: included, or the last rule of family 5 broken, so that the whole list is asked.
judge: of a short message, which has each symbol once, and of a long one of 4,096 symbols, most
of them the first; both fit, or break the last rule.

An expected model is a row of the symbols 0, 1, 2 and so on, joined by sequences, interleaves
or choices, and counted from 1 up without end, from the first on, as far as there is room; the
parts that are left are nonempty parts on top. It is conflict-free. n symbols in a row take
2n - 1 parts without counts, so 16 parts hold at most 8 and 64 at most 32; 64 symbols need 127
parts.
"""

import argparse
import os
import subprocess
import sys
import tempfile
from pathlib import Path
from typing import NamedTuple

PROGRAM = Path(__file__).resolve().parent.parent / "crates/season/out/season"

# parts and symbols, the smallest first
SIZES = [(16, 8), (64, 8), (256, 8), (64, 32), (256, 32), (256, 64)]
PARTS = [16, 64, 256]
MOST_PARTS = 256
MOST_SYMBOLS = 4096

EMPTY, CHOICE, SEQUENCE, INTERLEAVE, NONEMPTY = (f"{kind}:0:0:0" for kind in (0, 2, 3, 4, 6))
COUNT = "5:0:1:0"

# how many calls the short script of a call has, and how many bytes the long one at most
FEW = 10
MOST_BYTES = 16_000_000


def model(parts, symbols, joint=SEQUENCE, pad=(NONEMPTY,), counts=MOST_PARTS):
    """A table of so many parts, of the symbols in that order, padded on top."""
    room = min(counts, parts - (2 * len(symbols) - 1))
    table = []
    for place, symbol in enumerate(symbols):
        table.append(f"1:{symbol}:0:0")
        if place < room:
            table.append(COUNT)
        if place > 0:
            table.append(joint)
    while len(table) + len(pad) <= parts:
        table.extend(pad)
    return (*table, *[NONEMPTY] * (parts - len(table)))


def swapped(symbols):
    """With the last two in each other's place, which breaks the last rule and no other."""
    return [*symbols[:-2], symbols[-1], symbols[-2]]


def last_rule(symbols):
    return f"family 5, {{{symbols - 2}}}, {{{symbols - 1}}}"


class Case(NamedTuple):
    name: str
    # parts of the sent model or symbols of the message; parts and symbols of the expected model
    sent: int
    parts: int
    symbols: int
    # steps by docs/RULES.md
    steps: int
    # what is declared at 1 and 2
    models: tuple
    call: str
    # the call at a number that is none
    line: str
    answer: str


def compare_case(name, symbols, sent, expected, answer="included"):
    s, p, q = symbols, len(expected), len(sent)
    steps = p + q + s * (p + q) + p * q + s * p + s * s * q
    return Case(name, q, p, s, steps, (sent, expected), "compare 1 2", "compare 33 2", answer)


def judge_case(name, symbols, message, expected, answer="fits"):
    s, p, n = symbols, len(expected), len(message)
    steps = p + n + s * (p + n)
    words = " ".join(str(symbol) for symbol in message)
    call, line = f"judge 2 {words}", f"judge 33 {words}"
    return Case(name, n, p, s, steps, (expected, expected), call, line, answer)


def compare_cases():
    for name, joint in (("sequences", SEQUENCE), ("interleaves", INTERLEAVE), ("choices", CHOICE)):
        for parts, symbols in SIZES:
            own = model(parts, range(symbols), joint)
            yield compare_case(f"{name}, included", symbols, own, own)
    for parts, symbols in SIZES:
        own = model(parts, range(symbols))
        other = model(parts, swapped(range(symbols)))
        yield compare_case("sequences, last rule", symbols, other, own, last_rule(symbols))


def growth_cases():
    # of the second kind each sequence with the empty part has one rule of family 4
    pads = (("padded with nonempty", (NONEMPTY,)), ("padded with sequences", (EMPTY, SEQUENCE)))
    for name, pad in pads:
        for parts in PARTS:
            for sent_parts in PARTS:
                # counts are those for which all have room
                sent = model(sent_parts, range(8), counts=1)
                expected = model(parts, range(8), pad=pad, counts=1)
                yield compare_case(name, 8, sent, expected)


def judge_cases():
    for name, most in (("short", 0), ("long", MOST_SYMBOLS)):
        for breaks in (False, True):
            for parts, symbols in SIZES:
                row = swapped(range(symbols)) if breaks else list(range(symbols))
                # the first symbol as often as the message has room for
                message = [0] * (most - symbols) + row
                answer = last_rule(symbols) if breaks else "fits"
                case = f"{name}, {'last rule' if breaks else 'fits'}"
                yield judge_case(case, symbols, message, model(parts, range(symbols)), answer)


class Timed:
    """The scripts of a call, one with few of it and one with many, and their best times."""

    def __init__(self, few, many, more):
        self.scripts = [few, many]
        self.best = [float("inf"), float("inf")]
        self.more = more

    def seconds(self):
        return (self.best[1] - self.best[0]) / self.more


class Bench:
    """What is timed, with its scripts in a folder."""

    def __init__(self, program, folder, quick):
        self.program = program
        self.folder = Path(folder)
        # how much longer the script with many calls is to take, and how often each is run
        self.wanted, self.runs = (0.03, 5) if quick else (0.1, 30)
        self.timed = {}

    def write(self, name, models, call, count):
        lines = [f"declare {place + 1} {' '.join(parts)}" for place, parts in enumerate(models)]
        script = self.folder / f"{len(self.timed)}-{name}"
        script.write_text("\n".join([*lines, "issue", *[call] * count, ""]), encoding="ascii")
        return script

    def seconds(self, script):
        """The processor time of one run."""
        process = subprocess.Popen([self.program, script], stdout=subprocess.DEVNULL)
        _, status, usage = os.wait4(process.pid, 0)
        process.returncode = os.waitstatus_to_exitcode(status)
        if process.returncode != 0:
            sys.exit(f"{self.program} ended with status {process.returncode}")
        return usage.ru_utime + usage.ru_stime

    def check(self, script, call, answer):
        run = subprocess.run([self.program, script], capture_output=True, text=True, check=True)
        answers = run.stdout.splitlines()[-FEW:]
        if answers != [f"{call}: {answer}"] * FEW:
            sys.exit(f"wanted {answer}, got {answers[0][-60:]}")

    def add(self, key, models, call, answer):
        """Writes the scripts of a call, with so many calls in the long one that it can be timed."""
        if key in self.timed:
            return
        few = self.write("few", models, call, FEW)
        self.check(few, call, answer)
        most = MOST_BYTES // (len(call) + 1)
        count, spent = FEW, 0.0
        while spent < self.wanted and count < most:
            # few calls tell little, so at most ten times as many come next
            growth = 1.2 * self.wanted / spent if spent > 0 else 10
            count = min(most, int(count * min(10, max(1.5, growth))))
            many = self.write("many", models, call, count)
            spent = self.seconds(many) - self.seconds(few)
        self.timed[key] = Timed(few, many, count - FEW)

    def add_case(self, case):
        self.add(case, case.models, case.call, case.answer)
        # one for all cases that have the line
        self.add(case.line, case.models, case.line, "refused 2, set, place 33")

    def run(self):
        """Runs all scripts in turn, again and again, so that a slow spell meets each but once."""
        for _ in range(self.runs):
            for timed in self.timed.values():
                for place, script in enumerate(timed.scripts):
                    timed.best[place] = min(timed.best[place], self.seconds(script))

    def print_table(self, title, cases):
        heads = ("sent", "parts", "symbols", "a second", "time", "steps", "line")
        print(f"\n{title:24}" + "".join(f"{head:>10}" for head in heads))
        unit = self.timed[cases[0]].seconds()
        for case in cases:
            call = self.timed[case].seconds()
            line = self.timed[case.line].seconds()
            print(
                f"{case.name:24}{case.sent:10}{case.parts:10}{case.symbols:10}{1 / call:10,.0f}"
                f"{call / unit:10.1f}{case.steps / cases[0].steps:10.1f}{line / call:10.1%}"
            )


def main():
    parser = argparse.ArgumentParser(description=__doc__.splitlines()[0])
    parser.add_argument("--program", default=PROGRAM, type=Path, help="instead of crates/season's")
    parser.add_argument("--quick", action="store_true", help="shorter scripts and fewer runs")
    args = parser.parse_args()
    if not args.program.exists():
        parser.error(f"no program {args.program} (./season --help builds crates/season's)")
    tables = {
        "compare": list(compare_cases()),
        "compare, by parts": list(growth_cases()),
        "judge": list(judge_cases()),
    }
    with tempfile.TemporaryDirectory() as folder:
        bench = Bench(args.program, folder, args.quick)
        for cases in tables.values():
            for case in cases:
                bench.add_case(case)
        bench.run()
        print("sent: parts of the sent model, or symbols of the message; a second: calls; time and")
        print("steps (by docs/RULES.md): how often those of the table's first row; line: the")
        print("line's share of the time")
        for title, cases in tables.items():
            bench.print_table(title, cases)


if __name__ == "__main__":
    main()
