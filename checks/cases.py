#!/usr/bin/env python3
"""Compares what asmck prints of the statements of checks/cases with what stands there of each.

checks/cases/statements.c has 2,988 asm statements, each in a function of its own and each function in one line: some
600 kinds of verdict. check.expected is what `asmck check statements.c` has to print of them, and check-strict.expected
what it has to print with the word `--strict-cc`; both come from a second, independent reading of the rules. The check takes the proved program where that is built, else the build
of `rt try` without a proof. The small size takes each tenth statement, in which each rule is broken and each kind of
mark occurs that occurs in all. Status 0 where all agree, else 1.
"""
import pathlib
import sys
import tempfile

from support.asmck import answers
from support.check import arguments
from support.trial import ROOT

CASES = ROOT / "checks/cases"
FILE = "statements.c"
STRICT = "--strict-cc"
# The status of a file in which some rule is broken.
BROKEN = 1
SHOWN = 10


def line_of(said):
    """The line of the file that a printed line is of."""
    return int(said.split(":")[1])


def wanted(name, taken):
    """The lines of the file that are of the statements which are taken."""
    lines = (CASES / name).read_text().splitlines()
    return [line for line in lines if line_of(line) in taken]


def told(words, taken):
    """What asmck prints of the statements that are taken. The others' lines are left empty: each keeps its place."""
    lines = (CASES / FILE).read_text().splitlines()
    kept = [line if number in taken else "" for number, line in enumerate(lines, 1)]
    with tempfile.TemporaryDirectory() as name:
        (pathlib.Path(name) / FILE).write_text("\n".join(kept) + "\n")
        return answers(pathlib.Path(name), *words)


def differing(found, expected):
    """How many statements have other lines than the expected ones; the first few are printed."""
    lines, status = found.get(FILE, ([], None))
    if status != BROKEN:
        print(f"status {status} and not {BROKEN}", *lines[:SHOWN], sep="\n    ")
        return 1
    others = sorted({line_of(line) for line in set(lines) ^ set(expected)})
    for number in others[:SHOWN]:
        print(f"line {number}:", *[line for line in lines if line_of(line) == number], sep="\n    ")
        print("  and not", *[line for line in expected if line_of(line) == number], sep="\n    ")
    # The same lines in another order, or one twice.
    return len(others) or int(lines != expected)


def main():
    size = arguments(__doc__).size
    count = len((CASES / FILE).read_text().splitlines())
    taken = set(range(10, count + 1, 10) if size == "small" else range(1, count + 1))
    others = differing(told([], taken), wanted("check.expected", taken))
    print(f"{len(taken)} statements compared, {others} differ")
    strict = differing(told([STRICT], taken), wanted("check-strict.expected", taken))
    print(f"with {STRICT} {strict} differ")
    return 1 if others or strict else 0


sys.exit(main())
