#!/usr/bin/env python3
"""Runs the programs of examples/compiler, which show where gcc 12 leaves what asmck assumes of a compiler.

Each is built by `gcc -m32` at five levels of optimisation and answers 0 where gcc does what is assumed, 1 where it
doesn't: README tells at which. Another version of gcc is told and not compared. Both sizes are the same. Status 0 where
each program answers so, 77 where no program of gcc -m32 runs here, else 1.
"""
import subprocess
import sys

from support.check import arguments
from support.processor import demand_processor
from support.trial import ROOT

VERSION = "12"
# What each program answers at -O0, -O1, -O2, -O3 and -Os.
ANSWERS = {
    "memory_first.c": "11111",
    "stack_pointer.c": "01111",
    "thread_local.c": "01111",
    "two_operands.c": "01111",
}


def found():
    """What each program answers, by its name."""
    done = subprocess.run([ROOT / "examples/compiler/try"], text=True, capture_output=True, check=True)
    rows = [line.split() for line in done.stdout.splitlines() if line.partition(" ")[0].endswith(".c")]
    return {name: "".join(words[1::2]) for name, *words in rows}


def main():
    arguments(__doc__)
    demand_processor()
    version = subprocess.run(["gcc", "-dumpversion"], text=True, capture_output=True, check=True).stdout.strip()
    answers = found()
    if version.partition(".")[0] != VERSION:
        print(f"gcc {version} is not compared with gcc {VERSION}: {answers}")
        return 0
    others = {name for name in answers.keys() | ANSWERS.keys() if answers.get(name) != ANSWERS.get(name)}
    for name in sorted(others):
        print(f"{name}: {answers.get(name)} and not {ANSWERS.get(name)}")
    print(f"{len(answers)} programs, {len(others)} answer otherwise")
    return 1 if others else 0


sys.exit(main())
