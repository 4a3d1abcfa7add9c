#!/usr/bin/env python3
"""Asks gcc -m32 for the sizes, alignments and offsets that the table of layouts has.

It reads the tables of checks/tables/layouts/rows.rattle. A row with values has to hold by static assertions, and gcc
has to refuse a row without. Both sizes are the same. Status 0 where all agree, 77 where there is no gcc for -m32,
else 1.
"""
import pathlib
import re
import sys

from support.check import arguments
from support.compiler import accepts, demand_gcc, gcc

TABLES = pathlib.Path(__file__).resolve().parent.parent / "checks/tables/layouts/rows.rattle"
ROW = re.compile(r'\n    (Row|Named)\(\s*"([^"]+)",(.*?)(?=\n    (?:Row|Named|//)|\n\];)', re.S)
LAYOUT = re.compile(r"Some\(\(&\[([0-9, ]*)\],\s*(\d+),\s*(\d+)\)\)")
EXTENT = re.compile(r"Some\(\((\d+),\s*(\d+)\)\)")


def asserted(conditions):
    return "".join(f'_Static_assert({c}, "{c}");\n' for c in conditions)


def layout_conditions(text, values):
    tag = " ".join(text.split()[:2])
    offsets = [int(n) for n in re.findall(r"\d+", values[1])]
    members = [f"__builtin_offsetof({tag}, {chr(ord('a') + k)}) == {n}u" for k, n in enumerate(offsets)]
    return members + [f"sizeof({tag}) == {values[2]}u", f"_Alignof({tag}) == {values[3]}"]


def extent_conditions(text, values):
    beside = f"struct {{ char before; __typeof__({text}) at; }}"
    if int(values[1]) > 2147483640:
        return [f"sizeof({text}) == {values[1]}u"]
    return [f"sizeof({text}) == {values[1]}u", f"__builtin_offsetof({beside}, at) == {values[2]}"]


def main():
    arguments(__doc__)
    demand_gcc()
    known = "enum E { E0 };\n"
    compared = refused = 0
    failures = []
    for kind, text, rest in ROW.findall(TABLES.read_text()):
        values = (LAYOUT if kind == "Row" else EXTENT).search(rest)
        declaration = f"{text};\n" if kind == "Row" else f"extern char sized[1 + 0 * sizeof({text})];\n"
        taken = accepts(known + declaration)
        if values is None:
            refused += 1
            if taken:
                failures.append(f"gcc takes {text}")
            continue
        if not taken:
            print(f"not compared, since this gcc refuses it: {text}")
            continue
        compared += 1
        conditions = layout_conditions if kind == "Row" else extent_conditions
        source = known + (declaration if kind == "Row" else "") + asserted(conditions(text, values))
        answer = gcc(source, "-std=gnu11", "-fsyntax-only")
        if answer.returncode != 0:
            failures.append(f"{text}\n{answer.stderr}")
        if kind == "Row":
            known += declaration
    print(f"{compared} compared, {refused} without a size, {len(failures)} failed")
    print("\n".join(failures), end="")
    return 1 if failures or compared < 50 else 0


sys.exit(main())
