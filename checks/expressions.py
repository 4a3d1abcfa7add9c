#!/usr/bin/env python3
"""Compares the table of expressions in checks/tables/expressions/rows.rattle with gcc -m32.

Each row's size and, where it is a constant, its number become static assertions that gcc has to accept. Expressions
without a type in asmck's profile aren't asked: gcc knows more. Both sizes are the same. Status 0 where all agree, 77
where there is no gcc for -m32, else 1.
"""
import ast
import pathlib
import re
import sys

from support.check import arguments
from support.compiler import accepts, demand_gcc

ROWS = pathlib.Path(__file__).resolve().parent.parent / "checks/tables/expressions/rows.rattle"
ROW = re.compile(
    r'\(\s*("(?:[^"\\]|\\.)*"),\s*(None|Some\(-?\d+\)),\s*(None|Some\(-?\d+\)),'
    r"\s*(true|false),\s*(None|Some\(-?\d+\)),?\s*\)"
)
SIGNED = {1: "signed char", 2: "short", 4: "int", 8: "long long"}


def number(text):
    return None if text == "None" else int(text[5:-1])


def assertions(row):
    expression, own, value, _, known = row
    expression = ast.literal_eval(expression)
    own, value, known = number(own), number(value), number(known)
    if own is not None:
        yield f'_Static_assert(sizeof({expression}) == {own}, "size");'
    if known is not None:
        yield f'_Static_assert(({SIGNED[value]})({expression}) == {known}ll, "number");'


def main():
    arguments(__doc__)
    demand_gcc()
    table = ROWS.read_text()
    declarations = re.search(r'DECLARATIONS: &str = "\\\n(.*?)";', table, re.S).group(1)
    # This type isn't covered, and gcc has none of the name for -m32.
    declarations = declarations.replace("__int128 hidden;", "")
    rows = ROW.findall(table)
    wrong = 0
    for row in rows:
        lines = "\n".join(assertions(row))
        if not accepts(f"{declarations}\nvoid z(void) {{\n{lines}\n}}\n"):
            print(f"{row[0]}: gcc disagrees")
            wrong += 1
    print(f"{len(rows) - wrong} expressions agree with gcc -m32, {wrong} don't")
    return 1 if wrong or len(rows) < 100 else 0


sys.exit(main())
