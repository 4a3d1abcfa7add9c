#!/usr/bin/env python3
"""Runs asmck on two files that this machine's compiler has preprocessed from its own headers.

The first has headers and no statement: asmck says nothing and ends with 0, though the headers have asm labels. The
second has two basic asm statements behind headers: asmck says at which place each is undecided and ends with 3. It
takes the proved program where that is built, else the build of `rt try` without a proof, in half a minute. Both sizes
are the same. Status 0 where asmck answers so, 77 where there is no gcc that preprocesses these for -m32, else 1.
"""
import pathlib
import sys
import tempfile

from support.asmck import answers
from support.check import arguments, skip
from support.compiler import demand_gcc, preprocessed

HEADERS = "".join(f"#include <{name}.h>\n" for name in ("math", "stdio", "stdlib", "string"))
STATEMENTS = 'void f(int x){ __asm__ volatile("nop");\n  if (x) asm("cli"); }\n'


def undecided(text, keyword):
    before = text[: text.index(keyword)]
    line, column = before.count("\n") + 1, len(before) - (before.rfind("\n") + 1) + 1
    return f"two.i:{line}:{column}: undecided statement form at {line}:{column}"


def main():
    arguments(__doc__)
    demand_gcc()
    with tempfile.TemporaryDirectory() as name:
        folder = pathlib.Path(name)
        none, two = preprocessed(HEADERS, folder), preprocessed(HEADERS + STATEMENTS, folder)
        if none is None or two is None:
            skip("gcc finds no C headers for -m32")
        cases = folder / "cases"
        cases.mkdir()
        (cases / "none.i").write_text(none)
        (cases / "two.i").write_text(two)
        found = answers(cases)
    wanted = [undecided(two, '__asm__ volatile("nop")'), undecided(two, 'asm("cli")')]
    failed = 0
    for file, expected in (("none.i", ([], 0)), ("two.i", (wanted, 3))):
        if found.get(file) != expected:
            print(f"{file}: {found.get(file)} and not {expected}")
            failed += 1
    print(f"{2 - failed} files as expected, {failed} not")
    return 1 if failed else 0


sys.exit(main())
