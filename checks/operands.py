#!/usr/bin/env python3
"""Tells for how many operands of the asm statements in real files c_exprs knows the expression's type, and whether gcc
agrees.

    checks/operands.py [--size small|full] [FILE.i ..]

Without files it takes sources that use this machine's headers and has gcc -m32 preprocess them; both sizes are the
same. A small program over c_exprs, built without a proof by `rt try`, prints for each operand the sizes of its
expression and of its value, whether the value is a pointer, and its number. Then each statement is put into a
statement expression with static assertions that say the same, and gcc -m32 reads the file. Each expression without a
type is printed. Status 0 where gcc agrees with all that was printed, 77 where there is no gcc for -m32 or no headers,
else 1.
"""
import pathlib
import re
import sys
import tempfile

from support.check import arguments, skip
from support.compiler import demand_gcc, gcc, preprocessed
from support.trial import program_in, told

SOURCES = {
    "ports": "#include <sys/io.h>\n#include <asm/swab.h>\n",
    "cpuid": "#include <cpuid.h>\n",
    "intrinsics": "#include <immintrin.h>\n",
    "floating": """#include <fpu_control.h>
        void control(fpu_control_t *p) { fpu_control_t now; _FPU_GETCW(now); *p = now; _FPU_SETCW(p[1]); }
        """,
    "memcheck": """#include <stdlib.h>
        #include <valgrind/memcheck.h>
        struct pool { char *begin, *end; unsigned left[4]; };
        int checked(struct pool *pool) {
            VALGRIND_CREATE_MEMPOOL(pool, 0, 0);
            VALGRIND_MAKE_MEM_UNDEFINED(pool->begin, pool->end - pool->begin);
            if (VALGRIND_CHECK_MEM_IS_DEFINED(&pool->left[1], sizeof pool->left[1])) return 1;
            return RUNNING_ON_VALGRIND;
        }
        """,
}
CRATES = "asm_core asm_statement c_decls c_exprs c_scopes c_tokens c_words ck_ports"
SIZED = ("char", "short", "int", "long", "long long")
INTEGERS = ("_Bool", "char", *(f"{sign} {size}" for sign in ("signed", "unsigned") for size in SIZED))
NO_POINTER = "".join(f"{integer}: 0, " for integer in INTEGERS)


def assertions(expression, row):
    """What the program says of an operand, as static assertions."""
    own, value, pointer, known = row
    value_of = f"(0, {expression})"
    said = []
    if own != "-":
        said.append(f"sizeof({expression}) == {own}")
    if value != "-":
        said.append(f"sizeof{value_of} == {value}")
        said.append(f"_Generic({value_of}, {NO_POINTER} default: 1) == {int(pointer == 'true')}")
    if known != "-" and pointer == "false":
        mask = 2 ** (8 * int(value)) - 1
        said.append(f"((unsigned long long)({expression}) & {mask}ull) == {int(known) & mask}ull")
    return "".join(f'_Static_assert({what}, "");' for what in said)


def read_lines(text, lines):
    """The statements as spans with their assertions, and the expressions without a type. Offsets count bytes."""
    statements, untyped = [], []
    for line in lines:
        word, *numbers = line.split(" ")
        if word not in ("statement", "outside", "operand", "untyped"):
            continue
        first, last = int(numbers[0]), int(numbers[1])
        if word == "statement":
            statements.append((first, last, []))
        elif word == "operand":
            statements[-1][2].append(assertions(text[first:last], numbers[2:]))
        elif word == "untyped":
            untyped.append(text[first:last])
            statements[-1][2].append("")
    return statements, untyped


def asserted(text, statements):
    parts, end = [], 0
    for first, last, said in statements:
        if first < end:
            continue
        parts += [text[end:first], "({", *said, text[first:last], ";})"]
        end = last
    return "".join(parts) + text[end:]


def disagreements(name, text, statements):
    if gcc(text, "-fsyntax-only").returncode != 0:
        return [f"{name}: gcc refuses the file itself"]
    done = gcc(asserted(text, statements), "-fsyntax-only")
    return [f"{name}: {line}" for line in done.stderr.splitlines() if re.search(r"\berror: ", line)]


def texts_of(names, folder):
    if names:
        # One byte a character, so that the program's offsets are those of the text.
        return {pathlib.Path(name).name: pathlib.Path(name).read_text("latin-1") for name in names}
    texts = {name: preprocessed(source, folder) for name, source in SOURCES.items()}
    return {name: text for name, text in texts.items() if text is not None}


def main():
    given = arguments(__doc__, files="a preprocessed C file")
    demand_gcc()
    with tempfile.TemporaryDirectory() as name:
        folder = pathlib.Path(name)
        texts = texts_of(given.files, folder)
        if len(texts) < 3 and not given.files:
            skip("gcc preprocesses too few headers for -m32")
        cases = folder / "cases"
        cases.mkdir()
        for file, text in texts.items():
            (cases / file).write_text(text, "latin-1")
        found = told(program_in(folder, "typed_operands", CRATES), cases)
        wrong = [f"{file}: nothing was printed" for file in texts if file not in found]
        operands = unknown = 0
        for file, lines in found.items():
            statements, untyped = read_lines(texts[file], lines)
            operands += sum(len(said) for _, _, said in statements)
            unknown += len(untyped)
            wrong += disagreements(file, texts[file], statements)
            for expression in untyped:
                print(f"{file}: no type: {' '.join(expression.split())}")
        for line in wrong:
            print(line)
        share = f"{operands - unknown} of {operands}"
        print(f"{len(texts)} files: {share} asm operands have a type, {len(wrong)} not as gcc has it")
        return 1 if wrong or operands == unknown else 0


sys.exit(main())
