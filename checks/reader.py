#!/usr/bin/env python3
"""Compares how asmck reads instructions with how this machine's assembler does.

A small program over att_reader, built without a proof by `rt try`, prints what is read of each text. What it reads is
written out again in full, one form for each instruction, and assembled: `objdump -d` has to show the same as of the
text itself, under the operation's name. That is asked of

- each spelling of the table of names in each size, with each kind of operands and each prefix that the table has, all
  of which have to be read;
- lines of the table with one thing changed, some without a change, and several lines with labels and jumps. What the
  assembler takes and asmck doesn't read is counted by the reason, each of which is something that is left out
  (checks/support/left_out.py); a line that no reason explains, and a line that is read in spite of one, are wrong;
- asm statements whose templates name operands. gcc -m32 compiles them under -O0 and -O2 and prints where it put the
  operands. The template's lines under that placement have to be those that gcc printed.

The texts are the same in each run. Status 0 where nothing differs, 77 where there is no gcc or assembler for 32 bits,
else 1.
"""
import collections
import pathlib
import random
import sys
import tempfile

from support import hole_statements
from support.assembler import assembled, demand_assembler
from support.att_lines import Changes, Lines, is_apart
from support.check import arguments
from support.compiler import demand_gcc
from support.left_out import reason, refusal
from support.read_lines import blocks, difference, written_out
from support.trial import program_in, told

CRATES = (
    "asm_constraints asm_core asm_places asm_statement asm_template att_reader bitflags"
    " c_decls c_exprs c_scopes c_tokens c_words ck_ports"
)
MODULES = ("placements", "plain_lines", "push_lines", "statement_interface")
SEED = 8
# How many lines by chance, and how many statements.
SIZES = {"small": (3000, 200), "full": (20000, 2000)}
# How many lines a file has for the program.
FILE = 4000
SHOWN = 40


def read_blocks(files):
    """What the program prints of each text or statement of the files, by the file's name."""
    with tempfile.TemporaryDirectory() as name:
        folder = pathlib.Path(name)
        (folder / "cases").mkdir()
        for file, content in files.items():
            (folder / "cases" / file).write_bytes(content)
        found = told(program_in(folder, "reader", CRATES, *MODULES), folder / "cases")
    if found.keys() != files.keys():
        raise RuntimeError("the program of the readings did not end")
    return {file: blocks(lines) for file, lines in found.items()}


def text_files(texts):
    """Files of texts for the program, by their names."""
    parts = [texts[at : at + FILE] for at in range(0, len(texts), FILE)]
    return {
        f"texts{number:05}": b"L" + b"".join(text.encode("latin-1") + b"\0" for text in part)
        for number, part in enumerate(parts)
    }


def rows_again(found):
    """The disassembled instructions of each text that is read, written out in full."""
    texts = [written_out(block, number) if block.is_read() else "" for number, block in enumerate(found)]
    return assembled(texts, [False] * len(texts))


class Comparison:
    """The lines: how many are read alike, what the assembler alone takes or refuses by its reason, what is wrong."""

    def __init__(self):
        self.counts = collections.Counter()
        self.theirs = collections.Counter()
        self.refused = collections.Counter()
        self.wrong = []

    def add(self, line, block, rows, again):
        why = reason(line.text)
        if block.is_read():
            self.add_read(line, block, rows, again, why)
        elif not line.change and not (line.left_out and block.is_left_out()):
            self.wrong.append(f"{line.text!r} of the table is not read")
        elif rows is None:
            self.counts["neither"] += 1
        elif why:
            self.theirs[why] += 1
        else:
            self.wrong.append(f"{line.text!r} ({line.change}) is not read: {'; '.join(rows)}")

    def add_read(self, line, block, rows, again, why):
        if rows is None:
            why = refusal(line.text)
            self.refused[why] += 1
            if not why:
                self.wrong.append(f"{line.text!r} ({line.change}) is read, and the assembler refuses it")
        elif why:
            self.wrong.append(f"{line.text!r} ({line.change}) is read, in spite of {why}")
        elif told_apart := difference(block, rows, again):
            self.wrong.append(f"{line.text!r} ({line.change}): {told_apart}")
        else:
            self.counts["read"] += 1

    def show(self):
        counts = self.counts
        print(f"lines: {counts['read']} read as the assembler does, {counts['neither']} read by neither")
        for head, reasons in (("taken by the assembler alone", self.theirs), ("refused by it alone", self.refused)):
            shown = ", ".join(f"{name} {count}" for name, count in sorted(reasons.items(), key=str))
            print(f"    {head}, {sum(reasons.values())}: {shown}")


def chosen_lines(chance, count):
    """All lines of the table, and some by chance, most of them changed."""
    lines, changes = Lines(chance), Changes(chance)
    yield from lines.table()
    for _ in range(count):
        draw = chance.random()
        line = lines.several() if draw < 0.1 else lines.any_line()
        yield changes.changed(line) if draw > 0.3 else line


def read_all(lines, made):
    """What is read of the lines, of what gcc printed of the statements, and of the statements' templates."""
    texts = text_files([line.text for line in lines] + [one.printed for one in made])
    statements = hole_statements.files(made)
    found = read_blocks(texts | statements)
    plain, placed = ([block for name in files for block in found[name]] for files in (texts, statements))
    return plain[: len(lines)], plain[len(lines) :], placed


def wrong_lines(lines, read):
    """What is wrong with the lines; the counts of the others are printed."""
    rows = assembled([line.text for line in lines], [line.is_apart for line in lines])
    compared = Comparison()
    for line, *told_of in zip(lines, read, rows, rows_again(read), strict=True):
        compared.add(line, *told_of)
    compared.show()
    return compared.wrong


def wrong_statements(made, plain, placed):
    printed = [one.printed for one in made]
    rows = assembled(printed, map(is_apart, printed))
    return hole_statements.compared(made, placed, plain, rows, rows_again(placed))


def main():
    size = arguments(__doc__).size
    demand_gcc()
    demand_assembler()
    chance = random.Random(SEED)
    line_count, statement_count = SIZES[size]
    lines = list(chosen_lines(chance, line_count))
    made = hole_statements.compiled(chance, statement_count)
    read, plain, placed = read_all(lines, made)
    wrong = wrong_lines(lines, read) + wrong_statements(made, plain, placed)
    for line in wrong[:SHOWN]:
        print(line)
    print(f"{len(lines)} lines and {len(made)} compiled statements: {len(wrong)} wrong")
    return 1 if wrong else 0


sys.exit(main())
