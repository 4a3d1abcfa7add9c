#!/usr/bin/env python3
"""Compares the interfaces of generated asm statements with what gcc -m32 makes of the statements.

Each statement's template is one comment that names its operands. A small program over asm_constraints and asm_places,
built without a proof by `rt try`, prints for each statement its interface, or why it has none, and the shapes in which
its operands have room. gcc compiles the same functions under -O0 and -O2. Where a statement has an interface and a
shape with room, gcc has to take it, or to refuse it for a reason of checks/support/gcc_refusals.py: by its own message
and by what the statement is. Each operand that gcc prints has to lie where one alternative of the interface lets it
lie. What gcc takes and asmck doesn't is counted: by what is outside, by K2, and by K1 where no operand has room. The
statements are the same in each run, 600 of them, or 5000 in full. Status 0 where nothing differs, 77 where there is no
gcc for -m32, else 1.
"""
import collections
import pathlib
import re
import sys
import tempfile
from concurrent.futures import ThreadPoolExecutor

from support.asm_placements import Interface, alternative_count, faults, interfaces, spot
from support.asm_statements import DECLARATIONS, Generator
from support.check import arguments
from support.compiler import demand_gcc, gcc
from support.gcc_refusals import reason
from support.trial import program_in, told

CRATES = "asm_constraints asm_core asm_places asm_statement bitflags c_decls c_exprs c_scopes c_tokens c_words ck_ports"
SEED = 14
COUNTS = {"small": 600, "full": 5000}
# How many functions a file has for the program, and for gcc, which stops at the first function that it refuses.
FILE = 625
GROUP = 6
LEVELS = ("-O0", "-O2")
WIDTHS = {"b": 1, "w": 2, "k": 4}


def parted(statements, count):
    return [statements[at : at + count] for at in range(0, len(statements), count)]


def text_of(statements):
    return "\n".join([DECLARATIONS, *(statement.function() for statement in statements)]) + "\n"


def answers(statements):
    """The interface of each statement, or why it has none, by its number."""
    files = {f"{number:05}": part for number, part in enumerate(parted(statements, FILE))}
    with tempfile.TemporaryDirectory() as name:
        folder = pathlib.Path(name)
        cases = folder / "cases"
        cases.mkdir()
        for file, part in files.items():
            (cases / file).write_text(text_of(part))
        found = told(program_in(folder, "interfaces", CRATES, "statement_interface"), cases)
    said = {}
    for file, part in files.items():
        text = text_of(part)
        for statement, ((first, last), answer) in zip(part, interfaces(found[file]), strict=True):
            if text[first:last] != statement.written():
                raise ValueError(f"another statement was read than {statement.written()}")
            said[statement.number] = answer
    return said


def compiled(statements, level):
    """What gcc makes of each statement, by its number: the operands that it prints, or a message as a text."""
    made, left = {}, list(statements)
    with tempfile.TemporaryDirectory() as name:
        output = pathlib.Path(name) / "made.s"
        while left:
            done = gcc(text_of(left), "-S", "-o", str(output), level, "-fno-pic", "-fomit-frame-pointer")
            if done.returncode == 0:
                # gcc prints any bytes for some modifiers.
                for number, operands in re.findall(r"^\t# asm (\d+)(.*)$", output.read_text("latin-1"), re.M):
                    made[int(number)] = operands.split()
                break
            refused = {}
            for line, message in re.findall(r"^<stdin>:(\d+):.*?error: (.*)", done.stderr, re.M):
                refused.setdefault(left[int(line) - 2].number, message)
            if not refused:
                raise RuntimeError(done.stderr[-2000:])
            made |= refused
            left = [statement for statement in left if statement.number not in refused]
    return made


def misplaced(statement, interface, printed):
    """Why no alternative lets the printed operands lie where they do; an empty text where one does."""
    if len(printed) != len(statement.named()):
        return f"{len(printed)} operands were printed"
    spots = {k: spot(text) for k, text in zip(statement.named(), printed)}
    if None in spots.values():
        return "an operand of unknown form was printed"
    widths = {k: WIDTHS.get(statement.operands[k].modifier) for k in spots}
    said = [faults(interface, a, spots, widths) for a in range(alternative_count(interface))]
    return "" if [] in said else "; ".join(f"alternative {a}: {', '.join(why)}" for a, why in enumerate(said))


class Comparison:
    """What is found of all statements under one optimisation."""

    def __init__(self):
        self.taken = 0
        self.operands = 0
        # Those with room that gcc refuses, and those that gcc alone takes, by their reason.
        self.refused = collections.Counter()
        self.theirs = collections.Counter()
        self.wrong = []

    def add(self, statement, answer, made):
        if not isinstance(answer, Interface):
            self.theirs[answer.reason] += isinstance(made, list)
        elif answer.many:
            self.theirs["Shapes"] += isinstance(made, list)
        elif isinstance(made, list):
            self.taken += bool(answer.rooms)
            self.theirs["K1"] += not answer.rooms
            self.operands += len(made)
            if why := misplaced(statement, answer, made):
                self.wrong.append(f"{why}: {' '.join(made)}")
        elif answer.rooms:
            why = made and reason(statement, answer, made)
            if why:
                self.refused[why] += 1
            else:
                self.wrong.append(made or "nothing was printed")


def counted(counts):
    return ", ".join(f"{name} {count}" for name, count in sorted(counts.items(), key=str) if count)


def main():
    size = arguments(__doc__).size
    demand_gcc()
    generator = Generator(SEED)
    statements = [generator.statement(number) for number in range(COUNTS[size])]
    said = answers(statements)
    rooms = sum(isinstance(it, Interface) and bool(it.rooms) for it in said.values())
    print(f"{len(statements)} statements, {rooms} with room for their operands")
    wrong = 0
    with ThreadPoolExecutor(2) as pool:
        for level in LEVELS:
            found = Comparison()
            groups = pool.map(compiled, parted(statements, GROUP), [level] * len(statements))
            made = {number: it for group in groups for number, it in group.items()}
            for statement in statements:
                known = len(found.wrong)
                found.add(statement, said[statement.number], made.get(statement.number))
                for line in found.wrong[known:]:
                    print(f"gcc {level}: {statement.written()}: {line}")
            print(f"gcc {level}: {found.taken} of them compiled, {found.operands} operands printed")
            print(f"    refused: {counted(found.refused)}")
            print(f"    compiled, but without room or interface: {counted(found.theirs)}")
            print(f"    {len(found.wrong)} not as the interface has it")
            wrong += len(found.wrong) or found.taken < len(statements) / 2
    return 1 if wrong else 0


sys.exit(main())
