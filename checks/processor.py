#!/usr/bin/env python3
"""Compares what the instructions do with what this machine's processor does.

Every row of the instruction table is taken in each size and with each combination of kinds of operands, with several
choices of registers and addresses, on states with edge values and on random ones. A small program over att_reader and
x86_table, built without a proof by `rt try`, reads the instruction's text and steps it, twice: with all undefined bits
and all words from outside 0, and with all 1. A program of gcc -m32 runs the same instruction on the processor. All bits
that both steps agree on have to be the processor's: registers, flags, memory and stack, whether it jumped, and whether
it was a division that can't be done. The check prints in how many states each row was compared (in the small size in
how many each operation and size), and which bits the operations leave open. The states are the same in each run. Status
0 where nothing differs and each row was compared, 77 where no program of gcc -m32 runs here, else 1.
"""
import collections
import pathlib
import random
import sys
import tempfile
import textwrap

from support.check import arguments
from support.instruction_rows import instructions
from support.machine_states import BYTES, ESP, FLAG_NAMES, FLAGS, NAMES, PUSHED, States, packed
from support.processor import demand_processor, outcomes
from support.trial import program_in, told

CRATES = "asm_core asm_template att_reader bitflags ck_ports x86_table"
SEED = 4
# How many choices of registers a row is taken with; in each how many combinations of edge values; and how many random
# states in all of them.
SIZES = {"small": (2, 12, 24), "full": (5, 40, 300)}
# A program that runs for long is stopped.
FILE_BYTES = 300_000
# How many differences are shown, each of another row.
SHOWN = 40


def sections(cases):
    """Files for the program: an instruction, how many states, and the states, one case behind the other."""
    files, size = [[]], 0
    for instruction, states in cases:
        bytes_ = b"".join(map(packed, states))
        if size + len(bytes_) > FILE_BYTES:
            files.append([])
            size = 0
        files[-1].append(instruction.text.encode() + b"\n" + packed([len(states)]) + bytes_)
        size += len(bytes_)
    return files


def step_lines(cases):
    """The lines that the program prints of all cases."""
    files = {f"{number:05}": b"".join(part) for number, part in enumerate(sections(cases))}
    with tempfile.TemporaryDirectory() as name:
        folder = pathlib.Path(name)
        (folder / "cases").mkdir()
        for file, content in files.items():
            (folder / "cases" / file).write_bytes(content)
        found = told(program_in(folder, "processor", CRATES, "plain_lines"), folder / "cases")
    if found.keys() != files.keys():
        raise RuntimeError("the program of the steps did not end")
    return iter([line for name in files for line in found[name]])


def step(line, state):
    """How a step ended, as a printed line says, and the state behind it."""
    end, at, *changes = line.split()
    words = list(state)
    for k, value in zip(changes[::2], changes[1::2], strict=True):
        words[int(k)] = int(value)
    how = {"1": "moved", "2": "jumped"}.get(at, "stayed") if end.startswith("Moved") else end
    return {"Divide": "divided"}.get(how, how), words


def step_pairs(cases):
    """For each case the steps from each state with all bits 0 and with all 1; None where the text isn't read."""
    lines = step_lines(cases)
    for _, states in cases:
        pairs = []
        for state in states:
            first = next(lines)
            if first == "unread":
                pairs = None
                break
            pairs.append((step(first, state), step(next(lines), state)))
        yield pairs


def names_of(word, bits):
    """What the bits of that word of a state are called."""
    if word == FLAGS:
        return [name for k, name in enumerate(FLAG_NAMES) if bits >> k & 1]
    if word <= ESP:
        return [NAMES[word]]
    return ["memory" if word < PUSHED else "stack"]


def filled(head, words):
    return textwrap.fill(f"{head}: {'; '.join(words)}", 120, subsequent_indent="    ", break_long_words=False)


class Comparison:
    """How many states each row, each operation and size was compared in, what is left open, and what differs."""

    def __init__(self):
        self.rows = collections.Counter()
        self.sizes = collections.Counter()
        self.open = collections.defaultdict(set)
        self.wrong = 0
        self.first_wrong = {}

    def add(self, instruction, state, pair, real):
        """Compares the two steps from a state with what the processor does."""
        (how, words), (other, others) = pair
        self.rows[instruction.row] += 1
        self.sizes[instruction.name] += 1
        if how != other or how != real[0]:
            self.differs(instruction, state, f"{how} or {other}, but {real[0]}")
            return
        for k, (word, second, found) in enumerate(zip(words, others, real[1], strict=True)):
            self.leave_open(instruction, k, word ^ second)
            bits = (word ^ found) & ~(word ^ second)
            if bits:
                self.differs(instruction, state, f"{' '.join(names_of(k, bits))} {word:#x}, but {found:#x}")

    def add_all(self, instruction, states, pairs, real):
        if pairs is None:
            self.rows[instruction.row] += 0
            self.differs(instruction, [], "it has no reading")
            return
        for told_of in zip(states, pairs, real, strict=True):
            self.add(instruction, *told_of)

    def leave_open(self, instruction, word, bits):
        if bits:
            self.open[instruction.operation].update(names_of(word, bits) if word >= ESP else ["registers"])

    def differs(self, instruction, state, what):
        registers = " ".join(f"{name} {word:#x}" for name, word in zip(NAMES, state))
        text = f"{instruction.text}: {what}; from {registers}, memory {packed(state[BYTES:]).hex()}"
        self.first_wrong.setdefault(instruction.row, text)
        self.wrong += 1

    def show(self, size):
        states = self.rows if size == "full" else self.sizes
        print(filled("states", [f"{row} {count}" for row, count in states.items()]))
        print(filled("left open", [f"{name} {' '.join(sorted(bits))}" for name, bits in self.open.items()]))
        for text in list(self.first_wrong.values())[:SHOWN]:
            print(text)


def chosen_cases(size):
    """Instructions of each row, each with its states."""
    variants, pairs, count = SIZES[size]
    chance = random.Random(SEED)
    listed = list(instructions(chance, variants))
    choices = collections.Counter(it.row for it in listed)
    return [(it, list(States(chance, it).all(pairs, count // choices[it.row] + 1))) for it in listed]


def main():
    size = arguments(__doc__).size
    demand_processor()
    cases = chosen_cases(size)
    runs = [(k, state) for k, (_, states) in enumerate(cases) for state in states]
    real = iter(outcomes([it.text for it, _ in cases], runs))
    found = Comparison()
    for (instruction, states), pairs in zip(cases, step_pairs(cases), strict=True):
        found.add_all(instruction, states, pairs, [next(real) for _ in states])
    found.show(size)
    empty = [row for row, count in found.rows.items() if not count]
    told_of = f"{len(found.rows)} rows as {len(cases)} instructions in {sum(found.rows.values())} states"
    print(f"{told_of}: {found.wrong} differ, {len(empty)} rows not compared {' '.join(empty)}".rstrip())
    return 1 if found.wrong or empty else 0


sys.exit(main())
