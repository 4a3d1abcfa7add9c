"""Generated asm statements whose templates name operands, and where gcc puts these."""
import collections
import dataclasses
import pathlib
import re
import struct
import tempfile
from concurrent.futures import ThreadPoolExecutor

from support.asm_placements import ADDRESS, NAMES, REGISTERS
from support.att_lines import Lines
from support.compiler import gcc
from support.read_lines import difference

LEVELS = ("-O0", "-O2")
# How many functions gcc compiles at once: it may stop at the first one that it refuses.
GROUP = 12
HEAD = "int i0, int i1, int i2, short s0, short s1, char b0, char b1, long long l, int *p, short *q, char *r"
LOCALS = "int x = i0; short y = s0; char z = b0; int n = 7;"
LVALUES = {
    "b": "b0 b1 z *r r[2] r[i1]".split(),
    "w": "s0 s1 y *q q[1] q[i1]".split(),
    "l": "i0 i1 x *p p[3] p[i2]".split(),
}
CONSTANTS = "0 1 3 5 7 31 -1 -128 127 sizeof(int) n".split()
LETTERS = {"b": "qQabcd", "w": "rrrqQabcdSD", "l": "rrrrqQabcdSD"}
MODIFIERS = {"b": "b", "w": "w", "l": "k"}
PRINTED = re.compile(r'#APP\n# \d+ "[^"]*" 1\n(.*?)\n# 0 "" 2\n#NO_APP', re.S)
NO_REGISTER = 255


@dataclasses.dataclass(eq=False)
class Operand:
    constraint: str
    expression: str
    sign: str = ""
    size: str = "l"

    def written(self):
        return f'"{self.sign}{self.constraint}"({self.expression})'


@dataclasses.dataclass(frozen=True, eq=False)
class Hole:
    operand: Operand
    modifier: str = ""


@dataclasses.dataclass
class Statement:
    number: int
    # Texts and holes.
    pieces: list

    def operands(self):
        """Outputs first, each once."""
        named = list(dict.fromkeys(it.operand for it in self.pieces if isinstance(it, Hole)))
        return sorted(named, key=lambda it: not it.sign)

    def template(self):
        operands = self.operands()
        texts = [
            f"%{it.modifier}{operands.index(it.operand)}" if isinstance(it, Hole) else it.replace("%", "%%")
            for it in self.pieces
        ]
        named = "".join(f" %{k}" for k in range(len(operands)))
        # The one `%` that isn't the assembler's.
        return f"{''.join(texts).replace('%%=', '%=')}\\n# asm {self.number}{named}"

    def function(self):
        operands = self.operands()
        lists = [", ".join(it.written() for it in operands if bool(it.sign) == out) for out in (True, False)]
        return f'void f{self.number}({HEAD}) {{ {LOCALS} asm volatile("{self.template()}" : {" : ".join(lists)}); }}'


@dataclasses.dataclass
class Compiled:
    """A statement that gcc compiled: what it printed, and where the operands are."""

    statement: Statement
    level: str
    printed: str
    spots: list


class Generator:
    def __init__(self, random):
        self.random = random
        self.lines = Lines(random)

    def one_of(self, share):
        return self.random.random() < share

    def operand(self, kinds, size):
        """An operand of that size that may be of these kinds."""
        letters = {"R": self.random.choice(LETTERS[size]), "M": "m", "I": "i"}
        constraint = "".join(letters[kind] for kind in kinds)
        constant = "I" in kinds and (kinds == "I" or self.one_of(0.5))
        if constant:
            return Operand(constraint, self.random.choice(CONSTANTS), size=size)
        sign = "" if "I" in kinds else self.random.choice(("", "=", "+"))
        return Operand(constraint, self.random.choice(LVALUES[size]), sign, size)

    def address(self):
        """A memory operand, or an address that is written with registers and numbers as operands."""
        form = self.random.choice(("m", "m", "base", "index", "number", "scale"))
        base, index = (Hole(Operand(self.random.choice("rrrSDq"), name)) for name in ("p", "i1"))
        if form == "m":
            return [Hole(self.operand("M", self.random.choice("bwl")))]
        if form == "base":
            return [self.random.choice(("", "4", "-0x10")), "(", base, ")"]
        if form == "index":
            return ["8" if self.one_of(0.5) else "", "(", base, ",", index, f",{self.random.choice('1248')})"]
        if form == "number":
            return [Hole(self.operand("I", "l"), "c"), "(", base, ")"]
        return ["(,", index, ",", Hole(Operand("i", self.random.choice("1248")), "c"), ")"]

    def register(self, size):
        """A register as a hole, by its own size or by a modifier, or as it is written."""
        if self.one_of(0.1):
            return [self.lines.operand("R", size)]
        if size == "l" and self.one_of(0.05):
            return [Hole(Operand("A", "l", "+"))]
        own = self.random.choice("bwl")
        if own == size:
            return [Hole(self.operand("R", size))]
        operand = self.operand("R", own)
        if size == "b":
            operand.constraint = self.random.choice("qQabcd")
            return [Hole(operand, self.random.choice("bbh"))]
        return [Hole(operand, MODIFIERS[size])]

    def written(self, kind, size, allowed):
        """The pieces of an operand of that kind, or of any of the kinds that are allowed there."""
        if kind in "RMI" and set(allowed) <= set("RMI") and len(allowed) > 1 and self.one_of(0.3):
            return [Hole(self.operand("".join(it for it in allowed), size))]
        if kind == "R":
            return self.register(size)
        if kind == "M":
            return self.address()
        if kind == "I":
            hole = Hole(self.operand("I", "l"), self.random.choice(("", "", "c")))
            return ["$", hole] if hole.modifier else [hole]
        if kind == "C":
            return [Hole(Operand("c", "i1"), "b")] if self.one_of(0.5) else ["%cl"]
        return [self.random.choice(("1f", ".Lgo%="))]

    def line(self):
        """The pieces of a line, always with the suffix that tells its size."""
        row = self.random.choice([row for row in self.lines.rows if row.slots])
        kinds = self.random.choice(row.kinds())
        size = self.random.choice(row.suffixes or row.width)
        pieces = [f"{self.random.choice(row.names)}{size if row.suffixes else ''} "]
        for k, ((kind, own), slot) in enumerate(zip(kinds, row.slots)):
            allowed = "I" if slot[0] == "C" and kind == "I" else slot[0]
            pieces += [", "] * (k > 0) + self.written(kind, (own or size).replace("q", "l"), allowed)
        return pieces

    def statement(self, number):
        lines = [self.line() for _ in range(self.random.choice((1, 1, 2, 3)))]
        pieces = [piece for line in lines for piece in [*line, "; "]]
        goals = "1:" if "1f" in pieces else ""
        pieces.append(f"{goals} {'.Lgo%=:' if '.Lgo%=' in pieces else ''}".strip())
        statement = Statement(number, pieces)
        self.tie(statement)
        return statement

    def tie(self, statement):
        """Ties an input to an output of its size, at times."""
        operands = statement.operands()
        outputs = [it for it in operands if it.sign == "=" and it.constraint in list("rqQabcdSD")]
        inputs = [it for it in operands if not it.sign and it.constraint in list("rqQ")]
        pairs = [(a, b) for a in outputs for b in inputs if a.size == b.size and a.constraint != b.constraint]
        if pairs and self.one_of(0.3):
            output, tied = self.random.choice(pairs)
            tied.constraint = str(operands.index(output))


def spot(text, operand):
    """An operand's place as the program reads it, by what gcc prints; None where it has no such form."""
    numbers = {name: k for k, name in enumerate((*REGISTERS, "esp"))} | {None: NO_REGISTER}
    if text.startswith("%"):
        register = numbers[NAMES[text[1:]][0]]
        return struct.pack("<4Bq", ord("p" if operand.constraint == "A" else "r"), register, 0, 0, 0)
    if text.startswith("$"):
        return struct.pack("<4Bq", ord("n"), 0, 0, 0, int(text[1:]))
    form = ADDRESS.match(text)
    if not form or form["symbol"] or not re.fullmatch(r"-?\d+", form["disp"] or "0"):
        return None
    scale = int(form["scale"] or 1)
    return struct.pack("<4Bq", ord("m"), numbers[form["base"]], numbers[form["index"]], scale, int(form["disp"] or 0))


def source(statements):
    return "\n".join(statement.function() for statement in statements) + "\n"


def group_compiled(statements, level):
    """Those of the statements that gcc compiles, with what it prints."""
    left = list(statements)
    with tempfile.TemporaryDirectory() as name:
        output = pathlib.Path(name) / "made.s"
        while left:
            done = gcc(source(left), "-S", "-o", str(output), level, "-fno-pic", "-fomit-frame-pointer")
            if done.returncode == 0:
                return list(placed(left, level, output.read_text("latin-1")))
            lines = {int(line) - 1 for line in re.findall(r"^<stdin>:(\d+):.*?error: ", done.stderr, re.M)}
            if not lines:
                raise RuntimeError(done.stderr[-2000:])
            left = [statement for k, statement in enumerate(left) if k not in lines]
    return []


def placed(statements, level, output):
    """The statements with where their operands are, as the comment in each of their texts says."""
    by_number = {statement.number: statement for statement in statements}
    for text in PRINTED.findall(output):
        code, number, operands = re.fullmatch(r"(.*)\n# asm (\d+)(.*)", text, re.S).groups()
        statement = by_number[int(number)]
        spots = [spot(word, it) for word, it in zip(operands.split(), statement.operands(), strict=True)]
        if None not in spots:
            yield Compiled(statement, level, code, spots)


def compiled(random, count):
    """So many statements, each as gcc compiles it under each optimisation."""
    generator = Generator(random)
    statements = [generator.statement(number) for number in range(count)]
    groups = [statements[at : at + GROUP] for at in range(0, count, GROUP)]
    with ThreadPoolExecutor(2) as pool:
        parts = [part for level in LEVELS for part in pool.map(group_compiled, groups, [level] * len(groups))]
    return [made for part in parts for made in part]


def files(made):
    """The files for the program: functions, and a placement for each."""
    parts = [made[at : at + 1000] for at in range(0, len(made), 1000)]
    found = {}
    for number, part in enumerate(parts):
        spots = b"".join(bytes([len(it.spots)]) + b"".join(it.spots) for it in part)
        found[f"statements{number:05}"] = b"S" + source([it.statement for it in part]).encode() + b"\0" + spots
    return found


def is_plain(made):
    """Whether the printed text is one that may be written as it stands: it names no esp, and no label of `%=`."""
    return "%esp" not in made.printed and "%=" not in made.statement.template()


def fault(made, block, plain, rows, again):
    """What is wrong with the lines of one statement; an empty text where nothing is."""
    if not block.is_read():
        if rows is None or block.is_left_out():
            return ""
        return f"not read ({block.why or 'a line'})"
    if rows is None:
        return "read, and the assembler refuses it"
    if why := difference(block, rows, again):
        return why
    if is_plain(made) and plain.insts != block.insts:
        return f"read as {[it if isinstance(it, str) else it.written('') for it in plain.insts]} where it is written"
    return ""


def compared(made, blocks, plains, rows, again):
    """What is wrong with the lines of the compiled statements, and how many are alike is told."""
    wrong, counts = [], collections.Counter()
    for one, *told in zip(made, blocks, plains, rows, again, strict=True):
        block = told[0]
        if why := fault(one, *told):
            wrong.append(f"gcc {one.level}: {one.statement.function()}: {one.printed!r}: {why}")
        else:
            counts[one.level, "read" if block.is_read() else "left out" if block.is_left_out() else "not"] += 1
            counts["plain"] += block.is_read() and is_plain(one)
    for level in LEVELS:
        read, left, neither = (counts[level, it] for it in ("read", "left out", "not"))
        print(f"gcc {level}: {read} statements as gcc prints them, {left} left out, {neither} read by neither")
    print(f"    of these {counts['plain']} read alike from what gcc printed")
    return wrong
