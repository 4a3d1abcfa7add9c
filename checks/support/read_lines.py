"""Instructions as the program reader.rattle prints them, and the same written out in AT&T syntax."""
import dataclasses
import re

# The width of the operations that take no suffix; L where none is told.
FIXED = {"Movzbw": "W", "Movsbw": "W", "Cmpxchg8b": "Q", "Set": "B"}
UNSUFFIXED = set(
    "Movzbw Movzbl Movzwl Movsbw Movsbl Movswl Cltd Cwtl Nop Jmp J Jecxz Loop Clc Stc Cmc Cld Std Cpuid Rdtsc"
    " Cmpxchg8b Set".split()
)
# What the disassembler calls an operation with other operands or by another name.
OTHER_NAMES = {"xchgl": ("nop", "xchgl"), "bswapl": ("bswap",), "loop": ("loopl",)}
PARTS = {"All": "e{0}", "Low16": "{0}", "Low8": "{1}l", "High8": "{1}h"}


@dataclasses.dataclass(frozen=True)
class Inst:
    op: str
    condition: str
    width: str
    repeat: str
    lock: bool
    operands: tuple

    @property
    def name(self):
        """The name with its suffix, where it takes one."""
        return self.op.lower() + self.condition + ("" if self.op in UNSUFFIXED else self.width.lower())

    def has_own_width(self):
        """Whether the width is the operation's, where its name says it already."""
        return self.op not in UNSUFFIXED or self.width == FIXED.get(self.op, "L")

    def written(self, mark):
        """The instruction in full. The label of the instruction of number n is `MARKn`."""
        operands = ", ".join(operand_text(it, mark) for it in self.operands)
        prefix = "" if self.repeat == "No" else f"{self.repeat.lower()} "
        return f"{'lock ' if self.lock else ''}{prefix}{self.name} {operands}".rstrip()


@dataclasses.dataclass
class Block:
    """What the program prints of one text: why there is nothing, or the instructions."""

    why: str
    # How many jumps go to no label.
    lost: int = 0
    # An `Inst`, or a text where there is none.
    insts: list = dataclasses.field(default_factory=list)

    def is_read(self):
        return not self.why and not self.lost and all(isinstance(it, Inst) for it in self.insts)

    def is_left_out(self):
        return "left out" in self.insts


def operand_text(operand, mark):
    kind, *parts = operand.split(":")
    if kind == "r":
        return register_text(*parts)
    if kind == "n":
        return f"${parts[0]}"
    return f"{mark}{parts[0]}" if kind == "l" else address_text(*parts)


def register_text(register, part):
    name = register.lower()[1:]
    return f"%{PARTS[part].format(name, name[0])}"


def address_text(disp, base, index, scale):
    base = "" if base == "-" else f"%{base.removeprefix('Reg(').rstrip(')').lower()}"
    inside = base if index == "-" else f"{base},%{index.lower()},{scale}"
    return f"{disp}({inside})" if inside else disp


def inst_of(line):
    """The instruction of a line `inst OP WIDTH REPEAT LOCK OPERAND ..`."""
    op, width, repeat, lock, *operands = line.split()[1:]
    name, condition = re.fullmatch(r"(\w+)(?:\((\w+)\))?", op).groups()
    return Inst(name, (condition or "").lower(), width, repeat, lock == "true", tuple(operands))


def blocks(lines):
    """What the program prints of each text."""
    found = []
    for line in lines:
        word, _, rest = line.partition(" ")
        if word == "text":
            found.append(Block("outside") if rest == "outside" else Block("", int(rest)))
        elif word == "no":
            found.append(Block(rest))
        else:
            found[-1].insts.append(inst_of(line) if word == "inst" else line)
    return found


def written_out(block, number):
    """The instructions of a text in full, each behind its label."""
    mark = f".Lat{number}_"
    lines = [f"{mark}{k}: {inst.written(mark)}" for k, inst in enumerate(block.insts)]
    return "\n".join([*lines, f"{mark}{len(block.insts)}:"])


def without_pause(rows):
    """Disassembled instructions, of which `pause` is a `nop`."""
    return ["nop" if row == "pause" else row for row in rows]


def difference(block, rows, again):
    """How what is read differs from the assembler's instructions; an empty text where it doesn't.

    Both are disassembled: the text itself, and what is read of it, written out.
    """
    rows = without_pause(rows)
    if why := misnamed(block, rows):
        return why
    return "" if rows == again else f"{'; '.join(rows)}, but {'; '.join(again or ['nothing'])}"


def misnamed(block, rows):
    """Why disassembled instructions are not named as those of a text; an empty text where they are."""
    if len(rows) != len(block.insts):
        return f"{len(rows)} instructions for {len(block.insts)}"
    for inst, row in zip(block.insts, rows):
        words = [word for word in row.split() if word not in ("lock", "rep", "repz", "repnz")]
        if words[0] not in OTHER_NAMES.get(inst.name, (inst.name,)) or not inst.has_own_width():
            return f"{row} for {inst.op} {inst.width}"
    return ""
