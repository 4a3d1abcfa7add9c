"""The rows of the instruction table, as texts in AT&T syntax that have each size and each kind of operands."""
import dataclasses
import itertools

# By the size: the suffix, the bits, and the names of registers, each with the number of its register and its first bit.
LETTERS = {"b": 8, "w": 16, "l": 32}
LONG = ("eax", "ebx", "ecx", "edx", "esi", "edi", "ebp")
REGISTERS = {
    "b": [(f"{letter}{half}", k, bit) for k, letter in enumerate("abcd") for half, bit in (("l", 0), ("h", 8))],
    "w": [(name[1:], k, 0) for k, name in enumerate(LONG)],
    "l": [(name, k, 0) for k, name in enumerate(LONG)],
}
# Where memory operands lie, and how they are addressed: each text with the values of its registers.
MEMORY = 0x20000010
ADDRESSES = (
    ("0x20000010", {}),
    ("(%esi)", {4: MEMORY}),
    ("8(%ebp)", {6: MEMORY - 8}),
    ("-4(%esi,%edi,4)", {4: MEMORY - 8, 5: 3}),
    ("0x20000000(,%edi,8)", {5: 2}),
    ("(%ebp,%edi)", {6: MEMORY + 1, 5: 2**32 - 1}),
)
CONDITIONS = "o no b ae e ne be a s ns p np l ge le g".split()
NUMBERS = {
    "b": (0, 1, 2, 127, -128, -1, 255, 0x55),
    "w": (0, 1, 127, 128, 0x7FFF, -0x8000, -1, 0xFFFF, 0x1234),
    "l": (0, 1, 127, 128, 0x7FFFFFFF, -0x80000000, -1, 0xFFFFFFFF, 0x12345678),
}
# Those whose number is a count, or the place of a bit.
COUNTING = "shl shr sar rol ror shld shrd bt bts btr btc".split()
# Each operation with its sizes and, for each operand, the kinds: R a register, M memory, I a number, C a number or
# `%cl`, T a label; behind a kind a size that isn't the instruction's.
ROWS = (
    ("mov", "bwl", "RMI", "RM"),
    ("movzb", "wl", "RMb", "R"),
    ("movzwl", "-", "RMw", "Rl"),
    ("movsb", "wl", "RMb", "R"),
    ("movswl", "-", "RMw", "Rl"),
    ("lea", "l", "M", "R"),
    ("xchg", "bwl", "R", "RM"),
    ("xchg", "bwl", "M", "R"),
    ("push", "l", "RMI"),
    ("pop", "l", "RM"),
    ("bswap", "l", "R"),
    *((f"cmov{it}", "wl", "RM", "R") for it in CONDITIONS),
    *((f"set{it}", "-", "RMb") for it in CONDITIONS),
    *((name, "-") for name in "cltd cwtl nop pause clc stc cmc cld std cpuid rdtsc".split()),
    *((name, "-", "T") for name in ("jmp", *(f"j{it}" for it in CONDITIONS), "jecxz", "loop")),
    *((name, "bwl", "RMI", "RM") for name in "add sub adc sbb cmp and or xor".split()),
    ("test", "bwl", "RMI", "RM"),
    ("test", "bwl", "M", "R"),
    *((name, "bwl", "RM") for name in "neg not inc dec mul imul div idiv".split()),
    ("imul", "wl", "RM", "R"),
    ("imul", "wl", "I", "RM", "R"),
    *((name, "bwl", "C", "RM") for name in "shl shr sar rol ror".split()),
    *((name, "bwl", "RM") for name in "shl shr sar rol ror".split()),
    ("shld", "l", "C", "R", "RM"),
    ("shrd", "l", "C", "R", "RM"),
    ("bsf", "wl", "RM", "R"),
    ("bsr", "wl", "RM", "R"),
    *((name, "wl", "RI", "R") for name in "bt bts btr btc".split()),
    *((name, "wl", "I", "M") for name in "bt bts btr btc".split()),
    *((f"{before}{name}", "bwl") for name in "movs stos lods".split() for before in ("", "rep ")),
    *((f"{before}{name}", "bwl") for name in "cmps scas".split() for before in ("", "repe ", "repne ")),
    ("xadd", "bwl", "R", "RM"),
    ("cmpxchg", "bwl", "R", "RM"),
    ("cmpxchg8b", "-", "Mq"),
    *((f"lock {name}", "bwl", "RI", "M") for name in "add sub adc sbb and or xor".split()),
    *((f"lock {name}", "bwl", "M") for name in "neg not inc dec".split()),
    *((f"lock {name}", "wl", "I", "M") for name in "bts btr btc".split()),
    *((f"lock {name}", "bwl", "R", "M") for name in "xchg xadd cmpxchg".split()),
    ("lock cmpxchg8b", "-", "Mq"),
)


@dataclasses.dataclass(frozen=True)
class Operand:
    """An operand as it is written, and what its value is in."""

    kind: str
    text: str
    bits: int
    # Of a register its number and first bit.
    register: int = 0
    first: int = 0
    # Of memory the values of the registers of its address.
    address: tuple = ()


@dataclasses.dataclass(frozen=True)
class Instruction:
    # With its prefix.
    operation: str
    # `-` where the operation has no other size.
    size: str
    operands: tuple

    @property
    def name(self):
        return self.operation if self.size == "-" else self.operation + self.size

    @property
    def row(self):
        """The operation, its size and the kinds of its operands."""
        return f"{self.name} {','.join(operand.kind for operand in self.operands)}".rstrip()

    @property
    def text(self):
        written = ", ".join(operand.text for operand in self.operands)
        return f"{self.name} {written}; nop; 1:" if written == "1f" else f"{self.name} {written}".rstrip()


def numbers(operation, size):
    """Numbers that stand as operands: of counts and places of bits those that turn at the width."""
    width = LETTERS.get(size, 32)
    return (0, 1, 2, width - 1, width, width + 1, 31) if operation.split()[-1] in COUNTING else NUMBERS[size]


def written(random, kind, size):
    """An operand of that kind and size, chosen by chance; its registers may be those of another operand."""
    if kind == "R":
        text, register, first = random.choice(REGISTERS[size])
        return Operand("R", f"%{text}", LETTERS[size], register, first)
    if kind == "M":
        text, registers = random.choice(ADDRESSES)
        return Operand("M", text, LETTERS.get(size, 64), address=tuple(registers.items()))
    if kind == "T":
        return Operand("T", "1f", 0)
    return Operand("C", "%cl", 8, 2, 0)


def combinations(size, slots):
    """The kinds of the operands, each with its size, of which one at most is memory."""
    parts = []
    for slot in slots:
        own = slot[-1] if slot[-1].islower() else size
        kinds = slot.rstrip("bwlq").replace("C", "CI")
        parts.append([(kind, own) for kind in kinds])
    return [kinds for kinds in itertools.product(*parts) if sum(kind == "M" for kind, _ in kinds) < 2]


def operands_of(random, kinds, number):
    """Operands of these kinds by chance, of which a number is given."""
    return tuple(
        Operand("I", f"${number}", LETTERS[own]) if kind == "I" else written(random, kind, own) for kind, own in kinds
    )


def variants(random, operation, size, kinds, count):
    """Instructions with operands of these kinds: `count` of them, or one for each number, by chance otherwise.

    Where all operands are registers of one size, there is one more in which they are the same.
    """
    sizes = [own for kind, own in kinds if kind == "I"]
    choices = numbers(operation, sizes[0]) if sizes else [None] * count
    lists = [operands_of(random, kinds, number) for number in choices]
    if len(kinds) > 1 and set(kinds) == {("R", size)}:
        lists.append(lists[0][:1] * len(kinds))
    made = [Instruction(operation, size, operands) for operands in lists]
    return {instruction.text: instruction for instruction in made}.values()


def instructions(random, count):
    """Instructions of every row, size and combination of kinds, `count` of each with other registers."""
    for operation, sizes, *slots in ROWS:
        for size in sizes:
            for kinds in combinations(size, slots):
                yield from variants(random, operation, size, kinds, count)
