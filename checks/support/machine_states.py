"""States for single instructions: edge values of operands and registers, and random ones."""
import itertools
import struct

from support.instruction_rows import MEMORY

# A state's words: eax ebx ecx edx esi edi ebp, esp, the flags, 8 of memory, 2 that are pushed.
WORDS = 19
ESP, FLAGS, BYTES, PUSHED = 7, 8, 9, 17
ECX, ESI, EDI = 2, 4, 5
NAMES = ("eax", "ebx", "ecx", "edx", "esi", "edi", "ebp", "esp", "flags")
BASE = 0x20000000
STACK = 0x20000800
# CF PF AF ZF SF OF DF, as bits of the processor's register of flags.
FLAG_NAMES = ("CF", "PF", "AF", "ZF", "SF", "OF", "DF")
FLAG_BITS = (0, 2, 4, 6, 7, 11, 10)


def edges(bits):
    top = 1 << (bits - 1)
    return [0, 1, 2, top - 1, top, top + 1, 2 * top - 2, 2 * top - 1]


def counts(bits):
    return [0, 1, 2, bits - 1, bits, bits + 1, 31, 32, 33, 255]


def processor_flags(flags):
    return sum((flags >> k & 1) << bit for k, bit in enumerate(FLAG_BITS)) | 0x202


def own_flags(register):
    return sum((register >> bit & 1) << k for k, bit in enumerate(FLAG_BITS))


def packed(words):
    return struct.pack(f"<{len(words)}I", *words)


def put(words, operand, value):
    """Gives an operand its value."""
    if operand.kind in "RC":
        mask = (1 << operand.bits) - 1 << operand.first
        words[operand.register] = words[operand.register] & ~mask | value << operand.first & mask
    elif operand.kind == "M":
        at = MEMORY - BASE
        whole = bytearray(packed(words[BYTES:PUSHED]))
        whole[at : at + operand.bits // 8] = value.to_bytes(operand.bits // 8, "little")
        words[BYTES:PUSHED] = struct.unpack("<8I", whole)


class States:
    """The states that an instruction is run on."""

    def __init__(self, random, instruction):
        self.random = random
        self.instruction = instruction
        self.width = {"b": 8, "w": 16, "l": 32}.get(instruction.size, 32)

    def value(self, bits):
        """An edge or any number."""
        return self.random.choice([self.random.choice(edges(bits)), self.random.getrandbits(bits)])

    def any_state(self):
        words = [self.value(32) for _ in range(WORDS)]
        words[FLAGS] = self.random.getrandbits(7)
        depth = self.random.choice((1, 2) if self.instruction.name == "popl" else (0, 1))
        words[ESP] = STACK - 4 * depth
        return words

    def prepared(self, values):
        """A state in which the operands have these values, None standing for any."""
        words = self.any_state()
        self.prepare(words)
        for operand, value in zip(self.instruction.operands, values, strict=True):
            if operand.kind in "RMC":
                put(words, operand, self.value(operand.bits) if value is None else value)
        # A register of the address may be another operand too.
        for operand in self.instruction.operands:
            for register, address in operand.address:
                words[register] = address
        return words

    def prepare(self, words):
        """What the operation needs so that more than its common case is seen."""
        name = self.instruction.operation.split()[-1]
        if name.startswith(("div", "idiv")):
            self.prepare_division(words)
        elif name.startswith("cmpxchg"):
            self.prepare_exchange(words)
        elif name.startswith(("loop", "jecxz")):
            words[ECX] = self.random.choice((0, 1, 2, 2**32 - 1))
        elif name in ("movs", "stos", "lods", "cmps", "scas"):
            self.prepare_string(words)

    def prepare_division(self, words):
        """A dividend whose upper half is small, of a random sign: else nearly every quotient would be too large."""
        upper = self.random.choice((0, 1, 2, 5, -1, -2, self.random.getrandbits(32)))
        if self.width == 8:
            words[0] = words[0] & 0xFFFF00FF | (upper & 255) << 8
        else:
            words[3] = upper % 2**32

    def prepare_exchange(self, words):
        """Equal operands in every second state: memory and registers hold the same."""
        if self.random.random() < 0.5:
            at = BYTES + (MEMORY - BASE) // 4
            for register in (1, 2, 3):
                words[register] = self.random.choice((words[0], words[register]))
            words[at : at + 2] = words[0], words[3]

    def prepare_string(self, words):
        """Pointers into the memory, a small count, and elements that are often equal."""
        words[ESI] = BASE + self.random.randint(12, 16)
        words[EDI] = BASE + self.random.randint(12, 16)
        words[ECX] = self.random.randint(0, 3)
        common = self.random.choice(edges(8)) * 0x01010101
        for k in (0, *range(BYTES, PUSHED)):
            if self.random.random() < 0.8:
                words[k] = common

    def choices(self, operand):
        if operand.kind == "C":
            return counts(self.width)
        return edges(operand.bits) if operand.kind in "RM" else [None]

    def all(self, pairs, count):
        """States with at most so many combinations of edge values, then so many of any values."""
        combined = list(itertools.product(*(self.choices(it) for it in self.instruction.operands)))
        if len(combined) > pairs:
            combined = self.random.sample(combined, pairs)
        for values in combined:
            yield self.prepared(values)
        for _ in range(count):
            yield self.prepared([None] * len(self.instruction.operands))
