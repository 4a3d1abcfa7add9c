"""Interfaces as the program interfaces.rattle prints them, operands as gcc prints them, and whether these suit."""
import dataclasses
import itertools
import re

REGISTERS = ("eax", "ebx", "ecx", "edx", "esi", "edi", "ebp")
# The register and the bytes of each name that gcc prints.
NAMES = {name: (name, 4) for name in (*REGISTERS, "esp")}
NAMES |= {name[1:]: (name, 2) for name in NAMES}
NAMES |= {name[1] + "l": (name, 1) for name in REGISTERS[:4]}
SYMBOL = r"\.?[A-Za-z_][\w.]*"
ADDRESS = re.compile(
    rf"(?P<symbol>{SYMBOL})?(?P<disp>[-+]?\d+(?:[-+]\d+)*)?"
    r"(?:\((?:%(?P<base>\w+))?(?:,%(?P<index>\w+)(?:,(?P<scale>\d))?)?\))?$"
)
FORM = re.compile(r"-?\d+$")
SYMBOLIC = re.compile(rf"{SYMBOL}([-+]\d+)*$")


@dataclasses.dataclass(frozen=True)
class Alternative:
    early: bool
    tied: int | None
    registers: frozenset
    pair: bool
    memory: bool
    numbers: tuple | None


@dataclasses.dataclass
class Operand:
    role: str
    size: int
    known: int | None
    flag: bool
    alternatives: list = dataclasses.field(default_factory=list)


@dataclasses.dataclass
class Interface:
    clobbers: frozenset
    operands: list = dataclasses.field(default_factory=list)
    # The shapes with room: an alternative, and the kind of each operand: `r`, `m` or `i`.
    rooms: list = dataclasses.field(default_factory=list)
    many: bool = False


@dataclasses.dataclass(frozen=True)
class Refusal:
    """Why a statement has no interface."""

    reason: str


@dataclasses.dataclass(frozen=True)
class Spot:
    kind: str
    # The registers that hold the value.
    values: tuple = ()
    # The registers of the address.
    address: tuple = ()
    width: int = 0
    number: int | None = None
    text: str = ""


def alternative_count(interface):
    return max((len(operand.alternatives) for operand in interface.operands), default=1)


def set_of(bits):
    return frozenset(name for n, name in enumerate(REGISTERS) if int(bits) >> n & 1)


def optional(word):
    return None if word == "-" else int(word)


def interfaces(lines):
    """What the program prints: the span of each statement with its interface or its refusal."""
    found = []
    for line in lines:
        word, *rest = line.split(" ")
        if word == "statement":
            found.append(((int(rest[0]), int(rest[1])), None))
            continue
        span, told = found[-1]
        if word == "interface":
            found[-1] = span, Interface(set_of(rest[0]))
        elif word == "operand":
            told.operands.append(Operand(rest[0], int(rest[1]), optional(rest[2]), rest[3] == "flag"))
        elif word == "alternative":
            told.operands[-1].alternatives.append(alternative(*rest))
        elif word == "room":
            told.rooms.append((int(rest[0]), rest[1][1:]))
        elif word == "shapes":
            told.many = True
        elif word == "outside":
            found[-1] = span, Refusal(rest[0])
        elif word == "broken":
            found[-1] = span, Refusal("K2")
        else:
            raise ValueError(line)
    return found


def alternative(early, tied, registers, pair, memory, least, greatest):
    numbers = None if least == "-" else (int(least), int(greatest))
    return Alternative(early == "true", optional(tied), set_of(registers), pair == "true", memory == "true", numbers)


def signed(number, size):
    """The number of so many bytes, read as signed."""
    half = 1 << (8 * size - 1)
    return (number + half) % (2 * half) - half


def spot(text):
    """Where an operand is that gcc prints so, None where the text has no such form."""
    if text.startswith("%"):
        if text[1:] not in NAMES:
            return None
        register, width = NAMES[text[1:]]
        return Spot("r", (register,), width=width, text=register)
    if text.startswith("$"):
        number = int(text[1:]) if FORM.match(text[1:]) else None
        known = number is not None or SYMBOLIC.match(text[1:])
        return Spot("i", number=number, text=text) if known else None
    form = ADDRESS.match(text)
    if not form or (form["scale"] or "1") not in "1248":
        return None
    address = tuple(it for it in (form["base"], form["index"]) if it)
    return Spot("m", address=address, text=text) if form["index"] != "esp" else None


def placed(interface, number, a, spots, widths):
    """What forbids the spot of one operand in an alternative, by its own letters; an empty text where nothing does."""
    operand, at = interface.operands[number], spots[number]
    allowed = operand.alternatives[a]
    if allowed.tied is not None:
        output = spots[allowed.tied]
        return "" if (at.kind, at.text) == (output.kind, output.text) else f"not where %{allowed.tied} is"
    if at.kind == "m":
        return "" if allowed.memory else "in memory"
    if at.kind == "i":
        return number_fault(operand, allowed, at)
    if allowed.pair and at.values == ("eax",):
        return "" if not interface.clobbers & {"eax", "edx"} else "in a clobbered pair"
    if at.values[0] not in allowed.registers:
        return "in another register"
    if at.values[0] in interface.clobbers:
        return "in a clobbered register"
    return "" if at.width == (widths.get(number) or operand.size) else f"of {at.width} bytes"


def number_fault(operand, allowed, at):
    if allowed.numbers is None:
        return "a number"
    least, greatest = allowed.numbers
    if at.number is None:
        # The value of a symbol is any number of its size.
        return "" if operand.known is None and greatest - least == 2**32 - 1 else "a symbol"
    number = signed(at.number, operand.size)
    if not least <= number <= greatest:
        return "a number out of range"
    return "" if operand.known in (None, number) else "another number"


def values_of(interface, a, number, at):
    """The registers that hold an operand's value."""
    if at.kind == "r" and root(interface, a, number).pair:
        return {"eax", "edx"}
    return set(at.values)


def root(interface, a, number):
    allowed = interface.operands[number].alternatives[a]
    return allowed if allowed.tied is None else interface.operands[allowed.tied].alternatives[a]


def shared(interface, a, spots):
    """What forbids the spots together in an alternative."""
    for k, at in spots.items():
        if interface.clobbers & set(at.address):
            yield f"%{k} is addressed by a clobbered register"
    apart = [k for k in spots if interface.operands[k].role != "In"]
    for k, other in itertools.permutations(spots, 2):
        if k not in apart or interface.operands[other].alternatives[a].tied == k:
            continue
        own, there = values_of(interface, a, k, spots[k]), values_of(interface, a, other, spots[other])
        if other in apart and own & there:
            yield f"%{k} and %{other} share a register"
        if interface.operands[k].alternatives[a].early and own & (there | set(spots[other].address)):
            yield f"%{k} is early and shares a register with %{other}"


def faults(interface, a, spots, widths):
    """What forbids the spots in an alternative: none where the interface allows them."""
    own = ((k, placed(interface, k, a, spots, widths)) for k in spots)
    return [f"%{k} is {why}" for k, why in own if why] + list(shared(interface, a, spots))
