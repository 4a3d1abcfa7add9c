"""Why the assembler takes lines that asmck leaves out: what the grammar and the table of names don't have."""
import dataclasses
import re

from support.att_lines import PREFIXES, REGISTERS
from support.name_table import name_rows

ROWS = name_rows()
SIZES = {f"%{name}": size for size, names in REGISTERS.items() for name in names}
NAMES = {name + suffix for row in ROWS for name in row.names for suffix in ("", *row.suffixes)}
PLACE = r"%e(?:[abcd]x|[sd]i|bp)"
NUMBER = r"-?(?:0x[0-9a-fA-F]+|0b[01]+|0[0-7]*|[1-9]\d*)"
ADDRESS = re.compile(rf"(?:{NUMBER})?\s*\(\s*(?:{PLACE}|(?:{PLACE})?\s*,\s*{PLACE}(?:\s*,\s*{NUMBER})?)\s*\)|{NUMBER}")
COMMENT = re.compile(r"#[^\n]*|(?<![^\s;:,])/\*.*?\*/", re.S)
GOAL = re.compile(r"(?:\d|[1-9]\d{1,3})[bf]")


@dataclasses.dataclass
class Statement:
    labels: list
    prefixes: list
    name: str
    operands: list
    text: str


def statement_of(text):
    """The parts of a statement, as far as they are known."""
    labels, prefixes, rest = [], [], text.strip()
    while label := re.match(r"([\w.$]+\s*):\s*", rest):
        labels.append(label[1])
        rest = rest[label.end() :]
    while prefix := re.match(rf"({'|'.join(PREFIXES)})(?![\w.])\s*", rest):
        prefixes.append(prefix[1])
        rest = rest[prefix.end() :]
    name, _, operands = rest.replace("\t", " ").partition(" ")
    parts = re.split(r",(?![^(]*\))", operands) if operands.strip() else []
    return Statement(labels, prefixes, name, [part.strip() for part in parts], text)


def uncommented(text):
    """The text without its comments, of which the newlines stay."""
    return COMMENT.sub(lambda comment: "\n" * comment[0].count("\n"), text)


def statements_of(text):
    """The statements of a text, each with the prefixes that stand alone before it."""
    waiting, found = [], []
    for it in map(statement_of, re.split("[;\n]", uncommented(text))):
        if waiting and it.labels:
            found.append(Statement([], waiting, "", [], ""))
            waiting = []
        if it.name:
            found.append(dataclasses.replace(it, prefixes=waiting + it.prefixes))
            waiting = []
        else:
            found += [dataclasses.replace(it, prefixes=[])] if it.labels else []
            waiting = waiting + it.prefixes
    return found + ([Statement([], waiting, "", [], "")] if waiting else [])


def kind_of(operand):
    """Whether an operand is a register, a number, a label or memory: R, I, T or M."""
    if GOAL.fullmatch(operand):
        return "T"
    return {"%": "R", "$": "I"}.get(operand[:1], "M")


def stands(slot, size, operand, kind):
    """Whether the operand may stand there in an instruction of that size."""
    allowed, own = slot
    if allowed == "C":
        return kind == "I" or operand == "%cl"
    return kind in allowed and (kind != "R" or SIZES.get(operand) == (own or size))


def fits(row, size, statement):
    kinds = [kind_of(it) for it in statement.operands]
    if len(kinds) != len(row.slots) or kinds.count("M") > 1:
        return False
    return all(map(stands, row.slots, [size] * len(kinds), statement.operands, kinds))


def gives_size(row, statement, size):
    """Whether some register has the instruction's size."""
    places = zip(statement.operands, row.slots)
    return any(SIZES.get(operand) == size for operand, (allowed, own) in places if allowed != "C" and not own)


def forms(statement):
    """The rows that the statement may be, by their sizes, with what gives the size: a suffix, the row or a register."""
    for row in ROWS:
        for name in row.names:
            for size in row.suffixes:
                if statement.name == name + size and fits(row, size, statement):
                    yield row, True
            if statement.name == name:
                for size in row.width or row.suffixes:
                    if fits(row, size, statement):
                        yield row, bool(row.width) or gives_size(row, statement, size)


def takes(row, statement):
    """Whether the one prefix may stand before an instruction of the row."""
    prefix = statement.prefixes[0]
    if prefix == "lock":
        return row.lock is not None and kind_of(statement.operands[row.lock]) == "M"
    return prefix in row.prefixes


def value(number):
    """A number as the assembler reads it."""
    sign, text = (-1, number[1:]) if number.startswith("-") else (1, number)
    for begin, radix in (("0x", 16), ("0b", 2), ("0", 8)):
        if text.startswith(begin) and len(text) > 1:
            return sign * int(text.removeprefix(begin), radix)
    return sign * int(text)


def operand_reason(operand):
    """What the grammar of operands doesn't have."""
    if any(f"%{name}" not in SIZES for name in re.findall(r"%\s*(\w+)", operand)):
        return "another register"
    if re.search(r"[$%*-]\s|[\w)]\s+[\w$%]", operand):
        return "a blank within a part"
    plain = re.sub(r"%\s*\w+", "%", operand).removeprefix("$")
    if "*" in plain[:1]:
        return "an indirect operand"
    if re.search(r"(?<![\w$.])(?:\d+[bf](?![\w.])|\.L)", plain):
        return "a label as a number"
    if re.search(r"(?<![\w'])[A-Za-z_.$]", plain):
        return "a symbol"
    if re.search(r"[+~*!<>|&^'\"\\/=]|-.*-|[\w)]\s*[-%]|-\(|\(-?\w+\)", plain):
        return "an expression"
    if any(not -(2**31) <= value(it) < 2**32 for it in re.findall(NUMBER, plain)):
        return "a number out of range"
    if kind_of(operand) == "M" and not ADDRESS.fullmatch(operand):
        return "another form of address"
    return None


def label_reason(label):
    if label != label.rstrip():
        return "a blank before a colon"
    return None if re.fullmatch(r"\d{1,4}", label) else "another label"


def prefix_reason(statement, rows):
    if len(statement.prefixes) > 1:
        return "several prefixes"
    if not any(takes(row, statement) for row in rows):
        return "a prefix that the instruction doesn't take"
    return None


def statement_reason(statement):
    """The first reason for which a statement isn't read."""
    if re.search("[A-Z]", re.sub(r"\b0x[0-9a-fA-F]+|\.L", "", statement.text)):
        return "a capital letter"
    for label in statement.labels:
        if why := label_reason(label):
            return why
    if not statement.name:
        return "a prefix without an instruction" if statement.prefixes else None
    if statement.name not in NAMES:
        return "another name"
    jumps = statement.name[0] == "j" or statement.name == "loop"
    for operand in statement.operands:
        if jumps and not GOAL.fullmatch(operand):
            return "another goal of a jump"
        if why := None if jumps else operand_reason(operand):
            return why
    found = list(forms(statement))
    if not found:
        return "a form that the table doesn't have"
    if all(row.left_out for row, _ in found):
        return "a bit test of memory by a register offset"
    if not any(known for _, known in found):
        return "no size"
    return prefix_reason(statement, [row for row, _ in found]) if statement.prefixes else None


def reason(text):
    """The first reason for which a text isn't read, None where there is none."""
    if "/*" in uncommented(text):
        return "a comment behind another byte, or without an end"
    if re.search(r"[\r\v\f]", uncommented(text)):
        return "another white-space byte"
    return next(filter(None, map(statement_reason, statements_of(text))), None)


def refusal(text):
    """Why the assembler refuses a text that asmck reads.

    Numbers are read modulo their field's width. And the assembler takes the blank away that stands before a comment
    behind a prefix and a name.
    """
    if re.search(rf"({'|'.join(PREFIXES)})[ \t]+\w+[ \t]+/\*", text):
        return "a comment behind a prefix and a name"
    for statement in statements_of(text):
        for row, _ in forms(statement):
            counts = row.slots and row.slots[0][0] in ("C", "RI", "I") and row.names[0] != "imul"
            if counts and kind_of(statement.operands[0]) == "I" and not -128 <= value(statement.operands[0][1:]) <= 255:
                return "a count or bit of more than a byte"
    return None
