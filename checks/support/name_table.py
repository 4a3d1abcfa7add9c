"""The table of names of instructions, as its definition in crates/asm_core has it."""
import dataclasses
import itertools
import re

from support.trial import ROOT

SOURCE = ROOT / "crates/asm_core/specs/Reading/Names.antt"
CONDITIONS = (
    "o no b c nae ae nb nc e z ne nz be na a nbe s ns p pe np po l nge ge nl le ng g nle".split()
)
# The suffixes of the words that the definition writes rows with, or of its own names for them.
SUFFIXES = {"sized": "bwl", "wide": "wl", "long": "l", "exact": "", "plain": "", "Bwl": "bwl", "Wl": "wl", "L": "l"}
SUFFIXES |= {"B": "b", "None": ""}
HEAD = re.compile(r'\b(sized|wide|long|exact|row|plain) \(codes "(\w+)"\) (?:ops|Operation)\.\w+(?: Suffixes\.(\w+))?')
WIDTH = re.compile(r'(?:ops\.\w+|\(Some) ([BWLQ])\b')
SLOT = re.compile(r"\(RM_of [BW]\)|\b(?:RMI|RM|RI|R|M|I|C|T)\b")


@dataclasses.dataclass(frozen=True)
class NameRow:
    # The spellings, each condition apart.
    names: tuple
    suffixes: str
    # The size without a suffix, where no register gives it.
    width: str | None
    # The kinds that each operand may have, with a size behind them where it isn't the instruction's.
    slots: tuple
    # The operand that has to be memory under `lock`.
    lock: int | None
    prefixes: tuple
    left_out: bool

    def kinds(self):
        """The combinations of kinds of operands, of which one at most is memory."""
        choices = [[(kind, slot[1]) for kind in ("CI" if slot[0] == "C" else slot[0])] for slot in self.slots]
        return [kinds for kinds in itertools.product(*choices) if sum(kind == "M" for kind, _ in kinds) < 2]


def slot_of(text):
    return ("RM", text[-2].lower()) if text.startswith("(") else (text, "")


def row_of(line):
    """The row that a line of the definition writes, or None."""
    head = HEAD.search(line)
    if not head:
        return None
    word, name, suffixes = head.groups()
    rest = line[head.end() :]
    width = WIDTH.search(line[head.start() :])
    size = width[1].lower() if width else {"long": "l", "plain": "l"}.get(word)
    lock = re.search(r"\blocked (\d)", line)
    prefixes = ("repe", "repz", "repne", "repnz") if "compared " in line else ()
    operands = re.search(r"\((?:one|two|three) .*", rest)
    return NameRow(
        tuple(name + it for it in CONDITIONS) if name in ("cmov", "set", "j") else (name,),
        SUFFIXES[suffixes or word],
        size,
        tuple(slot_of(it) for it in SLOT.findall(operands[0] if operands else "")),
        int(lock[1]) if lock else None,
        ("rep",) if "repeated " in line else prefixes,
        "left_out (" in line,
    )


def name_rows():
    """All rows of the table."""
    lines = SOURCE.read_text().split("-- moves of data")[1].splitlines()
    return [row for row in map(row_of, lines) if row]
