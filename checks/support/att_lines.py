"""Lines in AT&T syntax that the table of names has, and the same with one thing changed."""
import dataclasses
import re

from support.name_table import name_rows

LONG = ("eax", "ebx", "ecx", "edx", "esi", "edi", "ebp")
REGISTERS = {
    "b": ("al", "bl", "cl", "dl", "ah", "bh", "ch", "dh"),
    "w": tuple(name[1:] for name in LONG),
    "l": LONG,
}
BITS = {"b": 8, "w": 16, "l": 32}
PREFIXES = ("lock", "rep", "repe", "repz", "repne", "repnz")
OTHER_OPERANDS = (
    "%esp %sp %st %gs %cr0 %eax %ax %al %cl $5 $-1 $foo foo foo+4 4 (%eax) 4(%esp) %gs:4 *%eax *4 1f 1b .L1 -4(,%ebx,2)"
).split()
OTHER_NUMBERS = (
    "0X1f 0B1 08 0 00 07 0b2 0b101 1e3 'a 4294967295 4294967296 -2147483648 -2147483649 +5 - 5 ~1 1+2 (5) 5f 1b 0x 0b"
    " 0x80000000 -0x10 -010 0xg 256 65536 -129 1_0 --5 5. .5"
).split()
OTHER_ADDRESSES = (
    "(%eax,) (,%eax) (,%eax,) (%eax,%ebx,3) (%eax,%ebx,16) 4(%eax (%eax)) (%eax,2) (,2) () 4() %gs:4(%eax) *(%eax)"
    " foo(%eax) (%ax) (%bx) (%bx,%si) (%esp) 4(%esp,%eax,2) (%eax,%esp) 4+4(%eax) -(%eax) (%eax)4 (%eax,%ebx,%ecx)"
    " (%eax,%ebx,$2) $4(%eax) (4) (eax) 0x10(%ebp,%edi,0x2) (%eax,%ebx,02) (%al) (%eax,%bx,2) 4(,) (%eax,,2) (,,4)"
).split()
OTHER_GOALS = ("1 f", *"1b 2f 1 01f 1c 12345f *%eax 4 .+4 foo 0f 1F $1f (1f) 1f,1f".split())
LABELS = ("1:", "12:1:", "12345:", "foo:", ".L1:", "1 :", ":", "1:2:", "01:", "1", "$1:", "9999: ", "1::", "a1:", "1a:")
BYTES = "abelqwxz0159%$(),:;#*+-._~ \t@'\"&|{}/\\=<>!?[]^`\r\v"


@dataclasses.dataclass(frozen=True)
class Line:
    text: str
    # What was changed, or an empty text; and whether the table leaves its form out.
    change: str = ""
    left_out: bool = False

    @property
    def is_apart(self):
        """Whether other lines would change its meaning, or it theirs: by labels, or by a quote without an end."""
        return is_apart(self.text)


def is_apart(text):
    return bool(re.search(r"\d[bf]\b|\.L|\bfoo\b|\d:|[\"'\\/\r\v]", text))


class Lines:
    """Lines of the table of names, with operands by chance."""

    def __init__(self, random):
        self.random = random
        self.rows = name_rows()

    def number(self, bits, plain=False):
        """A number of so many bits, in any of the ways to write one."""
        value = self.random.choice((self.random.randrange(-(1 << bits - 1), 1 << bits), self.random.randrange(-9, 10)))
        forms = ("{}",) if plain else ("{}", "{}", "0x{:x}", "0{:o}", "0b{:b}")
        return ("-" if value < 0 else "") + self.random.choice(forms).format(abs(value))

    def address(self):
        """Any address: a displacement, a base, an index and a scale, of which some are missing."""
        base, index = (f"%{self.random.choice(LONG)}" for _ in range(2))
        scale = self.random.choice((1, 2, 4, 8))
        inside = (base, base, f"{base},{index}", f"{base},{index},{scale}", f",{index},{scale}", f",{index}")
        form = self.random.choice(("", *(f"({it})" for it in inside)))
        return (self.number(32) if not form or self.random.random() < 0.6 else "") + form

    def operand(self, kind, size):
        if kind == "R":
            return f"%{self.random.choice(REGISTERS[size])}"
        if kind == "I":
            return f"${self.number(BITS[size])}"
        return {"C": "%cl", "T": "1f"}.get(kind) or self.address()

    def written(self, row, name, size, kinds, suffixed):
        """A line of the row with operands of these kinds, and the label that a jump goes to."""
        own = {"I": "b"} if is_counting(name) else {}
        operands = [self.operand(kind, slot or own.get(kind, size)) for kind, slot in kinds]
        text = f"{name}{size if suffixed else ''} {', '.join(operands)}".rstrip()
        return f"{text}; nop; 1:" if "1f" in operands else text

    def lines_of(self, row, name, kinds):
        """The line in each size, with a suffix and, where the size is known without it, without."""
        sizes = row.suffixes or row.width or ""
        for size in sizes:
            text = self.written(row, name, size, kinds, bool(row.suffixes))
            yield Line(text, left_out=row.left_out)
            known = row.width or any(kind == "R" and not slot for kind, slot in kinds)
            if row.suffixes and known:
                yield Line(self.written(row, name, size, kinds, False), left_out=row.left_out)

    def prefixed(self, row, kinds, line):
        """The line with each prefix that it may have, before it and in a statement of its own."""
        prefixes = row.prefixes
        if row.lock is not None and kinds[row.lock][0] == "M":
            prefixes = ("lock",)
        for prefix in prefixes:
            for between in (" ", "; ", "\n\t"):
                yield dataclasses.replace(line, text=f"{prefix}{between}{line.text}")

    def table(self):
        """Every spelling of the table in each size and with each kind of operands, and with each prefix."""
        for row in self.rows:
            for name in row.names:
                for kinds in row.kinds():
                    for line in self.lines_of(row, name, kinds):
                        yield line
                        yield from self.prefixed(row, kinds, line)

    def any_line(self, rows=None):
        """A line of the table, or of some rows of it, by chance."""
        row = self.random.choice(rows or self.rows)
        kinds = self.random.choice(row.kinds())
        line = self.random.choice(list(self.lines_of(row, self.random.choice(row.names), kinds)))
        return self.random.choice([line, line, line, *self.prefixed(row, kinds, line)])


    def several(self):
        """Some lines, with labels and jumps to the nearest of them."""
        # `pause` is read as `nop`, which has another length.
        rows = [row for row in self.rows if row.names[0] not in ("nop", "pause")]
        jumps = [name for row in self.rows if row.slots[:1] == (("T", ""),) for name in row.names]
        parts = []
        for _ in range(self.random.randint(2, 5)):
            goal = self.random.choice(("1b", "1f", "2b", "2f", "12b", "12f", "0f"))
            line = f"{self.random.choice(jumps)} {goal}" if self.random.random() < 0.6 else self.any_line(rows).text
            parts.append(self.random.choice(("", "1:", "2: ", "12:", "1: 2:", "0:")) + line)
        return Line(self.random.choice(("; ", ";", "\n", "\n\t")).join(parts), "several lines")


def is_counting(name):
    """Whether a number of the instruction is a count, or the place of a bit."""
    return name in "shl sal shr sar rol ror shld shrd bt bts btr btc".split()


class Changes:
    """One change of a line."""

    def __init__(self, random):
        self.random = random

    def changed(self, line):
        change = self.random.choice([it for it in vars(type(self)) if it.startswith("with_")])
        text = getattr(self, change)(line.text)
        return Line(text, change.removeprefix("with_").replace("_", " "), line.left_out)

    def replaced(self, pattern, text, choices):
        """The text with one match of the pattern, by chance, replaced by one of the choices."""
        found = list(re.finditer(pattern, text))
        if not found:
            return text
        match = self.random.choice(found)
        return text[: match.start()] + self.random.choice(choices) + text[match.end() :]

    def with_suffix(self, text):
        names = list(re.finditer(r"\b[a-z]+\b(?!\S)", text))
        at = self.random.choice(names).end() if names else len(text)
        cut = self.random.choice((0, 1))
        return text[: at - cut] + self.random.choice(("", "b", "w", "l", "q", "s", "t")) + text[at:]

    def with_operand(self, text):
        return self.replaced(r"[%$]\w+|-?\w*\([^)]*\)", text, OTHER_OPERANDS)

    def with_register(self, text):
        return self.replaced(r"%\w+", text, [f"%{name}" for names in REGISTERS.values() for name in names] + ["%esp"])

    def with_comma(self, text):
        return self.replaced(r", ?", text, ("", " ", ",,", ", ,", ";", ",\t", " , ", ",$1,"))

    def with_turned_operands(self, text):
        return re.sub(r"(\S+), (\S+)$", r"\2, \1", text)

    def with_operand_less(self, text):
        return re.sub(r"[^ ,]+, ", "", text, count=1)

    def with_operand_more(self, text):
        return f"{text}{', ' if ',' in text else ' '}{self.random.choice(OTHER_OPERANDS)}"

    def with_blank(self, text):
        at = self.random.randint(0, len(text))
        return text[:at] + self.random.choice((" ", "\t", "  ", " \t ")) + text[at:]

    def with_blank_less(self, text):
        return self.replaced(r"[ \t\n]+", text, ("",))

    def with_number(self, text):
        return self.replaced(r"(?<![%\w])-?\d\w*(?![\w:])", text, OTHER_NUMBERS)

    def with_address(self, text):
        return self.replaced(r"(-?\w+)?\([^)]*\)|%\w+", text, OTHER_ADDRESSES)

    def with_comment(self, text):
        comment = self.random.choice(("/* a; b # c */", "/**/", " /* d */ ", "\t/*e\nf*/", "# g\n", "/* h", "*/"))
        at = self.random.choice([0, len(text), *(it.end() for it in re.finditer(r"[\s,;:]", text))])
        return text[:at] + comment + text[at:]

    def with_prefix(self, text):
        others = ("data16", "addr16", "cs", "repn", "LOCK", "rep rep", "lock lock", "rep;;", "lock # a\n", "lock 1:")
        return self.random.choice(PREFIXES + others) + self.random.choice((" ", ";", " ; ", "\n", "")) + text

    def with_label(self, text):
        return f"{self.random.choice(LABELS)}{self.random.choice(('', ' '))}{text}"

    def with_goal(self, text):
        return self.replaced(r"\b1f\b", text, OTHER_GOALS)

    def with_capital(self, text):
        at = self.random.randrange(len(text))
        return text[:at] + text[at:].replace(text[at], text[at].upper(), 1)

    def with_byte(self, text):
        at = self.random.randrange(len(text))
        return text[:at] + self.random.choice(BYTES) + text[at + self.random.choice((0, 1)) :]
