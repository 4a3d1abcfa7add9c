"""What asmck prints of a file, read: one line for each statement that is ok or undecided, one for each finding."""
import re
from dataclasses import dataclass

LINE = re.compile(
    r".*?:(?P<line>\d+):(?P<column>\d+): (?:"
    r"(?P<ok>ok)"
    r"|broken (?P<rule>[A-Z]\d) at (?P<at>\S+): (?P<cell>\S+) (?P<other>\S+): (?P<why>.*)"
    r"|undecided (?P<kind>.*) at (?P<mark_line>\d+):(?P<mark_column>\d+)"
    r"|bad text: (?P<fault>.*) at \d+"
    r"|patched (?P<items>.*)"
    r"|no (?:patch|room): (?P<none>.*))"
)


@dataclass(frozen=True)
class Finding:
    """A broken rule: the instruction (`end`, or `-` for none), what it is about (`-` for nothing) and why."""

    rule: str
    at: str
    cell: str
    other: str
    why: str

    def __str__(self):
        cells = " ".join(cell for cell in (self.cell, self.other) if cell != "-")
        place = "" if self.at == "-" else f" at {self.at}"
        return f"{self.rule}{place}: {cells + ': ' if cells else ''}{self.why}"


@dataclass(frozen=True)
class Undecided:
    """What lies outside asmck's tables, and its line and column in the preprocessed file."""

    kind: str
    line: int
    column: int


@dataclass(frozen=True)
class Verdict:
    """What is said of the statement whose keyword is at the line and column, both from 1."""

    line: int
    column: int
    findings: tuple[Finding, ...] = ()
    undecided: Undecided | None = None


@dataclass(frozen=True)
class BadText:
    """Why the file is no text of C tokens, and the fault's line and column."""

    what: str
    line: int
    column: int


def verdicts(lines):
    """The verdicts of a report of `asmck check`, in its order."""
    found = {}
    for it in filter(None, map(LINE.fullmatch, lines)):
        place = int(it["line"]), int(it["column"])
        if it["rule"]:
            finding = Finding(it["rule"], it["at"], it["cell"], it["other"], it["why"])
            findings = found[place].findings if place in found else ()
            found[place] = Verdict(*place, (*findings, finding))
        elif it["kind"]:
            mark = Undecided(it["kind"], int(it["mark_line"]), int(it["mark_column"]))
            found[place] = Verdict(*place, undecided=mark)
        elif it["ok"]:
            found[place] = Verdict(*place)
    return list(found.values())


def bad_text(lines):
    """The fault of the report's last line; None where there is none."""
    it = LINE.fullmatch(lines[-1]) if lines else None
    return BadText(it["fault"], int(it["line"]), int(it["column"])) if it and it["fault"] else None


def patched(lines):
    """The items of the statements that `asmck patch` mends, by the line and column of their keywords."""
    found = filter(None, map(LINE.fullmatch, lines))
    return {(int(it["line"]), int(it["column"])): it["items"] for it in found if it["items"]}
