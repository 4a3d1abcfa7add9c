"""A source of a compiler's call, judged: preprocessed, checked, and each verdict brought back to the sources."""
import os
import pathlib
import re
import tempfile
from collections import Counter
from dataclasses import dataclass
from functools import cached_property

from support import program, report
from support.preprocessing import is_for_i386, preprocessed
from support.status import BROKEN, DONE, FAULTS, MEMORY, READ_FAULT, Fault
from support.tokens import ENCODING
from support.unit import Place, Unit
from support.written import written

# A keyword of asm where a statement may begin, an `if` and the like aside; `asm("name")` behind a declarator is none.
BEGINS = re.compile(r"(?:[;{}:]|\b(?:else|do))(?:\s|^#[^\n]*\n)*(?:__)?asm(?:__)?\b", re.M | re.A)
# What is shown of an undecided place: the line, instruction or literal there, cut.
MARKED = re.compile(r'(?:(?!\\[nt])[^\n";]){0,40}')


@dataclass(frozen=True)
class Statement:
    """An asm statement with its verdict and where it stands in the sources.

    `words` are its tokens, `count` tells it from those before it of the same words and line. `mark` is what stands at
    the place at which it is undecided, and `mend` how `asmck patch` mends it (patching.Mend), where that was asked.
    """

    verdict: report.Verdict
    place: Place
    words: tuple[str, ...]
    count: int
    mark: str = ""
    mend: object = None

    @property
    def key(self):
        """What it shares with itself where another source includes it."""
        return self.place.path, self.place.line, self.words, self.count

    @cached_property
    def written(self):
        """How it is written in its source."""
        return written(self.place, self.words, self.count)


@dataclass(frozen=True)
class Judged:
    """What came of a source: its statements, or why there are none. One that isn't for i386 isn't judged."""

    path: pathlib.Path
    statements: tuple[Statement, ...] = ()
    fault: str = ""
    status: int = DONE
    is_foreign: bool = False


def judged(call, source, folder, judge):
    """The source of the call, which runs in the folder, judged as by `judged_text`; a fault is told."""
    try:
        return judged_text(call, source, folder, preprocessed(call, source, folder), judge)
    except Fault as fault:
        return Judged(start_of(source, folder).path, fault=str(fault), status=fault.status)
    except OSError as fault:
        return Judged(start_of(source, folder).path, fault=str(fault), status=READ_FAULT)


def judged_text(call, source, folder, text, judge):
    """The preprocessed text of a source. `judge` is given its unit and a folder where that stands as the file NAME, and
    gives its statements; it is called only for what is compiled for i386 and may have some."""
    unit = Unit(text.decode(ENCODING), start_of(source, folder))
    path = unit.start.place.path
    if b"asm" not in text:
        return Judged(path)
    if not is_for_i386(call, folder):
        return Judged(path, is_foreign=BEGINS.search(unit.text) is not None)
    with tempfile.TemporaryDirectory(prefix="asmck-") as name:
        scratch = pathlib.Path(name)
        (scratch / program.NAME).write_bytes(text)
        return Judged(path, tuple(judge(unit, scratch)))


def start_of(source, folder):
    return Place(source.path, 1, os.fspath(folder))


def checked(asmck, unit, scratch):
    """The verdicts of `asmck check` on the unit."""
    answer = asmck.check(scratch)
    if answer.status in FAULTS:
        raise Fault(told_fault(unit, answer), answer.status)
    verdicts = report.verdicts(answer.lines)
    if (answer.status == BROKEN) != any(it.findings for it in verdicts):
        raise Fault("asmck's answer can't be read", MEMORY)
    return verdicts


def told_fault(unit, answer):
    fault = report.bad_text(answer.lines)
    if not fault:
        return FAULTS[answer.status]
    place = unit.place(fault.line)
    return f"{fault.what} at {place.file}:{place.line}"


def placed(unit, verdicts, mends=None):
    """The statements of the verdicts, with the mends that are given by their places."""
    counts = Counter()
    for verdict in verdicts:
        words = tuple(token.text for token in unit.statement(verdict.line, verdict.column))
        place = unit.place(verdict.line)
        key = place.file, place.line, words
        mend = (mends or {}).get((verdict.line, verdict.column))
        yield Statement(verdict, place, words, counts[key], mark_text(unit, verdict), mend)
        counts[key] += 1


def mark_text(unit, verdict):
    """What stands at the place at which the statement is undecided, to the end of its line or instruction."""
    if not verdict.undecided:
        return ""
    begin = unit.offset(verdict.undecided.line, verdict.undecided.column)
    return os.fsdecode(MARKED.match(unit.text, begin)[0].strip().encode(ENCODING))
