"""A preprocessed text and the places in the sources that its lines come from."""
import os
import pathlib
import re
from bisect import bisect_right
from dataclasses import dataclass, replace
from functools import cached_property, lru_cache
from itertools import islice

from support.tokens import ENCODING, KEYWORDS, statement, text_of, tokens

# `# LINE "FILE" FLAGS`, as preprocessors write it, and `#line LINE "FILE"` (GCC manual, "Preprocessor Output").
MARKER = re.compile(r'#(?:line)? (\d+)(?: "((?:[^"\\]|\\.)*)"([ \d]*))?')
# A line with those that go on from it by a backslash.
LOGICAL_LINE = re.compile(r"(?:\\\r?\n|[^\n])*")
ESCAPE = re.compile(r"\\([0-7]{1,3}|.)", re.S)
# Flags of a marker.
ENTERS = "1"
RETURNS = "2"


@dataclass(frozen=True)
class Place:
    """A line of a source, from 1, and the lines of the files that include it, the innermost first. The file's name is
    relative to `folder`, in which the compiler ran."""

    file: str
    line: int
    folder: str
    includers: tuple["Place", ...] = ()

    @property
    def path(self):
        return pathlib.Path(os.path.normpath(os.path.join(self.folder, self.file)))


@dataclass(frozen=True)
class Marker:
    """The line of the preprocessed text, from 1, behind which the lines are those of a source from a place on."""

    behind: int
    place: Place

    def place_of(self, number):
        """The place that the line of this number of the preprocessed text has by this marker."""
        return replace(self.place, line=max(1, self.place.line + number - self.behind - 1))


class Unit:
    """The preprocessed text of a source; `start` is the source's first line."""

    def __init__(self, text, start):
        self.text = text
        self.start = Marker(0, start)

    @cached_property
    def starts(self):
        """The offset of each line."""
        return [0, *(it.end() for it in re.finditer("\n", self.text))]

    @cached_property
    def markers(self):
        return [self.start, *markers(self.text, self.start.place)]

    def offset(self, line, column):
        return self.starts[line - 1] + column - 1

    def place(self, line):
        """Where the line of the preprocessed text comes from, by the last marker before it."""
        at = bisect_right(self.markers, line - 1, key=lambda marker: marker.behind) - 1
        return self.markers[at].place_of(line)

    def statement(self, line, column):
        """The tokens of the asm statement at the place."""
        return statement(self.text, self.offset(line, column))


def markers(text, start):
    """The text's markers, each with the place of the line behind it."""
    open_files = [Marker(0, start)]
    for number, line in enumerate(text.split("\n"), 1):
        found = MARKER.match(line) if line.startswith("#") else None
        if not found:
            continue
        flags = (found[3] or "").split()
        includer = open_files[-1].place_of(number)
        if ENTERS in flags:
            includers = (includer, *includer.includers)
        else:
            if RETURNS in flags and len(open_files) > 1:
                open_files.pop()
            includers = open_files.pop().place.includers
        file = includer.file if found[2] is None else unescaped(found[2])
        open_files.append(Marker(number, Place(file, int(found[1]), start.folder, includers)))
        yield open_files[-1]


def unescaped(name):
    """The file's name, whose bytes a marker writes as in a string literal."""
    plain = ESCAPE.sub(lambda it: chr(int(it[1], 8)) if it[1][0].isdigit() else it[1], name)
    return os.fsdecode(plain.encode(ENCODING))


@lru_cache(maxsize=256)
def source_text(path):
    """The source's text; None where it can't be read."""
    try:
        return text_of(path)
    except (OSError, ValueError):
        return None


def line_offset(text, line):
    """The offset of the line of this number, from 1; the text's length where there is none."""
    breaks = re.finditer("\n", text)
    return 0 if line < 2 else next((it.end() for it in islice(breaks, line - 2, None)), len(text))


def keyword_offsets(text, line):
    """The offsets of the keywords of asm in the source's line and those that go on from it by a backslash."""
    begin = line_offset(text, line)
    end = LOGICAL_LINE.match(text, begin).end()
    return [it.begin for it in tokens(text[:end], begin) if it.text in KEYWORDS]
