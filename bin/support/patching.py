"""What `asmck patch` changes in a preprocessed text, as changes of the sources."""
import difflib
import os
import re
from collections import defaultdict
from dataclasses import dataclass

from support import program, report
from support.status import FAULTS, USAGE
from support.tokens import ENCODING, statement, text_of
from support.unit import source_text

LINE = re.compile(r"[^\n]*\n|[^\n]+")


@dataclass(frozen=True)
class Change:
    """The tokens from `first` to before `last` of a statement are replaced by the text; where there are none, it is
    inserted behind the token before."""

    first: int
    last: int
    text: str


@dataclass(frozen=True)
class Mend:
    """The items that mend a statement, as asmck lists them, and the changes of its tokens."""

    items: str
    changes: tuple[Change, ...]


@dataclass(frozen=True)
class Edit:
    """The characters of a source from `begin` to before `end` are replaced by the text."""

    begin: int
    end: int
    text: str


class NoPatch(Exception):
    """Why a source isn't patched; `is_unknown` tells that this asmck has no `patch` at all."""

    def __init__(self, status):
        super().__init__(FAULTS[status])
        self.is_unknown = status == USAGE


def mended(asmck, unit, scratch, verdicts):
    """How asmck mends the statements, by their places in the unit, which stands in the folder `scratch`."""
    if not any(it.findings for it in verdicts):
        return {}
    answer = asmck.patch(scratch)
    if answer.status in FAULTS:
        raise NoPatch(answer.status)
    return mends(unit, verdicts, report.patched(answer.lines), text_of(scratch / program.PATCHED))


def mends(unit, verdicts, items, new):
    """How the patched text `new` mends the statements, by their places in the unit's text. A patch keeps the bytes
    outside the statements that it mends, so that one is moved by as much as those before it grew."""
    grown, found = 0, {}
    for verdict in verdicts:
        place = verdict.line, verdict.column
        if place in items:
            old = unit.statement(*place)
            fresh = statement(new, old[0].begin + grown)
            found[place] = Mend(items[place], tuple(changes(old, fresh, new)))
            grown = fresh[-1].end - old[-1].end
    return found


def changes(old, new, text):
    """What makes the old statement's tokens the new one's, of which the text is given."""
    matcher = difflib.SequenceMatcher(None, [it.text for it in old], [it.text for it in new], autojunk=False)
    for kind, first, last, begin, end in matcher.get_opcodes():
        if kind == "insert":
            yield Change(first, last, text[new[begin - 1].end : new[end - 1].end])
        elif kind != "equal":
            yield Change(first, last, text[new[begin].begin : new[end - 1].end])


def edits(statement):
    """The edits of the source that mend the statement, which has to stand there as it is."""
    tokens = statement.written.tokens
    for change in statement.mend.changes:
        if change.first == change.last:
            yield Edit(tokens[change.first - 1].end, tokens[change.first - 1].end, change.text)
        else:
            yield Edit(tokens[change.first].begin, tokens[change.last - 1].end, change.text)


@dataclass
class Patches:
    """The edits of each source by its path, and the statements whose patch can't be brought there, each with why."""

    edits: dict
    unmapped: list


def gathered(statements):
    """The patches of the statements, each taken once. Where two sources that include a header want different edits of
    one statement, neither is taken."""
    wanted, unmapped = defaultdict(set), {}
    for it in statements:
        if not it.mend:
            continue
        if it.written.tokens:
            wanted[it.key].add((it.place.path, tuple(edits(it))))
        else:
            why = "a macro makes the statement" if it.written.by_macro else "it isn't written there as it is compiled"
            unmapped[it.key] = (it, f"{it.mend.items}: {why}")
        if len(wanted[it.key]) > 1:
            unmapped[it.key] = (it, "sources that include it want different patches")
    found = defaultdict(set)
    for key, variants in wanted.items():
        if len(variants) == 1 and key not in unmapped:
            path, listed = next(iter(variants))
            found[path].update(listed)
    in_order = {path: sorted(it, key=lambda edit: edit.begin) for path, it in found.items()}
    return Patches(in_order, list(unmapped.values()))


def patched(text, listed):
    """The text after the edits, which are in order and apart."""
    parts, at = [], 0
    for edit in listed:
        parts += [text[at : edit.begin], edit.text]
        at = edit.end
    return "".join(parts) + text[at:]


def unified_diff(path, name, listed):
    """A unified diff of the source, as bytes."""
    old = source_text(path)
    # A name with a blank ends at a tab (POSIX, "diff").
    names = [f"{side}/{name}" + ("\t" if " " in name else "") for side in "ab"]
    _, _, *hunks = difflib.unified_diff(LINE.findall(old), LINE.findall(patched(old, listed)))
    heads = os.fsencode(f"--- {names[0]}\n+++ {names[1]}\n")
    return heads + b"".join(map(diff_line, hunks))


def diff_line(line):
    return line.encode(ENCODING) + (b"" if line.endswith("\n") else b"\n\\ No newline at end of file\n")
