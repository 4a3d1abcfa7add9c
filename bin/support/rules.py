"""The catalogue of rules, as docs/RULES.md has it."""
import re
from dataclasses import dataclass
from functools import lru_cache

from support.program import RULES

HEADING = re.compile(r"^### ([A-Z]\d): (.*)$", re.M)
PARAGRAPH = re.compile(r"\n\n(?=\S)(.*?)\n\n", re.S)
TO_MEND = re.compile(r"^\*\*To mend it\.\*\* (.*?)(?:\n\n|\Z)", re.S | re.M)


@dataclass(frozen=True)
class Rule:
    """A rule: its name, its title, what it means and how to mend what breaks it."""

    name: str
    title: str
    meaning: str
    mend: str

    @property
    def link(self):
        """Where it stands, by the anchor that Markdown readers make of its heading."""
        anchor = re.sub(r"[^\w -]", "", f"{self.name}: {self.title}".lower()).replace(" ", "-")
        return f"{RULES.as_uri()}#{anchor}"


@lru_cache(maxsize=None)
def rules():
    """The rules by their names; none where the catalogue isn't there."""
    try:
        text = RULES.read_text(encoding="utf-8")
    except OSError:
        return {}
    heads = list(HEADING.finditer(text))
    ends = [head.start() for head in heads[1:]] + [len(text)]
    return {head[1]: rule(head, text[head.end() : end]) for head, end in zip(heads, ends)}


def rule(head, section):
    meaning, mend = PARAGRAPH.search(section), TO_MEND.search(section)
    return Rule(head[1], head[2], one_line(meaning), one_line(mend))


def one_line(found):
    return " ".join(found[1].split()) if found else ""
