"""Whether a statement stands in its source as it is in the preprocessed text."""
from dataclasses import dataclass

from support.tokens import Token, statement
from support.unit import keyword_offsets, source_text


@dataclass(frozen=True)
class Written:
    """How a statement stands in its source: `tokens` are its own there where all are the same as in the preprocessed
    text; `by_macro` tells that its keyword isn't in the line, so that a macro makes it."""

    tokens: tuple[Token, ...] = ()
    by_macro: bool = False


def written(place, words, count):
    """How the statement of these tokens is written at the place, before which `count` such stand in the line."""
    text = source_text(place.path)
    if text is None:
        return Written()
    keywords = keyword_offsets(text, place.line)
    found = (statement(text, begin) for begin in keywords)
    same = [it for it in found if tuple(token.text for token in it) == words]
    return Written(tuple(same[count]) if count < len(same) else (), by_macro=not keywords)
