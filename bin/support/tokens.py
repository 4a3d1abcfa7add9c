"""C's tokens, as far as an asm statement is compared and cut by them.

Texts are read as Latin-1, so that a character is a byte and any file has a text.
"""
import re
from dataclasses import dataclass

ENCODING = "latin-1"
BETWEEN = re.compile(r"(?:[ \t\v\f\r\n]|\\\r?\n|/\*.*?\*/|//(?:\\\r?\n|[^\n])*)+", re.S)
TOKEN = re.compile(
    r"""(?:u8|[uUL])?"(?:\\.|[^"\\\n])*"|[uUL]?'(?:\\.|[^'\\\n])*'"""
    r"""|[A-Za-z_$\x80-\xff][\w$\x80-\xff]*|\.?\d(?:[eEpP][+-]|[\w.])*|->|\+\+|--|<<=?|>>=?|[<>=!]=|&&|\|\||\S""",
    re.S | re.A,
)
KEYWORDS = ("asm", "__asm", "__asm__")


def text_of(path):
    """The file's text."""
    return path.read_bytes().decode(ENCODING)


@dataclass(frozen=True)
class Token:
    text: str
    begin: int
    end: int


def tokens(text, begin):
    """The tokens of the text from the offset on."""
    while begin < len(text):
        between = BETWEEN.match(text, begin)
        begin = between.end() if between else begin
        found = TOKEN.match(text, begin)
        if not found:
            return
        yield Token(found[0], found.start(), found.end())
        begin = found.end()


def statement(text, begin):
    """The tokens of the asm statement whose keyword is at the offset, to the parenthesis that closes it."""
    found, depth = [], 0
    for token in tokens(text, begin):
        found.append(token)
        depth += (token.text == "(") - (token.text == ")")
        if depth == 0 and token.text == ")":
            break
    return found
