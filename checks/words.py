#!/usr/bin/env python3
"""Compares what c_words gives the tokens of short texts with tables that were written by hand, and its keywords with
gcc's.

A small program over c_words, built without a proof by `rt try`, prints for each token its word, its span and what
closes it. A spelling that has a word of its own has to be a keyword of gcc -m32 too, and a plain name none; the words
of other versions of C and of other targets are left out there. Both sizes are the same. Status 0 where all agree, 77
where all but gcc was asked, since there is none for -m32, else 1.
"""
import pathlib
import sys
import tempfile

from support.check import arguments
from support.compiler import accepts, demand_gcc
from support.trial import program_in, told

# Texts all of whose tokens have one word, by that word.
ALIKE = [
    ("Name", "x int3 Int __asm_ $ asm__ extern_ __attribute_ _float"),
    ("Typedef", "typedef"),
    ("Register", "register"),
    ("Extension", "__extension__"),
    ("Specifier", "extern static auto inline __inline __inline__ _Noreturn"),
    ("Qualifier", "const volatile restrict __const __const__ __volatile __volatile__ __restrict __restrict__"),
    ("Basic(Void)", "void"),
    ("Basic(Char)", "char"),
    ("Basic(Short)", "short"),
    ("Basic(Int)", "int"),
    ("Basic(Long)", "long"),
    ("Basic(Float)", "float"),
    ("Basic(Double)", "double"),
    ("Basic(Signed)", "signed __signed __signed__"),
    ("Basic(Unsigned)", "unsigned"),
    ("Basic(Bool)", "_Bool"),
    ("Tag(Struct)", "struct"),
    ("Tag(Union)", "union"),
    ("Tag(Enum)", "enum"),
    ("Typeof", "typeof __typeof__ __typeof"),
    ("Attribute", "__attribute__ __attribute"),
    ("Asm", "asm __asm__ __asm"),
    ("Sizeof", "sizeof"),
    ("StaticAssert", "_Static_assert"),
    ("For", "for"),
    ("Head", "if while switch"),
    ("Lead", "else do"),
    ("Case", "case"),
    ("Default", "default"),
    ("Jump", "goto return break continue"),
    ("Keyword", "_Alignof _Generic"),
]
# The same for words that aren't gcc's in this version of C or for this target, or that no name is.
ASMCK_ALONE = [
    ("VaList", "__builtin_va_list"),
    ("Uncovered", "_Atomic _Thread_local __thread _Alignas _Complex __complex __complex__ _Imaginary"),
    ("Uncovered", "__int128 __int128_t __uint128_t __auto_type __label__ _BitInt"),
    ("Uncovered", "typeof_unqual __typeof_unqual __typeof_unqual__"),
    ("Uncovered", "_Float16 _Float128x __float80 __float128 _Decimal32"),
    ("Number", "0 .5 1e+3 0x1p-2"),
    ("Char", r"'a' L'b' u8'\''"),
    ("Text", r'"" "u\""'),
    ("PrefixedText", 'L"" u"" U"" u8""'),
]
# Texts of tokens apart, with the word of each.
EACH = [
    ("( ) [ ] { } . ->", "OpenParen CloseParen OpenBracket CloseBracket OpenBrace CloseBrace Dot Arrow"),
    ("++ -- & * + - ~ !", "Increment Decrement Ampersand Star Plus Minus Tilde Exclamation"),
    ("/ % << >> < > <= >=", "Slash Percent ShiftLeft ShiftRight Less Greater LessEqual GreaterEqual"),
    ("== != ^ | && || ? :", "Equal NotEqual Caret Bar And Or Question Colon"),
    ("; ... = *= /= %= += -=", "Semicolon Ellipsis Assign StarAssign SlashAssign PercentAssign PlusAssign MinusAssign"),
    ("<<= >>= &= ^= |= ,", "ShiftLeftAssign ShiftRightAssign AndAssign XorAssign OrAssign Comma"),
    ("; # ##", "Semicolon Hash Hash"),
]
# What is printed behind the words, a line for each token and for two indexes past the last.
PLACED = [
    (
        'f(a[1]){g();} asm("x")y',
        """0-1/1>1 n|1-2/1>7 )6|2-3/1>3 n|3-4/1>6 )5|4-5/1>5|5-6/1>6|6-7/1>7|7-8/1>13 )12|8-9/1>9 n|9-10/1>11 )10
10-11/1>11|11-12/1>12|12-13/1>13|14-17/3>14 a17 n|17-18/1>17 )16|18-21/3>16|21-22/1>17|22-23/1>18 n|23-23/0>18
23-23/0>19""",
    ),
    ("asm asm[0]", "0-3/3>1 n|4-7/3>2 n|7-8/1>5 )4|8-9/1>4|9-10/1>5|10-10/0>5|10-10/0>6"),
    ("  ", "2-2/0>0|2-2/0>1"),
]


def disagreements(found, rows, part):
    """The rows of which the program prints another part of each line."""
    for name, (text, expected) in rows.items():
        answer = [line.split(" ", 1)[part] for line in found.get(name, [])]
        if answer != expected:
            yield f"{text}: {answer} and not {expected}"


def keywords_not_alike():
    """The spellings that are a keyword for one of asmck and gcc alone."""
    for word, text in ALIKE:
        for spelling in text.split():
            if accepts(f"enum {{ {spelling} }};\n") != (word == "Name"):
                yield f"{spelling}: {word}, and gcc has it otherwise"


def main():
    arguments(__doc__)
    alike = [(text, [word] * len(text.split(" "))) for word, text in ALIKE + ASMCK_ALONE]
    each = [(text, [f"Punct({word})" for word in words.split()]) for text, words in EACH]
    worded = {f"word{k}": (text, [*words, "Missing", "Missing"]) for k, (text, words) in enumerate(alike + each)}
    placed = {f"place{k}": (text, lines.replace("\n", "|").split("|")) for k, (text, lines) in enumerate(PLACED)}
    with tempfile.TemporaryDirectory() as name:
        folder = pathlib.Path(name)
        cases = folder / "cases"
        cases.mkdir()
        for file, (text, _) in {**worded, **placed}.items():
            (cases / file).write_text(text)
        found = told(program_in(folder, "token_words", "asm_core c_tokens c_words ck_ports"), cases)
    wrong = [*disagreements(found, worded, 0), *disagreements(found, placed, 1)]
    print("\n".join(wrong), end="\n" if wrong else "")
    print(f"{len(worded) + len(placed)} texts, {len(wrong)} not as the tables have them")
    if wrong:
        return 1
    demand_gcc()
    wrong = list(keywords_not_alike())
    print("\n".join([*wrong, f"{len(wrong)} keywords that gcc has otherwise"]))
    return 1 if wrong else 0


sys.exit(main())
