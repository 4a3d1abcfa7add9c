#!/usr/bin/env python3
"""Stands in for asmck where it is run on texts whose answers are known: by other programs, in a check.

    stand_in.py check FILE        prints the answer to the file's text that the folder $ASMCK_ANSWERS has, and ends with
                                  its status; a text that isn't known is put there, and has the answer nothing, 0
    stand_in.py patch IN OUT      mends a register of W1 by a clobber and a byte name of U2 by `q`, and nothing else;
                                  usage where $ASMCK_ANSWERS has a file `no-patch`
"""
import hashlib
import json
import os
import pathlib
import re
import sys

FOLDER = pathlib.Path(os.environ["ASMCK_ANSWERS"])
ANSWERS = "answers.json"
# How the lines of an answer call the file.
CASE = "case"
USAGE = 2
BROKEN = re.compile(r"(.*:(\d+):(\d+): )broken (\w+) at \S+: (\S+) .*")


def answer(text):
    """The lines of the answer and its status."""
    file = FOLDER / ANSWERS
    known = json.loads(file.read_text()) if file.exists() else {}
    if text not in known:
        (FOLDER / f"{hashlib.sha256(text.encode()).hexdigest()}.i").write_text(text)
    return known.get(text, ([], 0))


def mended(statement, rule, cell):
    """The text that begins with a statement, with a finding of it mended, and the item."""
    if rule == "U2":
        return statement.replace('"=r"', '"=q"', 1), f"byte {cell}"
    end = statement.index(");")
    clobber = f', "{cell}"' if statement[:end].endswith('"cc"') else f' : : "{cell}"'
    return statement[:end] + clobber + statement[end:], f"clobber {cell}"


def patch(text, answers):
    """The lines of the report on the patched text, and that text."""
    report = []
    for found in filter(None, map(BROKEN.fullmatch, reversed(answers))):
        lines = text.split("\n")
        begin = sum(len(line) + 1 for line in lines[: int(found[2]) - 1]) + int(found[3]) - 1
        if found[4] in ("W1", "U2"):
            fresh, item = mended(text[begin:], found[4], found[5])
            text = text[:begin] + fresh
            report.insert(0, f"{found[1]}patched {item}")
    return report, text


def main():
    mode, file, *out = sys.argv[1:]
    if mode == "patch" and (FOLDER / "no-patch").exists():
        return USAGE
    text = pathlib.Path(file).read_text()
    lines, status = answer(text)
    if mode == "patch":
        lines, fresh = patch(text, lines)
        pathlib.Path(out[0]).write_text(fresh)
    print("".join(f"{file}{line.removeprefix(CASE)}\n" for line in lines), end="")
    return status


if __name__ == "__main__":
    sys.exit(main())
