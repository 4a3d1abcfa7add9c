"""asmck itself, run on one preprocessed file."""
import os
import pathlib
import subprocess
from dataclasses import dataclass

from support.status import MEMORY, Fault

BIN = pathlib.Path(__file__).resolve().parent.parent
BUILT = BIN.parent / "crates/asmck/out/asmck"
RULES = BIN.parent / "docs/RULES.md"
# The name by which asmck knows the file: its own lines then begin with it, whatever the source is called.
NAME = "unit.i"
PATCHED = "patched.i"
SECONDS = 120


class NoProgram(Exception):
    """There is no asmck to run."""


@dataclass(frozen=True)
class Answer:
    lines: tuple[str, ...]
    status: int


@dataclass(frozen=True)
class Asmck:
    """The program and its word `--strict-cc`, where it is asked for."""

    program: pathlib.Path
    words: tuple[str, ...] = ()

    def check(self, folder):
        """What is said of the file NAME in the folder."""
        return self.answer(folder, "check", *self.words, NAME)

    def patch(self, folder):
        """The same of mending it into the file PATCHED."""
        return self.answer(folder, "patch", *self.words, NAME, PATCHED)

    def answer(self, folder, *words):
        try:
            done = subprocess.run(
                [self.program, *words], cwd=folder, stdin=subprocess.DEVNULL, capture_output=True, timeout=SECONDS
            )
        except subprocess.TimeoutExpired:
            raise Fault(f"asmck takes more than {SECONDS} s", MEMORY) from None
        lines = done.stdout.decode("latin-1").splitlines()
        # A program that a signal ends has a negative status here: that is no answer of asmck's.
        return Answer(tuple(lines), done.returncode if done.returncode in range(9) else MEMORY)


def asmck(given, strict):
    """The program that is given, else that of the environment's ASMCK, else the one that bin/asmck has built. It isn't
    built here, since that takes up to an hour."""
    program = pathlib.Path(given or os.environ.get("ASMCK") or BUILT).absolute()
    if not os.access(program, os.X_OK):
        raise NoProgram(f"there is no {program}: `{BIN / 'asmck'} check FILE` builds it, `--asmck` names another")
    return Asmck(program, ("--strict-cc",) if strict else ())
