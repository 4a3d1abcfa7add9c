#!/usr/bin/env python3
"""Compares what asmck prints of each file in examples/ and its folders, and its status, with the .expected beside it.

The last line of NAME.expected is `status N`; the lines before are what `asmck check` prints of NAME.c. What it prints
with the word `--strict-cc` stands in NAME.strict.expected, where there is such a file. Each example of a rule has to
stand in docs/RULES.md as it is here, with the lines that are printed of it. The check takes the proved program where
that is built, else the build of `rt try` without a proof, in a minute. Both sizes are the same. Status 0 where all
agree, else 1.
"""
import pathlib
import shutil
import sys
import tempfile

from support.asmck import answers
from support.check import arguments
from support.trial import ROOT

EXAMPLES = ROOT / "examples"
RULES = ROOT / "docs/RULES.md"
STRICT = "--strict-cc"


def flat(example):
    """The example's name in the folder in which all are copied, as `rules-W1.c`."""
    return "-".join(example.relative_to(EXAMPLES).parts)


def expected(example, ending):
    """The lines and the status that the file beside the example has."""
    *lines, last = example.with_suffix(ending).read_text().splitlines()
    own = str(example.relative_to(ROOT))
    return [line.replace(own, flat(example), 1) for line in lines], int(last.removeprefix("status "))


def wrong(examples, found, ending):
    """How many examples have another answer than the expected one; each is printed."""
    others = [example for example in examples if found.get(flat(example)) != expected(example, ending)]
    for example in others:
        print(f"{flat(example)}: {found.get(flat(example))} and not {expected(example, ending)}")
    return len(others)


def answers_of(examples, *words):
    with tempfile.TemporaryDirectory() as name:
        for example in examples:
            shutil.copy(example, pathlib.Path(name) / flat(example))
        return answers(pathlib.Path(name), *words)


def not_shown(example):
    """What docs/RULES.md lacks of the example of a rule: its broken statements, or what is printed of them."""
    text = RULES.read_text()
    endings = [it for it in (".strict.expected", ".expected") if example.with_suffix(it).exists()]
    lines = [line for line in example.with_suffix(endings[0]).read_text().splitlines() if ": broken " in line]
    functions = example.read_text().strip().split("\n\n")
    broken = [it for it in functions if "_mended(" not in it]
    return [it for it in [*broken, *lines] if it not in text] or ([] if lines else ["a broken rule"])


def main():
    arguments(__doc__)
    examples = sorted(EXAMPLES.rglob("*.c"))
    others = wrong(examples, answers_of(examples), ".expected")
    print(f"{len(examples) - others} examples as expected, {others} not")
    strict = [example for example in examples if example.with_suffix(".strict.expected").exists()]
    others += wrong(strict, answers_of(strict, STRICT), ".strict.expected")
    print(f"{len(strict)} compared with {STRICT}")
    rules = sorted(EXAMPLES.glob("rules/*.c"))
    lacking = {example.name: missing for example in rules if (missing := not_shown(example))}
    for name, missing in lacking.items():
        print(f"docs/RULES.md lacks of {name}:", *missing, sep="\n")
    return 1 if others or lacking or not rules or not strict else 0


if __name__ == "__main__":
    sys.exit(main())
