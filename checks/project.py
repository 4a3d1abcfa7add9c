#!/usr/bin/env python3
"""Builds the small project of checks/project with bin/asmck-cc and judges it with bin/asmck-run, by this machine's gcc.

The project has two sources that share a header, a file that is generated, one that isn't C and one with an error. What
both programs have to print of it stands in checks/project/expected; beside it are compared their statuses, what the
build makes (also dependencies), the SARIF log's required fields and its places, and runs with one and several sources
at a time. Verdicts are asmck's own, of the proved program or the build of `rt try`; how asmck mends a statement is
stood in for (support/stand_in.py). Both sizes are the same. Status 0 where all agree, 77 where there is no gcc that
compiles for -m32, else 1.
"""
import json
import os
import pathlib
import shutil
import subprocess
import sys
import tempfile

from support.asmck import answers
from support.check import arguments
from support.compiler import demand_gcc
from support.sarif_fields import lacking
from support.trial import ROOT

PROJECT = ROOT / "checks/project"
EXPECTED = PROJECT / "expected"
STAND_IN = ROOT / "checks/support/stand_in.py"
SOURCES = ("first source.c", "second.c", "table.c", "start.S", "wrong.c")
# The options of every call, in a response file: a blank in a word, a quoted word and an escape.
RESPONSE = "-m32 '-DNAME=a b'\n\"-DLENGTH=3\" -DBLANK=a\\ b -MD"


class Build:
    """A copy of the project, in a folder with a blank in its name, and what it is built with."""

    def __init__(self, scratch):
        self.answers = scratch / "answers"
        self.answers.mkdir()
        self.folder = scratch / "the project"
        shutil.copytree(PROJECT, self.folder, ignore=shutil.ignore_patterns("expected"))
        table = (self.folder / "table.in").read_text().partition("\n")[2]
        (self.folder / "table.c").write_text('#line 2 "table.in"\n' + table)
        (self.folder / "options.txt").write_text(RESPONSE)
        rows = [{"directory": str(self.folder), "file": name} | self.words(name) for name in SOURCES]
        (self.folder / "compile_commands.json").write_text(json.dumps(rows))

    def words(self, name):
        """The call for a source, in either form that a database may have."""
        words = ["gcc", "@options.txt", "-c", name, "-o", f"{name}.o"]
        return {"command": f"gcc @options.txt -c '{name}' -o '{name}.o'"} if " " in name else {"arguments": words}

    def run(self, program, *words, asmck=STAND_IN):
        environment = os.environ | {"ASMCK": str(asmck), "ASMCK_ANSWERS": str(self.answers)}
        command = [ROOT / "bin" / program, *words]
        return subprocess.run(command, cwd=self.folder, env=environment, text=True, capture_output=True)

    def compiled(self, name, *options, asmck=STAND_IN):
        """What asmck-cc tells of a call, and its status; the compiler's own lines are left out."""
        done = self.run("asmck-cc", "--undecided", "gcc", *options, "-c", name, "-o", f"{name}.o", asmck=asmck)
        lines = [it for it in done.stderr.splitlines() if "asmck" in it or ": note: " in it]
        return [*lines, f"status {done.returncode}"]

    def build(self):
        return {name: self.compiled(name, "@options.txt") for name in SOURCES}

    def judged(self, *words):
        done = self.run("asmck-run", *words)
        return [*done.stderr.splitlines(), *done.stdout.splitlines(), f"status {done.returncode}"]

    def learn(self):
        """Has asmck answer each text that was asked."""
        texts = self.answers / "texts"
        texts.mkdir()
        for file in self.answers.glob("*.i"):
            file.rename(texts / file.name)
        found = answers(texts)
        known = {(texts / name).read_text(): named_case(name, *answer) for name, answer in found.items()}
        (self.answers / "answers.json").write_text(json.dumps(known))


def named_case(name, lines, status):
    """The answer with the name by which support/stand_in.py knows the file."""
    return [line.replace(name, "case", 1) for line in lines], status


def told(name, found):
    """1 where what was found isn't what the file of expected lines has, which is shown; else 0."""
    expected = (EXPECTED / f"{name}.txt").read_text().splitlines()
    if found == expected:
        return 0
    print(f"{name}:", *found, "  and not", *expected, sep="\n    ")
    return 1


def wrong(what, is_wrong, *shown):
    """1 where it is wrong, which is told with what is shown of it; else 0."""
    if is_wrong:
        print(f"wrong: {what}", *shown, sep="\n    ")
    return int(bool(is_wrong))


def build_compared(build):
    """How many of the build's answers are others than expected."""
    found = [line for name, lines in build.build().items() for line in (f"== {name}", *lines)]
    others = told("build", found)
    made = {file.name: file.read_bytes() for file in build.folder.glob("*.[do]")}
    for name in SOURCES:
        subprocess.run(["gcc", "@options.txt", "-c", name, "-o", f"{name}.o"], cwd=build.folder, capture_output=True)
    plain = {file.name: file.read_bytes() for file in build.folder.glob("*.[do]")}
    others += wrong("what the build makes", made != plain, *made)
    foreign = ["asmck-cc: table.c: not for i386, not checked", "status 0"]
    others += wrong("a source for x86-64", build.compiled("table.c", "-m64") != foreign)
    absent = build.compiled("table.c", "@options.txt", asmck="/absent/asmck")
    others += wrong("no asmck", len(absent) != 2 or "there is no /absent/asmck" not in absent[0], *absent)
    others += wrong("no compiler", build.run("asmck-cc", "/absent/gcc", "-c", "table.c").returncode != 127)
    others += wrong("dependencies by -Wp", written_by(build, "asmck-cc") != written_by(build, None))
    asked = build.run("asmck-cc", "gcc", "-dumpversion")
    return others + wrong("no source", (asked.returncode, asked.stderr) != (0, ""))


def written_by(build, wrapper):
    """What a call, through the wrapper where one is given, writes as dependencies where the preprocessor is told to."""
    file = build.folder / "dependencies"
    words = ["gcc", "@options.txt", "-Wp,-MMD,dependencies", "-S", "second.c", "-o", "second.s"]
    if wrapper:
        build.run(wrapper, *words)
    else:
        subprocess.run(words, cwd=build.folder, capture_output=True)
    text = file.read_text()
    file.unlink()
    return text


def run_compared(build):
    """How many of the run's answers are others than expected."""
    all_sources = build.judged("-j", "1", "--undecided")
    others = told("run", all_sources)
    others += wrong("several sources at once", build.judged("-j", "3", "--undecided") != all_sources)
    others += told("named", build.judged("second.c"))
    others += told("patch", build.judged("--patch"))
    (build.answers / "no-patch").touch()
    lines = build.judged("--patch", "second.c")
    others += wrong("no patch", "this asmck has no `patch`" not in lines, *lines)
    (build.answers / "no-patch").unlink()
    others += wrong("a source of no database", build.judged("other.c")[-1] != "status 4")
    return others + wrong("no database", build.judged("-p", "/absent")[-1] != "status 4")


def sarif_compared(build):
    build.judged("--undecided", "--sarif", "log.json")
    log = json.loads((build.folder / "log.json").read_text())
    lines = list(lacking(log))
    others = wrong("fields of the SARIF log", lines, *lines)
    return others + told("sarif", [sarif_line(it) for it in log["runs"][0]["results"]])


def sarif_line(result):
    """A result in a line: its rule and kind, its place, and what its fix replaces there."""
    where = result["locations"][0]["physicalLocation"]
    changes = [change for fix in result.get("fixes", []) for change in fix["artifactChanges"]]
    edits = [edit for change in changes for edit in change["replacements"]]
    replaced = [f"{at(it['deletedRegion'])} {it['insertedContent']['text']}" for it in edits]
    place = [where["artifactLocation"]["uri"], at(where["region"])]
    return " ".join([result["ruleId"], result["kind"], *place, *replaced])


def at(region):
    names = ("startLine", "startColumn", "endLine", "endColumn")
    return "-".join(str(region[name]) for name in names if name in region)


def main():
    arguments(__doc__)
    demand_gcc()
    with tempfile.TemporaryDirectory() as scratch:
        build = Build(pathlib.Path(scratch))
        # Whatever is asked is learned first.
        build.build()
        build.judged()
        build.learn()
        others = build_compared(build) + run_compared(build) + sarif_compared(build)
    print("the project as expected" if others == 0 else f"{others} answers are others than expected")
    return 1 if others else 0


if __name__ == "__main__":
    sys.exit(main())
