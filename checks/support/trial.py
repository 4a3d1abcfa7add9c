"""Programs over this repository's crates, built without a proof by `rt try`."""
import pathlib
import re
import shutil
import subprocess

ROOT = pathlib.Path(__file__).resolve().parent.parent.parent
# What a program may take before it is ended: unproved, it is some hundred times slower.
SECONDS = "900"


def crate_in(folder, name, crates, files):
    """A crate over these crates, in a repository of copies of this one's, with the sources `files` by their names."""
    copies = folder / "repository/crates"
    shutil.copytree(ROOT / "crates", copies, ignore=shutil.ignore_patterns("out"))
    (copies.parent / "crates.txt").write_text((ROOT / "crates.txt").read_text() + f"{name}: {crates}\n")
    for source, file in files.items():
        (copies / name / "src" / source).parent.mkdir(parents=True, exist_ok=True)
        shutil.copy(file, copies / name / "src" / source)
    return copies / name


def program_in(folder, name, crates, *modules):
    """The crate of checks/programs/NAME.rattle, with the modules that it shares with other programs."""
    files = {f"{module}.rt": ROOT / f"checks/programs/{module}.rattle" for module in modules}
    return crate_in(folder, name, crates, {"main.rt": ROOT / f"checks/programs/{name}.rattle"} | files)


def tried(crate, cases, *words):
    """What the crate's program prints of each file in the folder `cases`, and its status, by the file's name.

    A word `{}` stands for the file, which the program knows by the name `case`.
    """
    command = ["rt", "try", "--seconds", SECONDS, "--cases", str(cases), "--", *words]
    done = subprocess.run(command, cwd=crate, text=True, capture_output=True)
    found, lines = {}, None
    for line in done.stdout.splitlines():
        if line.startswith("== "):
            lines = found.setdefault(line.removeprefix("== "), [])
        elif lines is not None and line:
            lines.append(line)
    statuses = dict(re.findall(r"^case=(.+) run=ended status=(\d+)", done.stderr, re.M))
    if not statuses:
        print(done.stdout[-2000:], done.stderr[-2000:])
    return {name: (found.get(name, []), int(status)) for name, status in statuses.items()}


def told(crate, cases):
    """What the program prints of each file in the folder, by its name."""
    return {name: lines for name, (lines, _) in tried(crate, cases, "{}").items()}
