"""What a change writes that stands elsewhere too, by the tool `duplicates`."""
import shutil
import subprocess

from support.change import git
from support.trial import ROOT

ENDINGS = (".rt", ".antt")


def told(change, folder):
    """The tool's rows, each a place to look and no verdict; None where there is no such tool.

    It reads files by their endings and knows neither of this project's, so it gets a copy with others: the base as a
    commit, and the working tree over it.
    """
    if not shutil.which("duplicates"):
        return None
    packed = subprocess.run(["git", "archive", change.base, "crates"], cwd=ROOT, capture_output=True, check=True)
    subprocess.run(["tar", "-x", "-C", folder], input=packed.stdout, check=True)
    rename(folder)
    quiet = {"cwd": folder, "check": True, "capture_output": True}
    subprocess.run(["git", "init", "--quiet", "."], **quiet)
    subprocess.run(["git", "add", "--all"], **quiet)
    author = ["-c", "user.name=base", "-c", "user.email=base"]
    subprocess.run(["git", *author, "commit", "--quiet", "--allow-empty", "--message", "base"], **quiet)
    shutil.rmtree(folder / "crates")
    for name in git("ls-files", "--cached", "--others", "--exclude-standard", "crates").splitlines():
        if (ROOT / name).is_file():
            (folder / name).parent.mkdir(parents=True, exist_ok=True)
            shutil.copy(ROOT / name, folder / name)
    rename(folder)
    command = ["duplicates", "--change", "--min-lines", "8", "--most", "8", "--seconds", "20"]
    rows = subprocess.run(command, cwd=folder, text=True, capture_output=True).stdout.splitlines()
    return [original(row) for row in rows if row.startswith("D") and "boilerplate" not in row]


def rename(folder):
    for ending in ENDINGS:
        for file in list(folder.rglob(f"*{ending}")):
            file.rename(file.with_name(f"{file.stem}_{ending[1:]}.rs"))


def original(row):
    """The row with the files' own names."""
    for ending in ENDINGS:
        row = row.replace(f"_{ending[1:]}.rs", ending)
    return row
