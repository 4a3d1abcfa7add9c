"""What the working tree has that a base revision has not."""
import pathlib
import re
import subprocess

from support.trial import ROOT


def git(*words):
    return subprocess.run(["git", *words], cwd=ROOT, text=True, capture_output=True, check=True).stdout


def default_base():
    """Where this branch left origin's; in a clone where nothing came since, the commit before the last."""
    try:
        base = git("merge-base", "HEAD", "origin/HEAD").strip()
    except subprocess.CalledProcessError:
        base = git("rev-parse", "HEAD").strip()
    if git("status", "--porcelain") or base != git("rev-parse", "HEAD").strip():
        return base
    return git("rev-parse", "HEAD~1").strip()


class Change:
    """The files that were changed or added since the base, with the numbers of the lines that are new in each."""

    def __init__(self, base):
        self.base = base
        removed = git("diff", "--name-only", "--diff-filter=D", "--no-renames", base).splitlines()
        self.removed = [pathlib.Path(name) for name in removed]
        self.added = added_lines(git("diff", "--unified=0", "--find-renames", "--no-color", base))
        for name in git("ls-files", "--others", "--exclude-standard").splitlines():
            file = pathlib.Path(name)
            self.added[file] = set(range(1, len(read(file)) + 1))

    def crates(self):
        """The crates with a change in what a check reads, in the order of crates.txt."""
        files = (file.parts for file in [*self.added, *self.removed] if file.parts[0] == "crates")
        changed = {parts[1] for parts in files if parts[2:3] in [("src",), ("specs",), ("proofs",)]}
        return [crate for crate in libraries() if crate in changed and (ROOT / "crates" / crate).is_dir()]


def libraries():
    """Each crate of crates.txt with the libraries that its line names."""
    lines = re.findall(r"^(\w+)[^\n:]*:(.*)", (ROOT / "crates.txt").read_text(), re.M)
    return {crate: below.split() for crate, below in lines}


def stand_over(crates):
    """These crates and all above them, in the order of crates.txt."""
    below, found = libraries(), set(crates)
    while more := {crate for crate in below if found.intersection(below[crate])} - found:
        found |= more
    return [crate for crate in below if crate in found]


def added_lines(diff):
    """The numbers of the lines that a diff without context adds, by the file."""
    added, file = {}, None
    for line in diff.splitlines():
        if line.startswith("+++ "):
            file = pathlib.Path(line[6:]) if line.startswith("+++ b/") else None
            if file:
                added[file] = set()
        part = re.match(r"@@ -\S+ \+(\d+)(?:,(\d+))? @@", line)
        if part and file:
            first, count = int(part[1]), int(part[2] or 1)
            added[file] |= set(range(first, first + count))
    return added


def read(file):
    """The lines of a text file of the repository, none where it is no text."""
    try:
        return (ROOT / file).read_text().splitlines()
    except UnicodeDecodeError:
        return []
