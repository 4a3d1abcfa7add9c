"""Programs over this repository's crates, proved and built in a copy, outside the gate."""
import os
import re
import shutil
import subprocess
import sys

ROOT = os.path.dirname(os.path.dirname(os.path.dirname(os.path.abspath(__file__))))


def lines_below(crates):
    """The lines of crates.txt of these crates and of those below them."""
    with open(os.path.join(ROOT, "crates.txt")) as listed:
        lines = {found[1]: line for line in listed if (found := re.match(r"(\w+)[^:]*:", line))}
    wanted, open_names = {}, [name for name in crates if name in lines]
    while open_names:
        name = open_names.pop()
        if name not in wanted:
            wanted[name] = lines[name]
            open_names += [word for word in lines[name].split(":")[1].split() if word in lines]
    return wanted


def crate_in(folder, name, crates, sources):
    """A program over these crates, in copies of them: `sources` has the texts of its files by their names.

    What the crates' own folders keep of earlier checks is taken along.
    """
    below = lines_below(crates)
    for crate in below:
        shutil.copytree(os.path.join(ROOT, "crates", crate), os.path.join(folder, "crates", crate))
    own = os.path.join(folder, "crates", name)
    os.makedirs(os.path.join(own, "src"))
    for source, text in sources.items():
        with open(os.path.join(own, "src", source), "w") as out:
            out.write(text)
    shutil.copy(os.path.join(ROOT, "HANDLES"), folder)
    with open(os.path.join(folder, "crates.txt"), "w") as out:
        out.write("".join(below.values()) + f"{name}: {' '.join(crates)}\n")
    return own


def built(crate):
    """Proves and builds the crate's program, runs it once without arguments, and returns its path."""
    done = subprocess.run(["rt", "run", "--jobs", "2"], cwd=crate, text=True, capture_output=True)
    if done.returncode:
        sys.exit(done.stderr[-4000:])
    return os.path.join(crate, "out", os.path.basename(crate))
