"""asmck itself: the proved program where it stands, else a build of the same sources without a proof."""
import subprocess

from support.trial import ROOT, tried

CRATE = ROOT / "crates/asmck"
PROGRAM = CRATE / "out/asmck"


def is_proved():
    """Whether the proved program is no older than any source file."""
    if not PROGRAM.exists():
        return False
    built = PROGRAM.stat().st_mtime
    sources = [ROOT / "crates.txt", *ROOT.glob("crates/*/src/**/*")]
    return all(source.stat().st_mtime <= built for source in sources)


def answers(folder, *words):
    """The lines that `asmck check WORDS NAME` prints of each file in the folder, and its status, by the file's name."""
    if not is_proved():
        found = tried(CRATE, folder, "check", *words, "{}")
        return {name: ([named(line, name) for line in lines], status) for name, (lines, status) in found.items()}
    return {file.name: answer(file, *words) for file in sorted(folder.iterdir())}


def answer(file, *words):
    done = subprocess.run([PROGRAM, "check", *words, file.name], cwd=file.parent, text=True, capture_output=True)
    return done.stdout.splitlines(), done.returncode


def named(line, name):
    """The line with the file's own name: under `rt try` each file is called `case`."""
    return name + line.removeprefix("case") if line.startswith("case:") else line
