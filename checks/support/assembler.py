"""This machine's assembler for 32 bits, and what the disassembler makes of its bytes."""
import pathlib
import re
import subprocess
import tempfile
from concurrent.futures import ThreadPoolExecutor

from support.check import skip

# How many texts one run of the assembler takes.
GROUP = 4000
# Stands behind each text, so that no two labels have the same address.
END = "ud2"


def run(command):
    return subprocess.run(command, text=True, capture_output=True, errors="replace")


def listed(texts, numbers):
    """One text of those, each behind a label of its own, and the number of the text at each line, from 1."""
    lines, owners = [], [None]
    for number in numbers:
        part = [f"text{number}:", *texts[number].split("\n"), END]
        lines += part
        owners += [number] * len(part)
    return "\n".join(lines) + "\n", owners


def disassembled(output):
    """The instructions behind each label `textN`, by its number. A jump's goal is told from that label on."""
    done = run(["objdump", "-d", "-M", "suffix", "--no-show-raw-insn", "-z", str(output)])
    found, begin, rows = {}, 0, []
    for line in done.stdout.splitlines():
        if head := re.match(r"([0-9a-f]+) <(\w+)>:", line):
            begin, rows = int(head[1], 16), []
            found[head[2]] = rows
        elif row := re.match(r" +[0-9a-f]+:\t(.*)", line):
            rows.append(re.sub(r"\b([0-9a-f]+) <.*>$", lambda it: f"{int(it[1], 16) - begin:+d}", row[1].strip()))
    texts = {int(name[4:]): rows for name, rows in found.items() if re.fullmatch(r"text\d+", name)}
    return {number: rows[:-1] if rows[-1:] == [END] else rows for number, rows in texts.items()}


def group_assembled(texts, numbers):
    """The instructions of each of these texts, by its number; not of those that the assembler refuses."""
    left = list(numbers)
    with tempfile.TemporaryDirectory() as name:
        source, output = pathlib.Path(name) / "lines.s", pathlib.Path(name) / "lines.o"
        while left:
            text, owners = listed(texts, left)
            source.write_text(text, "latin-1")
            done = run(["as", "--32", "-o", str(output), str(source)])
            if done.returncode == 0:
                rows = disassembled(output)
                # Where a text defines a name, its instructions stand behind that.
                return {number: rows.get(number, []) for number in left}
            lines = map(int, re.findall(r"\.s:(\d+): Error", done.stderr))
            refused = {owners[line] for line in lines if line < len(owners)}
            if not refused:
                half = len(left) // 2
                return group_assembled(texts, left[:half]) | group_assembled(texts, left[half:]) if half else {}
            left = [number for number in left if number not in refused]
    return {}


def assembled(texts, apart):
    """The disassembled instructions of each text, None where the assembler refuses it.

    Those of which `apart` holds are assembled alone, so that the labels of no other are seen in them.
    """
    apart = list(apart)
    alone = [number for number, text in enumerate(texts) if apart[number]]
    together = [number for number in range(len(texts)) if not apart[number]]
    groups = [[number] for number in alone] + [together[at : at + GROUP] for at in range(0, len(together), GROUP)]
    with ThreadPoolExecutor(2) as pool:
        parts = pool.map(lambda group: group_assembled(texts, group), groups)
        found = {number: rows for part in parts for number, rows in part.items()}
    return [found.get(number) for number in range(len(texts))]


def demand_assembler():
    """Ends the check as skipped where there is no assembler for 32 bits, or no disassembler."""
    try:
        works = assembled(["nop"], [False]) == [["nop"]]
    except FileNotFoundError:
        works = False
    if not works:
        skip("no `as --32` with `objdump`")
