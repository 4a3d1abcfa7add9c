"""This processor: single instructions run on given states."""
import pathlib
import struct
import subprocess
import tempfile

from support.check import skip
from support.machine_states import FLAGS, WORDS, own_flags, packed, processor_flags
from support.trial import ROOT

HOW = ("moved", "jumped", "divided")
OPTIONS = (
    "-m32 -nostdlib -static -ffreestanding -fno-pic -no-pie -fno-stack-protector -fcf-protection=none"
    " -fno-tree-loop-distribute-patterns -O1 -Wl,--section-start=.arena=0x20000000 -Wl,--build-id=none"
)
RECORD = 4 * (WORDS + 1)


def stubs(texts):
    """The instructions, each with a jump behind it: to `went_on`, or to `went_to_goal` from the goal of a jump."""
    lines = [".section .note.GNU-stack", ".globl stubs", ".section .rodata", "stubs:"]
    lines += [f".long stub{k}" for k in range(len(texts))] + [".text"]
    for k, text in enumerate(texts):
        jumps = text.replace("nop; 1:", "jmp went_on; 1: jmp went_to_goal")
        lines.append(f"stub{k}: {jumps if jumps != text else f'{text}; jmp went_on'}")
    return "\n".join(lines) + "\n"


def built(folder, texts):
    """The program that runs these instructions."""
    source, program = folder / "stubs.s", folder / "processor"
    source.write_text(stubs(texts))
    command = ["gcc", *OPTIONS.split(), "-o", program, ROOT / "checks/programs/processor.c", source]
    done = subprocess.run(command, text=True, capture_output=True)
    if done.returncode:
        raise RuntimeError(done.stderr[-2000:])
    return program


def record(number, state):
    words = list(state)
    words[FLAGS] = processor_flags(words[FLAGS])
    return packed([number, *words])


def answer(bytes_):
    how, *words = struct.unpack(f"<{WORDS + 1}I", bytes_)
    words[FLAGS] = own_flags(words[FLAGS])
    return HOW[how], words


def outcomes(texts, runs):
    """How each run ends, and the state behind it. A run is the number of its text, and a state."""
    with tempfile.TemporaryDirectory() as name:
        program = built(pathlib.Path(name), texts)
        data = packed([len(runs)]) + b"".join(record(*run) for run in runs)
        done = subprocess.run([program], input=data, capture_output=True)
    if done.returncode or len(done.stdout) != RECORD * len(runs):
        raise RuntimeError(f"the program of the instructions ended with {done.returncode}")
    return [answer(done.stdout[at : at + RECORD]) for at in range(0, len(done.stdout), RECORD)]


def demand_processor():
    """Ends the check as skipped where no program of 32 bits can be built and run."""
    try:
        outcomes(["nop"], [(0, [0] * WORDS)])
    except (OSError, RuntimeError):
        skip("no gcc for -m32 whose programs run here")
