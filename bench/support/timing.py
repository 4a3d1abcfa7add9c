"""What commands take, and the program that is measured."""
import os
import pathlib
import subprocess
import sys

TOP = pathlib.Path(__file__).resolve().parent.parent.parent
MIB = 1024 * 1024
RUNS = 3


class Run:
    """What a command took: processor seconds, the peak of memory in bytes, and its status."""

    def __init__(self, command):
        child = subprocess.Popen(command, stdout=subprocess.DEVNULL, stderr=subprocess.DEVNULL)
        _, status, usage = os.wait4(child.pid, 0)
        child.returncode = self.status = os.waitstatus_to_exitcode(status)
        self.seconds = usage.ru_utime + usage.ru_stime
        self.peak = usage.ru_maxrss * 1024


def quickest(command, runs=RUNS):
    return min((Run(command) for _ in range(runs)), key=lambda run: run.seconds)


def measured_program():
    """The proved program, which bin/asmck builds at its first call, or the one that BENCH_ASMCK names."""
    program = os.environ.get("BENCH_ASMCK", TOP / "crates/asmck/out/asmck")
    if not os.access(program, os.X_OK):
        sys.exit(f"{program}: no program there; `bin/asmck check examples/move.c` builds it")
    return program
