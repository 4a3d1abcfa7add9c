"""This machine's gcc for -m32."""
import os
import subprocess

from support.check import skip


def gcc(source, *options):
    command = ["gcc", "-m32", "-w", "-fmax-errors=0", "-x", "c", "-", *options]
    return subprocess.run(command, input=source, text=True, capture_output=True)


def demand_gcc():
    """Ends the check as skipped where there is no gcc that compiles for -m32. No 32-bit C library is needed."""
    try:
        works = gcc("int x;\n", "-S", "-o", os.devnull).returncode == 0
    except FileNotFoundError:
        works = False
    if not works:
        skip("no gcc that compiles for -m32")


def accepts(source):
    """Whether gcc finds no error in C11 source with GNU's extensions."""
    return gcc(source, "-std=gnu11", "-fsyntax-only").returncode == 0


def preprocessed(source, folder):
    """The source with its headers, or None where gcc can't preprocess it."""
    # glibc's headers ask for this file, which only a 32-bit C library brings; it may be empty here.
    stubs = folder / "include/gnu"
    stubs.mkdir(parents=True, exist_ok=True)
    (stubs / "stubs-32.h").touch()
    done = gcc(source, "-E", "-D_GNU_SOURCE", "-I/usr/include/x86_64-linux-gnu", f"-I{folder / 'include'}")
    return done.stdout if done.returncode == 0 else None
