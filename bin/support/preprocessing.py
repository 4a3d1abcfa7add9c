"""The compiler, run to preprocess a source and to tell what it defines."""
import os
import subprocess
from functools import lru_cache

from support.command import PREPROCESSED
from support.status import READ_FAULT, Fault

# Environment variables by which a preprocessor would write dependencies (GCC manual, "Environment Variables").
DEPENDENCIES = ("DEPENDENCIES_OUTPUT", "SUNPRO_DEPENDENCIES")
# What compilers for i386 define.
I386 = b"#define __i386__ 1"


def run(words, folder):
    """A call of the compiler that ended."""
    environment = {name: value for name, value in os.environ.items() if name not in DEPENDENCIES}
    return subprocess.run(words, cwd=folder, env=environment, stdin=subprocess.DEVNULL, capture_output=True)


def preprocessed(call, source, folder):
    """The bytes of the source of the call, which runs in the folder, as they are behind the preprocessor."""
    if source.language == PREPROCESSED:
        with open(os.path.join(folder, source.path), "rb") as file:
            return file.read()
    done = run(call.preprocessing(source), folder)
    if done.returncode:
        said = os.fsdecode(done.stderr).splitlines()
        error = next((line for line in said if "error:" in line), f"status {done.returncode}")
        raise Fault(f"cannot be preprocessed: {error}", READ_FAULT)
    return done.stdout


def is_for_i386(call, folder):
    """Whether the call compiles for i386, by the macro that compilers for it define."""
    return I386 in macros(call.target(), os.fspath(folder))


@lru_cache(maxsize=None)
def macros(target, folder):
    """The lines with the macros that a compiler defines."""
    return frozenset(run([*target, "-E", "-dM", "-x", "c", os.devnull], folder).stdout.splitlines())
