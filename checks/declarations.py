#!/usr/bin/env python3
"""Compares the sizes that c_decls gives the names of preprocessed system headers with this machine's compiler's.

    checks/declarations.py [--size small|full]

Each header is preprocessed by gcc -m32, together with those that it includes. A small program over c_decls, built
without a proof by `rt try`, prints the typedef names, variables, structs and unions that are seen at the end of the
file with their sizes, and the members of structs and unions with their offsets. gcc -m32 compiles `sizeof` and
offsets of the same names into assembly, which needs no 32-bit C library. Where gcc has a number and the program has
none, the name isn't covered. The small size takes the headers below, the full one each header of /usr/include that
gcc takes by itself, of its folders linux and sys too. Status 0 where no number is another than gcc's, 77 where there
is no gcc for -m32 or no headers, else 1.
"""
import pathlib
import re
import sys
import tempfile

from support.check import arguments, skip
from support.compiler import demand_gcc, gcc, preprocessed
from support.trial import program_in, told

INCLUDED = pathlib.Path("/usr/include")
HEADERS = """arpa/inet.h dirent.h elf.h fcntl.h linux/fs.h linux/if.h linux/input.h linux/kvm.h linux/perf_event.h
math.h netinet/in.h poll.h pthread.h setjmp.h signal.h stdint.h stdio.h stdlib.h string.h sys/epoll.h sys/resource.h
sys/socket.h sys/stat.h sys/time.h sys/wait.h termios.h time.h unistd.h wchar.h""".split()


def expression(kind, words):
    if kind == "constant":
        return words[0]
    tag = words[0].replace("~", " ")
    if kind == "offset":
        return f"__builtin_offsetof({tag}, {words[1]})"
    if kind == "member":
        return f"sizeof((({tag} *)0)->{words[1]})"
    return f"sizeof({tag})"


def measured(text, wanted):
    """What gcc gives for each expression, None where it refuses it."""
    left = list(enumerate(wanted))
    for attempt in range(3):
        lines = [f"const long long asmck_{k} = {what};" for k, what in left]
        done = gcc(text + '\n# 1 "sizes"\n' + "\n".join(lines) + "\n", "-S", "-o", "-")
        if done.returncode == 0:
            break
        refused = {int(n) for n in re.findall(r"^sizes:(\d+):\d+: error", done.stderr, re.M)}
        left = [pair for number, pair in enumerate(left, 1) if number not in refused]
    else:
        return None
    sizes, name, parts = {}, None, []
    for line in done.stdout.splitlines():
        label = re.match(r"asmck_(\d+):", line)
        if label:
            name, parts = int(label[1]), []
            sizes[name] = parts
        elif name is not None:
            value = re.match(r"\s*\.(long|zero)\s+(-?\d+)", line)
            if value:
                parts += [int(value[2]) % 2**32] if value[1] == "long" else [0] * (int(value[2]) // 4)
            elif line.startswith("\t.globl"):
                name = None
    answers = [None] * len(wanted)
    for k, parts in sizes.items():
        number = parts[0] + (parts[1] << 32)
        answers[k] = number - 2**64 if number >= 2**63 else number
    return answers


def compared(header, text, lines):
    """How many names were read, and how many not covered; and what was wrong."""
    names = {}
    for line in lines:
        words = line.split(" ")
        if words[0] not in ("tag", "typedef", "name", "constant", "offset", "member"):
            continue
        names[(words[0] in ("tag", "offset", "member"), *words[1:-1])] = (words[0], words[1:-1], words[-1])
    rows = [row for row in names.values() if not row[1][0].startswith("hidden~")]
    hidden = len(names) - len(rows)
    answers = measured(text, [expression(kind, words) for kind, words, _ in rows])
    if answers is None:
        return 0, 0, [f"{header}: gcc refuses the file"]
    read, missing, wrong = 0, hidden, []
    for (kind, words, given), answer in zip(rows, answers):
        if given == "-":
            missing += answer is not None
        elif answer is None:
            # gcc has no offset of a bit-field, and c_decls none either.
            wrong.append(f"{header}: {kind} {' '.join(words)} is {given}, and gcc refuses it")
        elif answer != int(given):
            wrong.append(f"{header}: {kind} {' '.join(words)} is {given} and not {answer}")
        else:
            read += 1
    return read, missing, wrong


def headers_of(size):
    if size == "small":
        return HEADERS
    folders = ("", "linux", "sys")
    found = {str(file.relative_to(INCLUDED)) for folder in folders for file in (INCLUDED / folder).glob("*.h")}
    return sorted(found.union(HEADERS))


def is_compared(text):
    """Whether gcc takes the file by itself."""
    return gcc(text, "-fsyntax-only").returncode == 0


def main():
    given = arguments(__doc__)
    demand_gcc()
    with tempfile.TemporaryDirectory() as name:
        folder = pathlib.Path(name)
        cases = folder / "cases"
        cases.mkdir()
        texts = {}
        for header in headers_of(given.size):
            text = preprocessed(f"#include <{header}>\n", folder)
            if text is not None and is_compared(text):
                texts[header.replace("/", "_")] = text
                (cases / header.replace("/", "_")).write_text(text)
        if len(texts) < 12:
            skip("gcc preprocesses too few headers for -m32")
        crates = "asm_core c_decls c_scopes c_tokens c_types ck_ports"
        found = told(program_in(folder, "declared_sizes", crates), cases)
        read = missing = 0
        wrong = [f"{header}: nothing was printed" for header in texts if header not in found]
        for header, lines in found.items():
            counts = compared(header, texts[header], lines)
            read, missing, wrong = read + counts[0], missing + counts[1], wrong + counts[2]
        for line in wrong:
            print(line)
        counts = f"{read} sizes and offsets as gcc has them, {missing} not covered, {len(wrong)} wrong"
        print(f"{len(texts)} headers: {counts}")
        return 1 if wrong else 0


sys.exit(main())
