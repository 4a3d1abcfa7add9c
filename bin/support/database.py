"""compile_commands.json, as the JSON Compilation Database Format Specification of Clang has it."""
import json
import os
import pathlib
import shlex
from dataclasses import dataclass

from support.command import Call, read_call

NAME = "compile_commands.json"


class BadDatabase(Exception):
    """Why the database can't be used."""


@dataclass(frozen=True)
class Entry:
    """A call of the compiler in its folder."""

    folder: pathlib.Path
    file: pathlib.Path
    call: Call


def entries(path):
    """The entries of the database at the path, or in the folder there."""
    path = path / NAME if path.is_dir() else path
    try:
        rows = json.loads(path.read_text(encoding="utf-8", errors="surrogateescape"))
        return [entry(row, path.parent) for row in rows]
    except OSError as fault:
        raise BadDatabase(f"{path}: {fault.strerror}") from None
    except (ValueError, KeyError, TypeError, AttributeError) as fault:
        raise BadDatabase(f"{path} is no compilation database: {fault!r}") from None


def entry(row, base):
    folder = base / row.get("directory", ".")
    words = row["arguments"] if "arguments" in row else shlex.split(row["command"])
    return Entry(folder, absolute(folder, row["file"]), read_call(words, folder))


def absolute(folder, file):
    return pathlib.Path(os.path.normpath(folder.absolute() / file))


def chosen(listed, names):
    """The entries of the named files, or all where none is named, and the names of which there is no entry."""
    wanted = {absolute(pathlib.Path(), name): name for name in names}
    found = [it for it in listed if not wanted or it.file in wanted]
    return found, sorted(name for path, name in wanted.items() if path not in {it.file for it in found})
