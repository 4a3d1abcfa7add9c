"""The names by which files are told."""
import os
import pathlib


def shown(path):
    """The path relative to the current folder, where it is below it; else the path."""
    name = os.path.relpath(path)
    return str(path) if pathlib.PurePath(name).parts[:1] == ("..",) else name


def uri(path):
    """The same as a reference of a URI (RFC 3986): relative, or of the scheme `file`."""
    name = pathlib.PurePath(shown(path))
    return name.as_uri() if name.is_absolute() else (pathlib.PurePath("/") / name).as_uri().removeprefix("file:///")
