"""The limits of this project's code: columns, lines of a file and of a function's body, parameters."""
import re

from support.change import read

COLUMNS = 120
FILE_LINES = 400
BODY_LINES = 40
PARAMETERS = 6
CODE = (".rt", ".antt", ".rattle", ".py", ".sh", "")
FUNCTION = re.compile(r"( *)(?:pub(?:\([a-z]+\))? )?(?:(?:const|final|unsafe) )*fn \w+")


def is_code(file):
    return file.suffix in CODE and file.parts[0] in ("crates", "checks", "bench", "bin", ".ci")


def broken(change):
    """A line for each limit that is broken: by lines that are new, functions with new lines, and changed files."""
    for file, added in sorted(change.added.items()):
        if not is_code(file):
            continue
        lines = read(file)
        if added and len(lines) > FILE_LINES:
            yield f"{file}: {len(lines)} lines, more than {FILE_LINES}"
        for number in sorted(added):
            # An import is one line, as rt fmt lays it out.
            if len(lines[number - 1]) > COLUMNS and not re.match(r" *(pub |ghost )*use ", lines[number - 1]):
                yield f"{file}:{number}: {len(lines[number - 1])} columns, more than {COLUMNS}"
        if file.suffix in (".rt", ".rattle"):
            yield from broken_functions(file, lines, added)


def broken_functions(file, lines, added):
    for number, name, parameters, body in functions(lines):
        if not added.intersection(range(number, body.stop + 1)):
            continue
        if parameters > PARAMETERS:
            yield f"{file}:{number}: {name} has {parameters} parameters, more than {PARAMETERS}"
        if len(body) > BODY_LINES:
            yield f"{file}:{number}: {name} has {len(body)} lines, more than {BODY_LINES}"


def functions(lines):
    """The functions of a file in rt fmt's layout: line, name, number of parameters beside self, lines of the body."""
    for at, line in enumerate(lines):
        head = FUNCTION.match(line)
        if not head:
            continue
        indent = head[1]
        outer = (k for k in range(at, len(lines)) if re.match(indent + r"\S", lines[k]))
        opens = next((k for k in outer if lines[k].endswith(("{", "}", ";"))), at)
        closes = opens
        if lines[opens].endswith("{"):
            closes = next((k for k in range(opens, len(lines)) if lines[k] == indent + "}"), opens)
        # Numbers of lines are from 1, so the first line of the body is opens + 2.
        yield at + 1, head[0].split()[-1], parameters_in(" ".join(lines[at : opens + 1])), range(opens + 2, closes + 1)


def parameters_in(head):
    """How many parameters a function's head has beside self: the parts between its parentheses."""
    begin = re.search(r"fn \w+(<.*?>)?\(", head).end()
    depth, parts, part = 0, [], ""
    for character in head[begin:]:
        if character in "([{<":
            depth += 1
        elif character in ")]}>" and not part.endswith("-"):
            depth -= 1
        if depth < 0:
            break
        if character == "," and depth == 0:
            parts.append(part)
            part = ""
        else:
            part += character
    parts = [it.strip() for it in [*parts, part]]
    return sum(bool(it) and not re.fullmatch(r"(&('\w+ )?)?(mut )?self", it) for it in parts)
