"""Findings as a SARIF log (OASIS, Static Analysis Results Interchange Format, version 2.1.0)."""
from support.names import uri
from support.patching import edits
from support.rules import rules
from support.tokens import ENCODING
from support.unit import line_offset, source_text

SCHEMA = "https://docs.oasis-open.org/sarif/sarif/v2.1.0/errata01/os/schemas/sarif-schema-2.1.0.json"
UNDECIDED = "undecided"


def log(statements, faults, with_undecided):
    """The log of the statements, with a notification for each line of `faults`."""
    results = [it for statement in statements for it in results_of(statement, with_undecided)]
    names = sorted({it["ruleId"] for it in results} | rules().keys())
    notes = [{"level": "error", "message": {"text": fault}} for fault in faults]
    run = {
        "tool": {"driver": {"name": "asmck", "rules": [descriptor(name) for name in names]}},
        "invocations": [{"executionSuccessful": not faults, "toolExecutionNotifications": notes}],
        "columnKind": "unicodeCodePoints",
        "results": [it | {"ruleIndex": names.index(it["ruleId"])} for it in results],
    }
    return {"$schema": SCHEMA, "version": "2.1.0", "runs": [run]}


def descriptor(name):
    rule = rules().get(name)
    if not rule:
        return {"id": name, "shortDescription": {"text": "asmck can't judge the statement"}}
    return {
        "id": name,
        "shortDescription": {"text": rule.title},
        "fullDescription": {"text": rule.meaning},
        "help": {"text": rule.mend},
        "helpUri": rule.link,
        "defaultConfiguration": {"level": "warning"},
    }


def results_of(statement, with_undecided):
    mend = [fix(statement)] if statement.mend and statement.written.tokens else []
    for finding in statement.verdict.findings:
        yield result(statement, finding.rule, str(finding), "fail") | ({"fixes": mend} if mend else {})
    mark = statement.verdict.undecided
    if mark and with_undecided:
        yield result(statement, UNDECIDED, f"undecided {mark.kind}: {statement.mark}", "open")


def result(statement, name, text, kind):
    related = [location(it.path, {"startLine": it.line}) for it in statement.place.includers]
    for number, it in enumerate(related):
        it |= {"id": number, "message": {"text": "included from here"}}
    return {
        "ruleId": name,
        "kind": kind,
        # A result of another kind than `fail` has the level `none` (SARIF, 3.27.10).
        "level": "warning" if kind == "fail" else "none",
        "message": {"text": text},
        "locations": [location(statement.place.path, region(statement))],
        "relatedLocations": related,
    }


def location(path, where):
    return {"physicalLocation": {"artifactLocation": artifact(path), "region": where}}


def artifact(path):
    return {"uri": uri(path)}


def region(statement):
    tokens = statement.written.tokens
    if not tokens:
        return {"startLine": statement.place.line}
    return span(source_text(statement.place.path), tokens[0].begin, tokens[-1].end)


def span(text, begin, end):
    """The lines and columns of a part of the text, from 1; the end's column is behind it."""
    first, first_column = line_column(text, begin)
    last, last_column = line_column(text, end)
    return {"startLine": first, "startColumn": first_column, "endLine": last, "endColumn": last_column}


def line_column(text, offset):
    line = text.count("\n", 0, offset) + 1
    before = text[line_offset(text, line) : offset].encode(ENCODING)
    return line, len(before.decode("utf-8", errors="replace")) + 1


def fix(statement):
    text = source_text(statement.place.path)
    replaced = [
        {"deletedRegion": span(text, edit.begin, edit.end), "insertedContent": {"text": edit.text}}
        for edit in edits(statement)
    ]
    change = {"artifactLocation": artifact(statement.place.path), "replacements": replaced}
    return {"description": {"text": statement.mend.items}, "artifactChanges": [change]}
