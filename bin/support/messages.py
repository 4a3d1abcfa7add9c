"""Findings in the form of gcc's warnings, at their places in the sources."""


def warnings(statement, with_undecided, shown):
    """The lines that are told of the statement. `shown` gives the name under which the file of a place is told."""
    verdict = statement.verdict
    where = f"{shown(statement.place)}:{statement.place.line}"
    told = [f"{where}: warning: {finding} [asmck-{finding.rule}]" for finding in verdict.findings]
    if verdict.undecided and with_undecided:
        told = [f"{where}: note: undecided {verdict.undecided.kind}: {statement.mark} [asmck-undecided]"]
    if not told:
        return []
    if statement.written.by_macro:
        told.append(f"{where}: note: a macro that is used here makes the statement")
    for includer in statement.place.includers:
        told.append(f"{shown(includer)}:{includer.line}: note: included from here")
    return told
