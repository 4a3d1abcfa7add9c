"""What a SARIF log has to have, by the JSON schema of SARIF 2.1.0 (OASIS), as far as this project writes it."""

# By the name of an object's kind: its required fields, with the kind of those that are objects or lists of them.
REQUIRED = {
    "log": {"version": None, "runs": "run"},
    "run": {"tool": "tool"},
    "tool": {"driver": "component"},
    "component": {"name": None},
    "rule": {"id": None},
    "invocation": {"executionSuccessful": None},
    "notification": {"message": "message"},
    "result": {"message": "message"},
    "message": {"text": None},
    "fix": {"artifactChanges": "change"},
    "change": {"artifactLocation": "artifact", "replacements": "replacement"},
    "replacement": {"deletedRegion": "region"},
    "region": {"startLine": None},
    "artifact": {"uri": None},
}
OPTIONAL = {
    "run": {"results": "result", "invocations": "invocation"},
    "component": {"rules": "rule"},
    "rule": {"shortDescription": "message", "fullDescription": "message", "help": "message"},
    "invocation": {"toolExecutionNotifications": "notification"},
    "result": {"locations": "location", "relatedLocations": "location", "fixes": "fix"},
    "location": {"physicalLocation": "physical", "message": "message"},
    "physical": {"artifactLocation": "artifact", "region": "region"},
    "fix": {"description": "message"},
}


def lacking(value, kind="log"):
    """A line for each required field that the value, of this kind, lacks."""
    if kind is None:
        return
    for it in value if isinstance(value, list) else [value]:
        required = REQUIRED.get(kind, {})
        yield from (f"{kind} lacks {name}" for name in required if name not in it)
        for name, inner in {**required, **OPTIONAL.get(kind, {})}.items():
            if name in it:
                yield from lacking(it[name], inner)
