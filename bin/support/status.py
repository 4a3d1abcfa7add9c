"""asmck's statuses (README, "Use"), and why a source can't be judged."""

DONE, BROKEN, USAGE, UNDECIDED, READ_FAULT, WRITE_FAULT, BAD_TEXT, TOO_LARGE, MEMORY = range(9)
FAULTS = {
    USAGE: "asmck doesn't know these words",
    READ_FAULT: "asmck can't read it",
    WRITE_FAULT: "asmck can't write its answer",
    BAD_TEXT: "no text of C tokens",
    TOO_LARGE: "too large",
    MEMORY: "memory ran out",
}


class Fault(Exception):
    """Why a source can't be judged, with the status of asmck that tells the like."""

    def __init__(self, why, status):
        super().__init__(why)
        self.status = status
