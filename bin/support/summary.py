"""What was found in all sources, each statement once."""
from collections import Counter, defaultdict
from dataclasses import dataclass


@dataclass(frozen=True)
class Summary:
    """The statements with an answer each that is told: of those that several sources include, one for each answer."""

    told: tuple
    counts: Counter
    rules: Counter
    kinds: Counter

    def __str__(self):
        words = [f"{self.counts[word]} {word}{listed(by)}" for word, by in self.parts()]
        return f"statements: {self.counts.total()}, of which {', '.join(words)}"

    def parts(self):
        return ("ok", Counter()), ("broken", self.rules), ("undecided", self.kinds)


def listed(counts):
    return f" ({', '.join(f'{name} {number}' for name, number in sorted(counts.items()))})" if counts else ""


def summary_of(statements):
    """What is found in the statements, which may have one several times. One that has several answers counts as the
    worst of them, in which it is broken, else undecided."""
    told, answers = {}, defaultdict(list)
    for it in statements:
        answer = it.verdict.findings or (it.verdict.undecided and it.verdict.undecided.kind)
        told.setdefault((it.key, answer), it)
        answers[it.key].append(it.verdict)
    counts, rules, kinds = Counter(), Counter(), Counter()
    for verdicts in answers.values():
        broken = {finding.rule for verdict in verdicts for finding in verdict.findings}
        undecided = {verdict.undecided.kind for verdict in verdicts if verdict.undecided}
        rules.update(broken)
        kinds.update(undecided if not broken else ())
        counts["broken" if broken else "undecided" if undecided else "ok"] += 1
    ordered = sorted(told.values(), key=lambda it: (str(it.place.path), it.place.line, it.count))
    return Summary(tuple(ordered), counts, rules, kinds)
