"""What `solve` says of a question, and what is wrong with it.

The value lies between its bounds, of which the lower one is 1 exactly where the value is, and the upper one 0 exactly
where the value is; the verdict is the one that the bounds give and right of the value; and the certificate of `--plan`
is accepted by an audit, with the same line.
"""

import tempfile
import time
from dataclasses import dataclass, field
from fractions import Fraction
from pathlib import Path

from toolbox.programs import TRUTHS, asked, bracket_of, failures, verdict_of, width_of
from toolbox.rewards import INFINITE


@dataclass
class Solved:
    """The line of the answer, the time that it took, and the faults that were found."""

    line: str
    seconds: float
    faults: list = field(default_factory=list)

    def summary(self):
        """The width as a float, and the verdict where there is a threshold."""
        width = width_of(self.line)
        if width is None:
            return "none"
        verdict = verdict_of(self.line)
        return spelt(width) + (f", {verdict}" if verdict != "Bracket" else "")


def spelt(width):
    return f"{float(width):.1e}" if width else "0"


def is_taken(question):
    """Whether `solve` takes the question: it has no bound on the steps, no `X` and no formula inside."""
    return question.command == "check" and question.horizon() is None and not question.inside()


def solved(model, path, question, value):
    """What `solve` says of the first state, whose value this is."""
    begun = time.monotonic()
    run = asked("solve", path, model, question)
    seconds = time.monotonic() - begun
    lines = run.output.splitlines()
    answer = Solved(lines[0] if lines else "", seconds, failures(run))
    if not answer.faults:
        answer.faults += faults_of_report(lines, question, value) + faults_of_plan(lines, model, path, question)
    answer.faults = [f"solve: {fault}" for fault in answer.faults]
    return answer


def faults_of_report(lines, question, value):
    if len(lines) != 1 or not bracket_of(lines[0]) or lines[0].split()[6:-1] != ["solved"]:
        return ["there is no bracket of one initial state"]
    return faults_of_line(lines[0], question, value)


def faults_of_line(line, question, value):
    """What is wrong with a line, of a state with this value, that has to say whether this is 0 or 1."""
    lower, upper = bounds_of(line)
    says_ends = (lower == 1, upper == 0) == (value == 1, value == 0)
    ends = [] if says_ends else ["the bounds do not say whether the value is 0 or 1"]
    return faults_of_bounds(line, question, value) + ends


def faults_of_bounds(line, question, value):
    """What is wrong with the bounds and the verdict of a line, of a state with this value."""
    lower, upper = bounds_of(line)
    faults = [] if lower <= value <= upper else ["the bracket misses the value"]
    if verdict_of(line) != verdict_by(question, lower, upper):
        faults.append("the verdict is not that of the bounds")
    if question.limit is not None and TRUTHS.get(verdict_of(line)) == (not question.is_true_of(value)):
        faults.append("the verdict is wrong of the value")
    return faults


def bounds_of(line):
    """The bounds of a line as numbers, of which those of expected rewards may be infinite."""
    return [INFINITE if bound == "infinite" else Fraction(bound) for bound in bracket_of(line)]


def verdict_by(question, lower, upper):
    """What bounds say of a threshold: all values between them keep it, none does, or some do."""
    if question.limit is None:
        return "Bracket"
    kept = {question.is_true_of(lower), question.is_true_of(upper)}
    return str(kept.pop()) if len(kept) == 1 else "Undecided"


def faults_of_plan(lines, model, path, question, *options, texts=()):
    """What is wrong with the certificate of the same question, with these options, and what an audit says of it; the
    options that name more texts of the question are the audit's too."""
    plan = asked("solve", path, model, question, "--plan", *options, *texts)
    if failures(plan) or plan.output.splitlines()[: len(lines)] != lines:
        return ["--plan begins with another answer"]
    with tempfile.TemporaryDirectory() as room:
        certificate = Path(room) / "certificate"
        certificate.write_text(plan.output, encoding="ascii")
        audit = asked("audit", path, model, question, certificate, *texts)
    expected = [line.replace(" solved ", " audited ") for line in lines]
    if failures(audit) or audit.output.splitlines() != expected:
        return [f"the audit says {audit.output.strip()}"]
    return []
