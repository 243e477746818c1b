"""What `solve` says of the expected rewards that the field knows, and what is wrong with it.

The value lies between the bounds, and the lower one is infinite exactly where the value is; the verdict is the one that
the bounds give and right of the value; the bounds are at most two units apart for each turn that is expected, and two
more; and the certificate is accepted by an audit, with the same line.
"""

import textwrap
import time
from dataclasses import dataclass, field
from fractions import Fraction

from gallery.families import agrees
from gallery.rewards import DENSE, FIRST, ROWS, known_of, name_of, paying, question_of
from gallery.solved import bounds_of, faults_of_bounds, faults_of_plan
from gallery.table import COLUMNS, joined, marks_of, row, shown, solved_key_of
from toolbox.programs import asked, bracket_of, failures, verdict_of
from toolbox.rewards import INFINITE, text_of

HEAD = "| Model | Question | Value | Bracket | Verdict |\n|---|---|---|---|---|\n"


@dataclass
class Collected:
    """A row of the table, its value, the line of the answer, its time, and the faults that were found."""

    row: tuple
    value: Fraction
    line: str
    seconds: float
    faults: list = field(default_factory=list)

    def key(self):
        return key_of_row(self.row)

    def shown(self):
        """The value; what the source has of it where it was not worked out in fractions."""
        return self.row.value if self.row in DENSE else shown(self.value)

    def printed(self):
        """A line of the table, and one for each fault."""
        cells = f"{name_of(self.row):<23} {question_of(self.row).formula():<57} {self.shown():<22}"
        ends = f" {' '.join(bracket_of(self.line)):<35} {verdict_of(self.line):<14} {self.seconds:6.2f} s"
        return "\n".join([cells + ends] + [f"    {fault}" for fault in self.faults])


def key_of_row(one):
    return solved_key_of(name_of(one), question_of(one))


def collected(size, folder):
    """The program's answer to each row of a size; the files are written to this folder."""
    for one in ROWS[size]:
        model, problem, rewards = paying(one)
        known, path = known_of(one, problem, rewards), folder / name_of(one)
        model.labels["init"] = [known.state]
        model.write(path)
        file = folder / f"{name_of(one)}.{one.structure}.rew"
        file.write_text(text_of(rewards), encoding="ascii")
        yield judged(one, known, model, path, ("--rewards", file))


def judged(one, known, model, path, texts):
    """The answer to a row."""
    question, begun = question_of(one), time.monotonic()
    run = asked("solve", path, model, question, *texts)
    seconds = time.monotonic() - begun
    lines = run.output.splitlines()
    answer = Collected(one, known.value, lines[0] if lines else "", seconds, failures(run))
    if not known.is_right:
        answer.faults.append(f"the value {shown(known.value)} is not that of the source, {one.value}")
    if not answer.faults:
        answer.faults += faults_of_report(lines, one, known)
        answer.faults += faults_of_plan(lines, model, path, question, texts=texts)
    return answer


def faults_of_report(lines, one, known):
    """What is wrong with the report; of a model that is too large for fractions the bounds agree with the digits of the
    source."""
    if len(lines) != 1 or not bracket_of(lines[0]) or lines[0].split()[6:-1] != ["solved"]:
        return ["there is no bracket of one initial state"]
    if one in DENSE:
        is_near = all(agrees(bound, one.value) for bound in bounds_of(lines[0]))
        return [] if is_near else ["a bound is not what the source has"]
    return faults_of_bounds(lines[0], question_of(one), known.value) + faults_of_width(lines[0], known)


def faults_of_width(line, known):
    """What is wrong with how far the bounds lie apart, in units, and with which of them are infinite."""
    lower, upper = bounds_of(line)
    if INFINITE in (lower, upper, known.value):
        return [] if lower == upper == known.value else ["a bound is infinite, or not so where the value is"]
    units = (upper - lower) * 10 ** len(bracket_of(line)[1].partition(".")[2])
    most = 2 * known.turns + 2
    return [f"the bounds are {units} units apart, and {float(most)} are allowed"] if units > most else []


def table_of(answers):
    """The table of the answers of a size for the page, behind words on where the values come from."""
    marks = marks_of(dict.fromkeys(answer.row.source for answer in answers))
    values = "; ".join(f"{mark} {words}" for words, mark in marks.items())
    about = textwrap.fill(f"Values: {values}.", COLUMNS, break_long_words=False, break_on_hyphens=False)
    return f"\n{about}\n\n{HEAD}" + "".join(markdown(answer, marks[answer.row.source]) for answer in answers)


def markdown(answer, mark):
    """The row of an answer; where it would be too long a row of the question stands above it."""
    of_state = "" if answer.row.state == FIRST else f", of {answer.row.state}"
    asked_of = name_of(answer.row), f"`{question_of(answer.row).formula()}`{of_state}"
    cells = f"{answer.shown()} {mark}", joined(bracket_of(answer.line)), verdict_of(answer.line)
    whole = row(*asked_of, *cells)
    return whole if len(whole) <= COLUMNS + 1 else row(*asked_of, "", "", "") + row("", "", *cells)
