"""One question of one model: its independent value, the program's answer, and what is wrong with it."""

import time
from dataclasses import dataclass, field
from fractions import Fraction
from typing import Optional

from gallery.families import agrees
from gallery.solved import Solved, faults_of_bounds
from gallery.table import shown
from toolbox.exact import Problem, determinacy
from toolbox.model import Question
from toolbox.programs import UNIT, asked, bracket_of, failures, verdict_of


@dataclass
class Answer:
    """The first line of the report, the value that it has to agree with, and the faults that were found.

    With formulas inside `inside` is the line before the report, which counts them and what is undecided of them. What
    `solve` says of the same question is `solved`, where it takes it and was asked.
    """

    name: str
    states: int
    question: Question
    value: Fraction
    inside: str
    line: str
    seconds: float
    faults: list = field(default_factory=list)
    solved: Optional[Solved] = None

    def stored(self):
        """What is stored of the answer."""
        return f"{self.inside}, {self.line}" if self.inside else self.line

    def bracket(self):
        """The lower and the upper bound as they are printed, or nothing where the line has none."""
        return bracket_of(self.line)

    def verdict(self):
        return verdict_of(self.line)

    def summary(self):
        """The verdict, and with formulas inside how many pairs of one and a state are undecided."""
        return f"{self.verdict()}, {' '.join(self.inside.split()[2:])}" if self.inside else self.verdict()


def answers(name, model, path, questions):
    """The program's answer to each question about a model whose files have this path."""
    computed = {}
    for question in questions:
        values = independent_values(model, question, computed)
        begun = time.monotonic()
        run = asked(question.command, path, model, question, *options_of(question))
        seconds = time.monotonic() - begun
        inside, lines = parted(question, run.output.splitlines())
        answer = Answer(name, len(model), question, Fraction(values[0]), inside, lines[0], seconds)
        if failures(run):
            answer.faults += failures(run)
        elif question.command == "sure":
            judge_sure(answer, lines, values)
        else:
            judge_inside(answer)
            judge_bracket(answer, lines)
        judge_published(answer)
        yield answer


def parted(question, lines):
    """The line before the report, which comes with formulas inside alone, and the report."""
    inside = lines[0] if question.inside() and lines else ""
    return inside, lines[1 if inside else 0 :] or [""]


def options_of(question):
    """The options of a command; one worker, so that the number of rounds is the same everywhere."""
    return [*question.options, "--workers", "1"] if question.command == "check" else []


def independent_values(model, question, computed):
    """The value of each state, or of the first one alone where it is given; what was computed before is kept."""
    if question.command == "check" and question.value is not None:
        return [question.value]
    if question.command == "sure" and question.value == 1:
        return [1] * len(model)
    if question.path == "G":
        return [1 - value for value in independent_values(model, question.dual(), computed)]
    key = (question.path, question.steps, question.left, question.right, tuple(Problem(model, question).maximises))
    if key not in computed:
        computed[key] = determinacy(model, question)
    return computed[key]


def judge_sure(answer, lines, values):
    sure = [str(state) for state, value in enumerate(values) if value == 1]
    if lines != [f"sure {len(sure)} of {len(values)}"] + sure:
        answer.faults.append(f"the value is 1 at {len(sure)} states, and others are listed")


def judge_published(answer):
    published = answer.question.published
    if published and not agrees(answer.value, published):
        answer.faults.append(f"the value {shown(answer.value)} is not the published one, {published}")


def judge_inside(answer):
    """The line before the report counts the formulas inside, and leaves each undecided at no more than all states."""
    count, words = len(answer.question.inside()), answer.inside.split()
    is_counted = len(words) == 4 and words[:3] == ["inner", str(count), "undecided"] and words[3].isdigit()
    if count and not (is_counted and int(words[3]) <= count * answer.states):
        answer.faults.append(f"the line before the report does not speak of {count} formulas inside")


def judge_bracket(answer, lines):
    if len(lines) != 1 or not answer.bracket():
        answer.faults.append("there is no bracket of one initial state")
        return
    lower, upper = map(Fraction, answer.bracket())
    answer.faults += faults_of_bounds(lines[0], answer.question, answer.value)
    judge_steps(answer, max(answer.value - lower, upper - answer.value))


def judge_steps(answer, distance):
    """With a bound on the steps the line names it, and each bound is within so many units of the value.

    That is not so where something inside is undecided.
    """
    steps = answer.question.horizon()
    if steps is None:
        return
    if answer.line.split()[6:8] != ["steps", str(steps)]:
        answer.faults.append(f"the line does not say that {steps} steps were made")
    if distance > steps * UNIT and answer.inside.split()[2:] in ([], ["undecided", "0"]):
        answer.faults.append(f"a bound is more than {steps} units from the value {shown(answer.value)}")
