"""What `audit` has to write of a certificate, by the second audit of `tools/reaudit` over a question posed here."""

import re
from types import SimpleNamespace

from answers import decimal, held, initial_of, mirrored, question_of, status_of, verdict_of
from texts import Refusal, read_formula
from toolbox.testing import load

reaudit = load("reaudit")


def audited(files, text, certificate):
    """The status and the lines of an audit, or the refusal of the formula, the question or the certificate."""
    formula = read_formula(text)
    initial = initial_of(files, formula)
    if formula.inside() or formula.horizon() is not None:
        raise Refusal("question", 0, "WrongKind")
    asked = posed(files, formula.dual() if formula.path == "G" else formula)
    try:
        entries = reaudit.entries_of(str(certificate), len(files.game))
        reaudit.judge(asked, entries)
    except reaudit.Ended as ended:
        raise refusal_of(ended) from ended
    tables = [[entry[place] for entry in entries] for place in (0, 3)]
    lower, upper = map(mirrored, reversed(tables)) if formula.path == "G" else tables
    verdicts = [verdict_of(formula, lower[state], upper[state]) for state in initial]
    lines = [
        f"state {state} lower {decimal(lower[state])} upper {decimal(upper[state])} audited {verdict}\n"
        for state, verdict in zip(initial, verdicts)
    ]
    return status_of(verdicts), "".join(lines)


def refusal_of(ended):
    """The refusal of a certificate, which the second audit ends with in the words of the first one."""
    status, text = ended.args
    assert status == 8, text
    line, cause = re.fullmatch("refused cert line ([0-9]+) (.*)", text).groups()
    return Refusal("cert", int(line), cause)


def posed(files, formula):
    """The question of a formula as the second audit has it."""
    (left, _), (right, _) = (held(files, side, 0)[0] for side in (formula.left, formula.right))
    asked = question_of(files, formula, left, right)
    marks = ([state in states for state in asked.states()] for states in (asked.goals, asked.dead))
    goal, dead = marks
    game = [[edges for edges, _ in choices] for choices in files.game]
    return SimpleNamespace(game=game, maximises=asked.maximises, goal=goal, dead=dead)
