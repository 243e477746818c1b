"""Wrong certificates: those of `check` and `solve` with fields that are others, judged by a second audit.

What an accepted one says is compared with values in fractions: its bounds lie around the values, and its choices and
replies bring about what it says.
"""

from copy import copy

from answers import checked
from audits import audited, reaudit
from core import ENDLESS, Found, drawn_formula, drawn_game, run, words_of, written
from rounds import decimal
from texts import Refusal
from toolbox.exact import determinacy
from whole import UNIT

COUNT, CHANGES = 60, 6
SHIFTS = (1, 1, -1, -1, 2, -2, 7, -1_000, 10**9, -(10**9), 10**14, -(10**14), -UNIT)
CHOICES = (*("-", "0", "1") * 5, "2", "16383", "16384")
RANKS = (*("0", "1", "2") * 5, "5", "4294967295", "4294967296")


def trial(draw, room):
    """One game with one question: a right certificate, and some changes of it."""
    model = drawn_game(draw, 3, 6)
    found, files, formula = Found(), written(room, model), drawn_formula(draw, (*ENDLESS, "G"))
    if draw.random() < 0.5:
        right = run(room, *words_of("solve", formula.formula(), "--plan"))[1]
    else:
        right = checked(files, formula.formula(), draw.choice((0, 1, 3, 20)), True)[1]
    head, *entries = right[right.index("certificate ") :].splitlines()
    asked = formula.dual() if formula.path == "G" else formula
    values = determinacy(model, asked)
    for number in range(CHANGES):
        lines = [line.split() for line in entries]
        for _ in range(min(number, draw.choice((1, 1, 2)))):
            change(draw, draw.choice(lines))
        text = "\n".join([head, *map(" ".join, lines), ""])
        if is_accepted(found, room, files, formula, text):
            told = reaudit.entries_of(str(room / "certificate"), len(model))
            found.note([formula.formula(), text], wrong_claims(model, asked, files.maximises(asked), told, values))
    return found


def change(draw, fields):
    """Changes a field of the line of a state."""
    place = draw.choice((1, 1, 2, 3, 3, 4, 4, 5))
    if place in (1, 4):
        value = int(fields[place].replace(".", "")) + draw.choice(SHIFTS)
        fields[place] = decimal(min(abs(value), UNIT + draw.choice((0, 0, 0, 1))))
    else:
        fields[place] = draw.choice(RANKS if place == 3 else CHOICES)


def is_accepted(found, room, files, formula, text):
    """Compares what an audit of a certificate writes with what the second one says."""
    (room / "certificate").write_text(text, encoding="ascii")
    words, accepted = words_of("audit", formula.formula(), "certificate"), True
    try:
        expected = audited(files, formula.formula(), room / "certificate")
    except Refusal as refusal:
        expected, accepted = (8, f"refused {refusal}\n"), False
    found.counts[expected[1].split()[4] if not accepted else "accepted"] += 1
    found.compare([*words, text], (*expected, ""), run(room, *words))
    return accepted


def wrong_claims(model, formula, maximises, told, values):
    """The states at which an accepted certificate is wrong of the value, or of what its choices or replies bring about.

    The value lies between what the choices reach against every strategy and what the replies allow to every strategy.
    """
    lower, choices, _, upper, replies = zip(*told)
    reached = determinacy(played(model, maximises, True, choices), formula)
    kept = determinacy(played(model, maximises, False, replies), formula)
    ladders = zip(lower, *([UNIT * value for value in table] for table in (reached, values, kept)), upper)
    wrong = [state for state, ladder in enumerate(ladders) if list(ladder) != sorted(ladder)]
    return [f"what is said of state {state} is wrong" for state in wrong]


def played(model, maximises, side, plan):
    """The model in which one side plays a plan, and its first choice where the plan has none."""
    alone = copy(model)
    alone.choices = [
        [choices[plan[state] if plan[state] is not None and plan[state] < len(choices) else 0]]
        if maximises[state] == side
        else choices
        for state, choices in enumerate(model.choices)
    ]
    return alone
