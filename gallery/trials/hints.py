"""Values to begin with that reach the solver: below and above the values, none at all, or those of other states.

Play can stay in the games, whose components have several states. All that is said stays true, the certificate is
accepted, and no bound is much worse than that of a run without such a file.
"""

from fractions import Fraction

from core import Found, looped_formula, looped_game
from gallery.solved import faults_of_plan
from solver import judged
from toolbox.exact import determinacy
from toolbox.programs import UNIT, bracket_of

COUNT, MUCH = 60, 1_000
SHIFTS = tuple(map(Fraction, ("0", "1e-15", "1e-9", "1e-3", "0.1", "-1e-12", "-0.01", "-1")))


def trial(draw, room):
    """One game with one question, without a file and with two."""
    model, formula = looped_game(draw, 5, 8), looped_formula(draw)
    found, values = Found(), determinacy(model, formula)
    model.write(room / "m")
    plain = judged(found, room, model, formula, values)
    asked = determinacy(model, formula.dual()) if formula.path == "G" else values
    for _ in range(2):
        (room / "values").write_text(drawn_hints(draw, asked), encoding="ascii")
        options = ("--values", room / "values")
        lines = judged(found, room, model, formula, values, *options)
        found.note([formula.formula()], faults_of_plan(lines, model, room / "m", formula, *options))
        compare(found, plain, lines)
    return found


def drawn_hints(draw, values):
    """A number for each state: the value, a little or far above or below it, that of another state, or none."""
    hints, kind = [], draw.choice(("near", "above", "other", "mixed"))
    for value in values:
        if kind == "other" or (kind == "mixed" and draw.random() < 0.3):
            hint = draw.choice(values)
        elif kind == "mixed" and draw.random() < 0.3:
            hint = draw.choice(("nan", "inf", "-inf", "0", "1", "1e999", "-0"))
        else:
            hint = value + (abs(draw.choice(SHIFTS)) if kind == "above" else draw.choice(SHIFTS))
        hints.append(hint if isinstance(hint, str) else repr(float(hint)))
    return "".join(f"{hint}\n" for hint in hints)


def compare(found, plain, lines):
    """Counts the bounds that the file changed; one that it made much worse is a fault."""
    for before, after in zip(plain, lines):
        (lower, upper), (other_lower, other_upper) = (map(Fraction, bracket_of(line)) for line in (before, after))
        found.counts["lower bounds that the file changed"] += lower != other_lower
        found.counts["upper bounds that the file changed"] += upper != other_upper
        if max(lower - other_lower, other_upper - upper) > MUCH * UNIT:
            found.note([before], [f"with the file it is {after}"])
