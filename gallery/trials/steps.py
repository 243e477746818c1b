"""`F<=k`, `U<=k` and `X`, by `check` and by `solve`: the steps rounded down and up, each bound within k units."""

from fractions import Fraction

from answers import checked
from core import STEPPED, Found, drawn_formula, drawn_game, faults_of_report, run, words_of, written
from toolbox.exact import determinacy
from toolbox.programs import UNIT, bracket_of

COUNT = 150
WORKERS = (1, 2, 3, 4, 5, 64)


def trial(draw, room):
    """One game with one question, asked with two numbers of workers and of the solver."""
    model = drawn_game(draw)
    found, files, formula = Found(), written(room, model), drawn_formula(draw, STEPPED)
    status, output = checked(files, formula.formula())
    values = determinacy(model, formula)
    found.note([formula.formula()], faults_of_report(output, formula, values) + far_ones(output, formula, values))
    asks = [words_of("check", formula.formula(), "--workers", workers) for workers in draw.sample(WORKERS, 2)]
    for words in [*asks, words_of("solve", formula.formula())]:
        found.compare(words, (status, output, ""), run(room, *words))
    return found


def far_ones(output, formula, values):
    """The lines with a bound that is more units from the value than there are steps."""
    faults, most = [], formula.horizon() * UNIT
    for line, value in zip(output.splitlines(), values):
        far = any(abs(Fraction(bound) - value) > most for bound in bracket_of(line))
        faults += [f"{line} is far from {value}"] * far
    return faults
