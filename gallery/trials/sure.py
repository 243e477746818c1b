"""`sure`: the states whose value in fractions is 1; the status says whether all initial ones are among them."""

from answers import initial_of
from core import Found, drawn_formula, drawn_game, run, words_of, written
from texts import Refusal, read_formula
from toolbox.exact import determinacy

COUNT = 200
PATHS = (*("F", "U") * 6, "G", "X", "F<=")


def trial(draw, room):
    """One game with two questions."""
    found, files = Found(), written(room, drawn_game(draw, 3, 7, draw.random() < 0.3))
    for _ in range(2):
        words = words_of("sure", drawn_formula(draw, PATHS).formula())
        try:
            status, output = listed(files, words[3])
        except Refusal as refusal:
            status, output = 4, f"refused {refusal}\n"
        found.compare(words, (status, output, ""), run(room, *words))
        found.counts[" ".join(output.split()[:1])] += 1
        found.counts["states listed"] += output.count("\n") - 1
    return found


def listed(files, text):
    """The status of `sure` and what it writes, or the refusal of the formula or the question."""
    formula = read_formula(text)
    initial = initial_of(files, formula)
    if formula.inside() or formula.horizon() is not None or formula.path == "G":
        raise Refusal("question", 0, "WrongKind")
    values = determinacy(files.plain(), formula)
    sure = [state for state, value in enumerate(values) if value == 1]
    lines = [f"sure {len(sure)} of {len(files.game)}", *sure]
    return 0 if set(initial) <= set(sure) else 1, "".join(f"{line}\n" for line in lines)
