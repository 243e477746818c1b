"""Brackets with their certificates: rounds of one worker against plain sweeps, guesses and ranks in whole numbers.

Every line is worked out: lower and upper bounds, choices, ranks, replies, the number of rounds, and the verdicts.
"""

from answers import checked
from core import ENDLESS, Found, drawn_formula, drawn_game, looped_formula, looped_game, run, words_of, written

COUNT = 150
ROUNDS = (0, 1, 2, 3, 4, 5, 6, 7, 9, 12, 17, 40)


def trial(draw, room):
    """One game with two questions, each after some number of rounds."""
    if draw.random() < 0.5:
        model = drawn_game(draw, 3, 7, draw.random() < 0.5)
        return compared(draw, room, model, [drawn_formula(draw, (*ENDLESS, "G")) for _ in range(2)], ROUNDS)
    return compared(draw, room, looped_game(draw), [looped_formula(draw) for _ in range(2)], ROUNDS)


def compared(draw, room, model, formulas, rounds, *options):
    """Compares what is written of each formula after some of these rounds."""
    found, files = Found(), written(room, model)
    for formula in formulas:
        text, most = formula.formula(), draw.choice(rounds)
        words = words_of("check", text, "--rounds", most, "--workers", 1, "--plan", *options)
        status, output = checked(files, text, most, True, "--traps" in options)
        found.compare(words, (status, output, ""), run(room, *words))
        found.counts[f"with status {status}"] += 1
    return found
