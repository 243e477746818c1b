"""Upper tables that `--traps` lowers, with their certificates: against a search over all sets of states."""

from brackets import compared
from core import looped_formula, looped_game

COUNT = 80
ROUNDS = (0, 0, 1, 2, 5)


def trial(draw, room):
    """One game in which play can stay, with two questions, mostly before or after few rounds."""
    model = looped_game(draw, 4, 8)
    return compared(draw, room, model, [looped_formula(draw) for _ in range(2)], ROUNDS, "--traps")
