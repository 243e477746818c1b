"""A robot on a grid whose wheels slip.

    gallery/write robot SIDE SEED NAME

Source: the grid world of S. Russell and P. Norvig, Artificial intelligence: a modern approach, 1995, chapter 17, with
drawn pits.

State: the field. The robot steers in one of four directions; it gets there with 0.8, and slips to either side of its
way with 0.1 each; at the border it stays where it is. It begins in one corner, and the goal is the far one. One field
in five is a pit, drawn from the seed, which it never leaves; next to the first field there is none.

Value: computed in fractions by strategy iteration, and backward where there is a deadline. The goal is 2 (SIDE - 1)
steps away. With a formula inside the robot keeps to fields from which it can still reach the goal with 3/4, or on a
large grid with 3/8.
"""

import random
from fractions import Fraction

from toolbox.explicit import ONLY_PLAYER
from toolbox.model import BACKWARD, Model, ask, sure

STEPS = [(0, 1), (1, 0), (0, -1), (-1, 0)]
AHEAD, ASIDE = Fraction(8, 10), Fraction(1, 10)
PIT_EVERY = 5
FEW = 7
SIZES = {"small": [(4, 1), (6, 2), (7, 4)], "large": [(16, 3)]}


def model(side, seed):
    goal, pits = (side - 1, side - 1), drawn_pits(side, seed)

    def rule(field):
        if field == goal or field in pits:
            return []
        return [slipping(field, turn) for turn in range(4)]

    def slipping(field, turn):
        ways = ((AHEAD, turn), (ASIDE, turn - 1), (ASIDE, (turn + 1) % 4))
        return [(part, moved(field, STEPS[way], side)) for part, way in ways]

    return Model((0, 0), rule, {"goal": lambda field: field == goal, "pit": lambda field: field in pits})


def moved(field, step, side):
    row, column = field[0] + step[0], field[1] + step[1]
    return (row, column) if 0 <= row < side and 0 <= column < side else field


def neighbours(field, rows, columns):
    fields = [(field[0] + row, field[1] + column) for row, column in STEPS]
    return [(row, column) for row, column in fields if 0 <= row < rows and 0 <= column < columns]


def drawn_pits(side, seed):
    draw = random.Random(seed)
    fields = [(row, column) for row in range(side) for column in range(side)]
    far = [field for field in fields[:-1] if sum(field) > 1]
    return set(draw.sample(far, side * side // PIT_EVERY))


def questions(side, seed):
    yield ask("Pmax=?", "goal")
    yield ask("Pmax=?", "goal", options=("--traps",))
    yield ask("P<=0.9", "goal")
    yield ask("Pmin=?", "pit")
    yield sure("Pmax=?", "goal")
    away = 2 * (side - 1)
    yield ask("Pmax=?", "goal", source=BACKWARD, steps=away)
    yield ask("Pmax=?", "goal", source=BACKWARD, steps=2 * away)
    yield ask("P<=0.7", "goal", source=BACKWARD, steps=2 * away)
    yield ask("Pmax=?", "!pit", path="G")
    way = ask("P>=3/4" if side <= FEW else "P>=3/8", "goal", coalition=(ONLY_PLAYER,))
    yield ask("Pmax=?", "goal", safe=way)
    yield ask("Pmax=?", way, path="G")


def rewards(*_):
    return {"moves": lambda field, after: True}
