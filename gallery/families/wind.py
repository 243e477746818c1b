"""A game: a robot on a grid against the wind.

    gallery/write wind SIDE SEED NAME

Source: the grid world of `robot.py`, with the slip in the hands of an opponent; turn-based stochastic games after A.
Condon, The complexity of stochastic games, Information and Computation 96, 1992.

State: the field, and whose turn it is. The player robot steers in one of four directions and gets there with 9/10, else
it stays, as at the border. Then the player wind is still, or blows in one of four directions; a gust comes with 1/4 and
moves the robot one field. It begins in one corner, and the goal is the far one. One field in five is a pit, drawn from
the seed; next to the first field there is none.

Value: computed in fractions by strategy iteration for both players. Where the robot may wait for ever in a safe place,
upper values stay up. With a deadline it is computed backward. The goal is 2 (SIDE - 1) steps of the robot away, and as
many of the wind lie between. With a formula inside the robot keeps to where it can still reach the goal with 3/8.
"""

from fractions import Fraction

from gallery.families.robot import STEPS, drawn_pits, moved
from toolbox.model import BACKWARD, Model, ask, sure

STEP, GUST = Fraction(9, 10), Fraction(1, 4)
SIZES = {"small": [(4, 1), (5, 1)], "large": [(12, 3)]}


def model(side, seed):
    goal, pits = (side - 1, side - 1), drawn_pits(side, seed)

    def rule(state):
        field, player = state
        if field == goal or field in pits:
            return []
        if player == "robot":
            return pushed(field, STEP, "wind")
        return [[(1, (field, "robot"))]] + pushed(field, GUST, "robot")

    def pushed(field, chance, after):
        return [[(chance, (moved(field, step, side), after)), (1 - chance, (field, after))] for step in STEPS]

    labels = {"goal": lambda state: state[0] == goal, "pit": lambda state: state[0] in pits}
    return Model(((0, 0), "robot"), rule, labels, ["robot", "wind"], lambda state: state[1])


def questions(side, seed):
    for options in ((), ("--traps",)):
        yield ask("Pmax=?", "goal", coalition=("robot",), options=options)
        yield ask("P>0.4", "goal", coalition=("robot",), options=options)
    yield ask("Pmax=?", "pit", coalition=("wind",))
    yield sure("Pmax=?", "goal", coalition=("robot", "wind"))
    away = 4 * (side - 1)
    yield ask("Pmax=?", "goal", source=BACKWARD, coalition=("robot",), steps=away)
    yield ask("Pmax=?", "goal", source=BACKWARD, coalition=("robot",), steps=2 * away)
    yield ask("P>0.4", "goal", source=BACKWARD, coalition=("robot",), steps=2 * away)
    yield ask("Pmax=?", "!pit", coalition=("robot",), path="G")
    way = ask("P>=3/8", "goal", coalition=("robot",))
    yield ask("Pmax=?", "goal", coalition=("robot",), safe=way)
    yield ask("Pmax=?", way, coalition=("robot",), path="G")


def rewards(*_):
    return {"moves": lambda state, after: state[1] == "robot"}
