"""A game: a robot in a building on fire looks for a panicking human.

    gallery/write hallway ROWS COLUMNS NAME

Source: K. Chatterjee, J.-P. Katoen, M. Weininger and T. Winkler, Stochastic games with lexicographic
reachability-safety objectives, CAV 2020, 'Hallway', after the hallways of the planning literature. Rebuilt from its
description: a robot whose moves succeed with some probability, a human who wanders partly at random and partly as an
opponent has it, and a robot that is damaged with 0.01, whose moves succeed less often then. The grid and the other
numbers are our choice.

State: the fields of both, whether the robot is damaged, and who moves. The robot begins in one corner and the human in
the far one. The robot moves to a neighbouring field with 0.8, damaged with 0.4, or else stays; with 0.01 of a move it
is damaged, where it was not. The human moves at random with 1/2, to one of the neighbouring fields, else to the field
that the player human chooses, or stays. It is found where both are on one field.

Value: computed in fractions by strategy iteration for both players.
"""

from fractions import Fraction

from gallery.families import REBUILT, Known
from gallery.families.robot import neighbours
from toolbox.model import BACKWARD, Model, ask, sure

WHOLE_MOVES, DAMAGED_MOVES, DAMAGE = Fraction(8, 10), Fraction(4, 10), Fraction(1, 100)
WANDERS = Fraction(1, 2)
SIZES = {"small": [(1, 4), (2, 3)], "large": [(3, 4)]}
KNOWN = Known("PRISM-games' `hallway`", kind=REBUILT)


def model(rows, columns):
    def rule(state):
        robot, human, damaged, turn = state
        if robot == human:
            return []
        if turn == "robot":
            return [moved(state, step) for step in neighbours(robot, rows, columns)]
        ways = neighbours(human, rows, columns)
        random = [(WANDERS / len(ways), (robot, way, damaged, "robot")) for way in ways]
        return [random + [(1 - WANDERS, (robot, way, damaged, "robot"))] for way in [human, *ways]]

    def moved(state, step):
        robot, human, damaged, _ = state
        arrives = DAMAGED_MOVES if damaged else WHOLE_MOVES
        breaks = 0 if damaged else DAMAGE
        return [
            (1 - breaks - arrives, (robot, human, damaged, "human")),
            (arrives, (step, human, damaged, "human")),
            (breaks, (robot, human, True, "human")),
        ]

    labels = {
        "found": lambda state: state[0] == state[1],
        "found_whole": lambda state: state[0] == state[1] and not state[2],
        "damaged": lambda state: state[2],
    }
    first = ((0, 0), (rows - 1, columns - 1), False, "robot")
    return Model(first, rule, labels, ["robot", "human"], lambda state: state[3])


def questions(rows, columns):
    yield ask("Pmax=?", "found_whole", coalition=("robot",))
    yield ask("Pmax=?", "found_whole", coalition=("robot", "human"))
    yield ask("Pmax=?", "damaged", coalition=("human",), safe="!found")
    yield ask("P>=0.9", "found_whole", coalition=("robot",))
    yield ask("Pmax=?", "found", source=BACKWARD, coalition=("robot",), steps=4 * (rows + columns))
    yield sure("Pmax=?", "found", coalition=("robot",))


def rewards(*_):
    return {"moves": lambda state, after: state[3] == "robot"}
