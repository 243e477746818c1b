"""A game: an intruder on a grid avoids an observer.

    gallery/write observer SIDE SIGHT NAME

Source: K. Chatterjee, J.-P. Katoen, M. Weininger and T. Winkler, Stochastic games with lexicographic
reachability-safety objectives, CAV 2020, 'Avoid the observer'. Rebuilt from its description: the intruder has to avoid
the observer, to leave the grid, and may search for a precious item at each field, which it finds with 0.1; the observer
sees it within a certain distance, and walks at random where it does not. The ways in and out, the other numbers and
that the intruder may stumble are our choice.

State: the fields of both, whether the item was found, and whose turn it is. The intruder begins in one corner, and the
way out is the far one; it takes one step, which succeeds with 0.9, or stays and searches. The observer begins in the
corner to the right of the intruder's. Where the intruder is at most SIGHT steps away it takes the step that it chooses,
or stays, else one of its steps at random. Both on one field is an end, and so is the way out.

Value: computed in fractions by strategy iteration for both players.
"""

from fractions import Fraction

from gallery.families import REBUILT, Known
from gallery.families.robot import neighbours
from toolbox.model import Model, ask, sure

FOUND, STEP = Fraction(1, 10), Fraction(9, 10)
SIZES = {"small": [(2, 1), (3, 1)], "large": [(4, 2)]}
KNOWN = Known("PRISM-games' `avoid-the-observer`", kind=REBUILT)


def model(side, sight):
    corner, way_out = (0, 0), (side - 1, side - 1)

    def rule(state):
        intruder, observer, has_item, turn = state
        if observer == intruder or intruder == way_out and turn == "observer":
            return []
        if turn == "observer":
            steps = neighbours(observer, side, side)
            if distance(intruder, observer) > sight:
                return [[(Fraction(1, len(steps)), (intruder, step, has_item, "intruder")) for step in steps]]
            return [[(1, (intruder, step, has_item, "intruder"))] for step in [observer, *steps]]
        stays = (intruder, observer, has_item, "observer")
        search = [(FOUND, (intruder, observer, True, "observer")), (1 - FOUND, stays)]
        steps = [(step, observer, has_item, "observer") for step in neighbours(intruder, side, side)]
        return [search] + [[(STEP, step), (1 - STEP, stays)] for step in steps]

    labels = {
        "caught": lambda state: state[0] == state[1],
        "out": lambda state: is_out(state, way_out),
        "out_with_item": lambda state: is_out(state, way_out) and state[2],
    }
    first = (corner, (0, side - 1), False, "intruder")
    return Model(first, rule, labels, ["intruder", "observer"], lambda state: state[3])


def is_out(state, way_out):
    return state[0] == way_out != state[1] and state[3] == "observer"


def distance(one, other):
    return abs(one[0] - other[0]) + abs(one[1] - other[1])


def questions(side, sight):
    for options in ((), ("--traps",)):
        yield ask("Pmax=?", "out", coalition=("intruder",), options=options)
        yield ask("Pmax=?", "out_with_item", coalition=("intruder",), options=options)
    yield ask("Pmax=?", "!caught", coalition=("intruder",), path="G")
    yield ask("Pmax=?", "caught", coalition=("observer",))
    yield ask("Pmax=?", "out_with_item", coalition=("intruder", "observer"))
    yield sure("Pmax=?", "out_with_item", coalition=("intruder", "observer"))


def rewards(*_):
    return {"moves": lambda state, after: state[3] == "intruder"}
