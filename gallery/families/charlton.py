"""A game: a car drives through a village whose hazards an opponent chooses.

    gallery/write charlton BLOCKS NAME

Source: T. Chen, M. Kwiatkowska, A. Simaitis and C. Wiltsche, Synthesis for multi-objective stochastic games: an
application to autonomous urban driving, QEST 2013, with the village of Charlton-on-Otmoor. Rebuilt from its
description: on a road the environment chooses among hazards, each of which appears with its own probability, and the
car chooses how to react, at the risk of an accident. The map and the numbers here are our choice.

State: the crossing, and the road that was chosen, the hazard and whether the car turned back. The village has BLOCKS
squares in a row, with an upper and a lower street, so 2 (BLOCKS + 1) crossings; the car begins at one end and its house
is at the far corner. The environment chooses a pedestrian (0.05), a jam (0.1) or an obstacle (0.02), which is met with
that chance, else nothing is. The car brakes, honks, changes lanes or turns back, as `REACTIONS` has it.

Value: the house is BLOCKS + 1 roads away, and by the least risk of each hazard a jam is worst, with 0.1 * 0.01 a road.
So the car comes home with 0.999 ^ (BLOCKS + 1), and the environment has its accident with what is left of 1. Never in a
jam it comes home with 0.9 ^ (BLOCKS + 1). Where the environment helps, the value is computed in fractions: it chooses
obstacles, and the car turns back, at half the risk, or goes on.
"""

from fractions import Fraction

from gallery.families import REBUILT, Known
from toolbox.model import CLOSED, Model, ask, sure

HAZARDS = {"pedestrian": Fraction(5, 100), "jam": Fraction(10, 100), "obstacle": Fraction(2, 100)}
REACTIONS = {
    "pedestrian": {"brake": Fraction(1, 100), "honk": Fraction(4, 100), "change lanes": Fraction(3, 100)},
    "jam": {"honk": Fraction(1, 100), "turn back": Fraction(2, 100)},
    "obstacle": {"change lanes": Fraction(2, 100), "turn back": Fraction(1, 100)},
}
SIZES = {"small": [(1,), (3,)], "large": [(12,)]}
KNOWN = Known("PRISM-games' `charlton`", kind=REBUILT)


def model(blocks):
    house = (blocks, 1)

    def rule(state):
        kind, *where = state
        if state in (("at", house), ("accident",)):
            return []
        if kind == "at":
            return [[(1, ("road", where[0], after))] for after in crossings_beside(where[0], blocks)]
        if kind == "road":
            return [met(hazard, *where) for hazard in HAZARDS]
        hazard, before, after = where
        return [reacted(reaction, risk, before, after) for reaction, risk in REACTIONS[hazard].items()]

    labels = {
        "home": lambda state: state == ("at", house),
        "accident": lambda state: state == ("accident",),
        "jammed": lambda state: state[:2] == ("hazard", "jam"),
    }

    def owner(state):
        return "environment" if state[0] == "road" else "car"

    return Model(("at", (0, 0)), rule, labels, ["car", "environment"], owner)


def met(hazard, before, after):
    """The road with a hazard that the environment chose."""
    chance = HAZARDS[hazard]
    return [(chance, ("hazard", hazard, before, after)), (1 - chance, ("at", after))]


def reacted(reaction, risk, before, after):
    """What comes of a reaction of the car."""
    return [(risk, ("accident",)), (1 - risk, ("at", before if reaction == "turn back" else after))]


def crossings_beside(crossing, blocks):
    column, street = crossing
    columns = [beside for beside in (column - 1, column + 1) if 0 <= beside <= blocks]
    return [(beside, street) for beside in columns] + [(column, 1 - street)]


def questions(blocks):
    home, unjammed = Fraction("0.999") ** (blocks + 1), Fraction("0.9") ** (blocks + 1)
    for options in ((), ("--traps",)):
        yield ask("Pmax=?", "home", home, CLOSED, coalition=("car",), options=options)
    yield ask("Pmax=?", "home", coalition=("car", "environment"))
    yield ask("Pmax=?", "accident", 1 - home, CLOSED, coalition=("environment",))
    yield ask("P>=0.99", "home", home, CLOSED, coalition=("car",))
    yield ask("Pmax=?", "home", unjammed, CLOSED, coalition=("car",), safe="!jammed")
    yield sure("Pmax=?", "home", coalition=("car",))


def rewards(_):
    return {"roads": lambda state, after: state[0] == "at"}
