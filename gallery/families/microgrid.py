"""A game: households of a microgrid decide when to run their loads.

    gallery/write microgrid HOUSEHOLDS LIMIT HOURS NAME

Source: H. Hildmann and F. Saffre, Influence of variable supply and load flexibility on demand-side management, EEM
2011; as a game: T. Chen, V. Forejt, M. Kwiatkowska, D. Parker and A. Simaitis, Automatic verification of competitive
stochastic systems, Formal Methods in System Design 43, 2013. Rebuilt from its description in the form of a reachability
question: there it is of costs. The numbers are our choice.

State: the hour, whose turn it is, whose load still runs, the power of the hour so far, and whether the one on turn has
a load. In each of HOURS hours one household after the other gets a load with 1/2, where none of its own runs; it runs
it at once, with two units of power for an hour, or gently, with one unit for this hour and the next. There is a peak
where the power of an hour passes LIMIT.

Value: computed in fractions by strategy iteration, for coalitions that want a peak against all others, who run their
loads gently. One hour has a peak of all loads at once where enough households have one.
"""

from fractions import Fraction
from typing import NamedTuple

from gallery.families import REBUILT, Known, changed
from toolbox.model import Model, ask, sure

LOAD = Fraction(1, 2)
AT_ONCE, GENTLY = 2, 1
SIZES = {"small": [(3, 4, 2), (4, 5, 3)], "large": [(6, 7, 8)]}
KNOWN = Known("PRISM-games' microgrid demand-side management, `mdsm`", kind=REBUILT)


class Turn(NamedTuple):
    hour: int
    household: int
    runs_on: tuple
    power: int = 0
    has_load: bool = False


def model(households, limit, hours):
    players = [f"h{number}" for number in range(1, households + 1)]

    def rule(turn):
        if turn == "peak" or turn.hour == hours:
            return []
        if turn.has_load:
            return [[(1, after(turn, AT_ONCE))], [(1, after(turn, GENTLY, runs_on=True))]]
        if turn.runs_on[turn.household]:
            return [[(1, after(turn, GENTLY))]]
        return [[(LOAD, turn._replace(has_load=True)), (1 - LOAD, after(turn, 0))]]

    def after(turn, power, runs_on=False):
        household, power = turn.household, turn.power + power
        if power > limit:
            return "peak"
        running = changed(turn.runs_on, household, runs_on)
        if household + 1 < households:
            return Turn(turn.hour, household + 1, running, power)
        return Turn(turn.hour + 1, 0, running)

    def owner(turn):
        return players[0 if turn == "peak" else turn.household]

    first = Turn(0, 0, (False,) * households)
    return Model(first, rule, {"peak": lambda turn: turn == "peak"}, players, owner)


def questions(households, limit, hours):
    players = [f"h{number}" for number in range(1, households + 1)]
    for count in (1, 2, households):
        yield ask("Pmax=?", "peak", coalition=tuple(players[:count]))
    yield ask("Pmax=?", "peak", coalition=tuple(players[-2:]))
    yield ask("P<=0.25", "peak", coalition=tuple(players[2:]))
    yield ask("Pmax=?", "!peak", coalition=tuple(players[2:]), path="G")
    yield sure("Pmax=?", "peak", coalition=tuple(players))
