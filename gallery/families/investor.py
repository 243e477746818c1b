"""A game: investors choose the month of a sale, and the market bars them.

    gallery/write investor TOP HIGH INVESTORS NAME

Source: A. McIver and C. Morgan, Results on the quantitative mu-calculus, ACM Transactions on Computational Logic 8,
2007, the futures market, a case study of PRISM; with two investors after T. Chen, V. Forejt, M. Kwiatkowska, D.
Parker and A. Simaitis, Automatic verification of competitive stochastic systems, Formal Methods in System Design 43,
2013. Rebuilt from its description in the form of a reachability question: there it is the value of a sale that is
expected. In the source TOP is 10. That two investors sell on their own, and that the market bars one of them at most,
is our choice.

State: the value of a share, the chance that it rises, the cap on the value, for each investor whether it waits, has
reserved or has sold, whom the market bars, and whose turn it is. An investor may reserve a share once, on the first
day of a month; a month later it is delivered and sold. The value is from 0 to the cap and begins at TOP/2; in a month
it rises by 1 with a chance of so many TOPths, and else falls by 1. This chance begins at 1/2; it goes up or down a
TOPth, up with 2/3 where the value is below TOP/2, down with 2/3 where it is above, and with 1/2 each at TOP/2. The
cap begins at TOP and falls by 1 with 1/2. The market may bar an investor from reserving in a month, and none in two
months running.

Value: computed in fractions by strategy iteration, of a sale at HIGH or more.
"""

from fractions import Fraction
from itertools import product
from typing import NamedTuple, Optional

from gallery.families import REBUILT, Known, changed
from toolbox.model import Model, ask, sure

WAITS, RESERVED, SOLD_LOW, SOLD_HIGH = "waits", "reserved", "sold", "sold high"
RETURNS = Fraction(2, 3)
MARKET = "market"
SIZES = {"small": [(4, 4, 1), (2, 2, 2)], "large": [(8, 6, 1), (4, 4, 2)]}
KNOWN = Known("PRISM's and PRISM-games' `investor`", kind=REBUILT)


class Month(NamedTuple):
    """`turn` is the number of an investor or that of the market behind them; `barred` is the number of one or none."""

    value: int
    chance: int
    cap: int
    investors: tuple
    barred: Optional[int] = None
    turn: int = 0


def model(top, high, investors):
    def rule(month):
        if all(status in (SOLD_LOW, SOLD_HIGH) for status in month.investors):
            return []
        if month.turn < investors:
            return [[(1, after)] for after in reservations(month)]
        return [passed(month, barred) for barred in (None, *may_be_barred(month))]

    def may_be_barred(month):
        return [number for number, status in enumerate(month.investors) if status == WAITS and number != month.barred]

    def reservations(month):
        """What an investor on turn may do: wait, or reserve where it has not and is not barred."""
        yield month._replace(turn=month.turn + 1)
        if month.investors[month.turn] == WAITS and month.barred != month.turn:
            yield month._replace(turn=month.turn + 1, investors=changed(month.investors, month.turn, RESERVED))

    def passed(month, barred):
        """The next month, where this investor is barred: the chances of value, chance and cap multiplied."""
        for value, chance, cap in product(next_values(month), next_chances(month), next_caps(month)):
            low = min(max(value[1], 0), cap[1])
            sold = tuple(sale(status, low) for status in month.investors)
            yield value[0] * chance[0] * cap[0], Month(low, chance[1], cap[1], sold, barred)

    def next_values(month):
        rises = Fraction(month.chance, top)
        return (rises, month.value + 1), (1 - rises, month.value - 1)

    def next_chances(month):
        side = (2 * month.value > top) - (2 * month.value < top)
        up = (RETURNS, Fraction(1, 2), 1 - RETURNS)[side + 1]
        return (up, min(month.chance + 1, top)), (1 - up, max(month.chance - 1, 0))

    def next_caps(month):
        return (Fraction(1, 2), month.cap), (Fraction(1, 2), max(month.cap - 1, 0))

    def sale(status, value):
        return status if status != RESERVED else SOLD_HIGH if value >= high else SOLD_LOW

    players = names(investors)
    labels = {
        "i1_high": lambda month: month.investors[0] == SOLD_HIGH,
        "one_high": lambda month: SOLD_HIGH in month.investors,
        "all_high": lambda month: set(month.investors) == {SOLD_HIGH},
        "i1_low": lambda month: month.investors[0] == SOLD_LOW,
    }
    first = Month(top // 2, top // 2, top, (WAITS,) * investors)
    return Model(first, rule, labels, players, lambda month: players[month.turn])


def names(investors):
    return [*(f"i{number}" for number in range(1, investors + 1)), MARKET]


def questions(top, high, investors):
    *everyone, market = names(investors)
    yield ask("Pmax=?", "i1_high", coalition=("i1",))
    yield ask("Pmax=?", "i1_high", coalition=("i1", market))
    if investors > 1:
        yield ask("Pmax=?", "one_high", coalition=("i1",))
        yield ask("Pmax=?", "one_high", coalition=tuple(everyone))
        yield ask("Pmax=?", "all_high", coalition=tuple(everyone))
    yield ask("P>=0.25", "one_high", coalition=tuple(everyone))
    yield ask("Pmax=?", "!i1_high", coalition=(market,), path="G")
    yield sure("Pmax=?", "i1_low", coalition=("i1",))
