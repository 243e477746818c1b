"""Who becomes the root of a bus: the root contention of FireWire.

    gallery/write firewire DEADLINE NAME

Source: IEEE 1394a, 2000; M. Stoelinga and F. Vaandrager, Root contention in IEEE 1394, ARTS 1999; with deadlines: M.
Kwiatkowska, G. Norman and J. Sproston, Probabilistic model checking of deadline properties in the IEEE 1394 FireWire
root contention protocol, Formal Aspects of Computing 14, 2003.

State: the time in units of 10 ns, and what the two nodes drew. In each round both toss a coin and wait for a short or a
long time. Where they differ, the one that waited for a long time becomes the root; else they contend once more. A round
takes a short wait where somebody waits so, else a long one, and a delay of the cable. The scheduler chooses the least
or the greatest of each. DEADLINE 0 stands for none, and then time is not counted.

Value: without a deadline 1, since each round ends it with 1/2, whatever the scheduler does. With t left and rounds that
take x, and y where both wait long, E(t) = (1/2) [t >= x] + (1/4) E(t - x) + (1/4) E(t - y). E rises in t, so the least
value is that of the greatest x and y and the greatest that of the least; it is computed by this rule, in fractions.
"""

from fractions import Fraction
from functools import lru_cache

from gallery.families import OTHER, Known
from toolbox.model import BY_RULE, CLOSED, HALF, Model, ask, sure

DELAY = 36
SHORT, LONG = (76, 85 + DELAY), (159, 167 + DELAY)
QUARTER = Fraction(1, 4)
SIZES = {"small": [(0,), (200,), (300,), (400,), (600,), (800,), (1000,)], "large": [(20000,)]}


def model(deadline):
    def rule(state):
        if state in ("elected", "late"):
            return []
        time, drawn = state
        if drawn is None:
            return [[(QUARTER, (time, "both short")), (QUARTER, (time, "both long")), (HALF, (time, "different"))]]
        spans = LONG if drawn == "both long" else SHORT
        return [[(1, later(time, span, drawn))] for span in spans]

    def later(time, span, drawn):
        if deadline and time + span > deadline:
            return "late"
        if drawn == "different":
            return "elected"
        return (time + span if deadline else 0, None)

    return Model((0, None), rule, {"elected": lambda state: state == "elected"})


def elected(deadline, short, long):
    """The chance of an election within the deadline where rounds take so long."""

    @lru_cache(maxsize=None)
    def within(left):
        if left < short:
            return Fraction(0)
        return HALF + QUARTER * within(left - short) + QUARTER * within(left - long)

    return within(deadline)


def questions(deadline):
    if deadline == 0:
        yield ask("Pmin=?", "elected", 1, CLOSED)
        yield ask("P>=1", "elected", 1, CLOSED)
        yield sure("Pmin=?", "elected", value=1, source=CLOSED)
        return
    least, greatest = elected(deadline, SHORT[1], LONG[1]), elected(deadline, SHORT[0], LONG[0])
    yield ask("Pmin=?", "elected", least, BY_RULE)
    yield ask("Pmax=?", "elected", greatest, BY_RULE)
    yield ask("P>=5/8", "elected", least, BY_RULE)


def known_as(deadline):
    return Known("`firewire_dl`: `deadline`" if deadline else "`firewire`: `elected`", kind=OTHER)
