"""The root contention of FireWire with every unit of time, as PRISM's case study has its abstract model.

    gallery/write firewire_abst DELAY DEADLINE NAME

Source: IEEE 1394a, 2000; M. Stoelinga and F. Vaandrager, Root contention in IEEE 1394, ARTS 1999; M. Kwiatkowska, G.
Norman and J. Sproston, Probabilistic model checking of deadline properties in the IEEE 1394 FireWire root contention
protocol, Formal Aspects of Computing 14, 2003; `firewire_abst` of the benchmark set, and with a deadline `firewire_dl`,
written anew from its commands.

State: what both nodes drew, the time since then, in units of 10 ns, and with a DEADLINE, which is not 0, the time since
the beginning, which stops behind it. Each node tosses within DELAY whether it waits for a short or a long time. Where
both wait for a short time they contend anew behind 76 to 85 units, or end DELAY sooner; for a long time behind 159 to
167; and where they differ it ends within 167. The scheduler chooses who tosses first and how long all takes.
`firewire.py` has rounds in place of units of time.

Value: without a deadline 1, since each round ends it with 1/2 at least. The scheduler makes it late by the longest
times, and by contending anew, so with t left E(t) = (1/2) [t >= DELAY + 167] + (1/4) E(t - DELAY - 85) + (1/4) E(t -
DELAY - 167).
"""

from fractions import Fraction
from functools import lru_cache

from gallery.families import same_or_size
from toolbox.model import BY_RULE, CLOSED, HALF, Model, ask, sure

QUARTER = Fraction(1, 4)
SHORT, LONG = (76, 85), (159, 167)
SIZES = {"small": [(3, 0), (36, 0)], "large": [(3, 200), (3, 400), (3, 600), (3, 800)]}
COUNTS = {(3,): (611, 718), (36,): (776, 1411)}
PUBLISHED = {(3, 200): "0.5", (3, 400): "0.78125", (3, 600): "0.931640625"}

# what the second node may draw behind the first, and who drew what: s is short, l is long, - has not tossed
TOSSES = {
    "--": [("s-", "l-"), ("-s", "-l")],
    "s-": [("ss", "sl")],
    "-s": [("ss", "ls")],
    "-l": [("sl", "ll")],
    "l-": [("ls", "ll")],
}


def model(delay, deadline):
    def rule(state):
        drawn, waited, time = state
        if drawn == "elected":
            return []
        most = delay if drawn in TOSSES else (SHORT if drawn == "ss" else LONG)[1]
        choices = [[(1, (drawn, waited + 1, later(time)))]] if waited < most and time <= deadline else []
        return choices + [[(Fraction(1, len(ends)), end) for end in ends] for ends in next_states(state)]

    def later(time):
        return time + 1 if deadline else 0

    def next_states(state):
        drawn, waited, time = state
        if drawn in TOSSES:
            return [[(toss, 0 if "-" not in toss else waited, time) for toss in tosses] for tosses in TOSSES[drawn]]
        least = SHORT[0] if drawn == "ss" else LONG[0]
        anew = [[("--", 0, time)]] if drawn in ("ss", "ll") and waited >= least else []
        return anew + ([[("elected", 0, time)]] if waited >= least - delay else [])

    return Model(("--", 0, 0), rule, {"elected": lambda state: state[0] == "elected" and state[2] <= deadline})


def elected(delay, deadline):
    """The least chance of an election within the deadline."""

    @lru_cache(maxsize=None)
    def within(left):
        if left < 0:
            return Fraction(0)
        ended = HALF * (left >= delay + LONG[1])
        return ended + QUARTER * within(left - delay - SHORT[1]) + QUARTER * within(left - delay - LONG[1])

    return within(deadline)


def questions(delay, deadline):
    if deadline == 0:
        yield ask("Pmin=?", "elected", 1, CLOSED, published="1")
        yield ask("P>=1", "elected", 1, CLOSED)
        yield sure("Pmin=?", "elected", value=1, source=CLOSED)
        return
    least = elected(delay, deadline)
    yield ask("Pmin=?", "elected", least, BY_RULE, published=PUBLISHED.get((delay, deadline), ""))
    yield ask(f"P>={least}", "elected", least, BY_RULE)


def rewards(*_):
    """Time passes where what both drew stays and the wait is longer."""
    return {"time": lambda state, after: (state[0], state[1] + 1) == after[:2]}


def known_as(delay, deadline):
    if deadline == 0:
        return same_or_size("`firewire_abst`", (delay,), COUNTS, "`elected`")
    return same_or_size("`firewire_dl`", (delay, deadline), {}, "`deadline`")
