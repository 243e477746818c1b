"""Anonymity in a crowd, as PRISM's case study has it.

    gallery/write crowds_runs MEMBERS RUNS NAME

Source: M. K. Reiter and A. D. Rubin, Crowds: anonymity for web transactions, ACM Transactions on Information and System
Security 1, 1998; V. Shmatikov, Probabilistic analysis of anonymity, CSFW 2002; `crowds` of the benchmark set, written
anew from its commands.

State: what happens next, the runs that are left, the honest member that had the message last, and how often the
corrupt ones saw each honest one, up to RUNS. In each run the next to get the message is corrupt with 0.167, and then
notes who had it last; the sender, member 0, at first. An honest one may be each of the MEMBERS, and hands the message
on with 0.8, else delivers it. `crowds.py` has the numbers of the first source, with one draw for both.

Value: the sender is seen in a run with s = 0.167 + 0.833 * 0.8 h / MEMBERS, where h = 0.167 / (1 - 0.833 * 0.8) is the
chance that somebody is seen behind the first hand. It is seen twice or more with 1 - (1 - s)^RUNS - RUNS s (1 -
s)^(RUNS - 1), and never with (1 - s)^RUNS.
"""

from fractions import Fraction

from gallery.families import changed, same_or_size
from toolbox.model import CLOSED, Model, ask, sure

CORRUPT, HANDED_ON = Fraction(167, 1000), Fraction(8, 10)
SIZES = {"small": [(5, 3)], "large": [(10, 3), (10, 4)]}
COUNTS = {(3, 5): (1198, 2038), (3, 10): (6563, 15143)}
THEN = {"launch": "new", "delivered": "over", "seen": "over"}


def model(members, runs):
    def rule(state):
        doing, left, last, seen = state

        def to(then, last=last, seen=seen):
            return (then, left, last, seen)

        if doing in THEN:
            return [[(1, to(THEN[doing]))]]
        if doing == "new":
            return [[(1, ("start", left - 1, last, seen))]] if left else []
        if doing == "start":
            return [[(1, to("on its way", last=0))]]
        if doing == "on its way":
            return [[(1 - CORRUPT, to("honest")), (CORRUPT, to("corrupt"))]]
        if doing == "honest":
            return [[(Fraction(1, members), to("held", last=member)) for member in range(members)]]
        if doing == "held":
            return [[(HANDED_ON, to("on its way")), (1 - HANDED_ON, to("delivered"))]]
        if doing == "corrupt":
            return [[(1, to("seen", seen=changed(seen, last, seen[last] + 1)))]]
        return [[(1, to("new", last=0))]]

    labels = {
        "positive": lambda state: state[3][0] > 1,
        "sender_seen": lambda state: state[3][0] > 0,
        "ended": lambda state: state[:2] == ("new", 0),
    }
    return Model(("launch", runs, 0, (0,) * members), rule, labels)


def seen_in_a_run(members):
    on = (1 - CORRUPT) * HANDED_ON
    return CORRUPT + on * CORRUPT / (1 - on) / members


def questions(members, runs):
    seen = seen_in_a_run(members)
    never, once = (1 - seen) ** runs, runs * seen * (1 - seen) ** (runs - 1)
    yield ask("Pmax=?", "positive", 1 - never - once, CLOSED)
    yield ask("Pmax=?", "!sender_seen", never, CLOSED, path="G")
    yield ask("P<=0.2", "positive", 1 - never - once, CLOSED)
    yield sure("P>=1", "ended", value=1, source=CLOSED)


def known_as(members, runs):
    return same_or_size("`crowds`", (runs, members), COUNTS, "`positive`")
