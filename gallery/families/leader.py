"""Electing a leader on a ring, all processes at once.

    gallery/write leader PROCESSES NUMBERS NAME

Source: A. Itai and M. Rodeh, Symmetry breaking in distributed networks, Information and Computation 88, 1990;
`leader_sync` of the benchmark set.

State: of each process the number that it drew, the number that it has to hand on, and whether it has met its own number
at another one; and how many numbers were read. In a round each process draws one of NUMBERS numbers, and then reads
those of all others, handed on round the ring. A process whose number nobody else has is fit; the leader is the fit one
with the greatest number. Where nobody is fit, a new round begins. As in PRISM's model a process forgets its number at
the last reading where it is fit, else at the end of the round. With three processes the states and moves are those that
are published, with more they are not.

Value: a round fails where each number that was drawn was drawn twice, with q, which is found by counting the ways. It
takes PROCESSES + 1 steps, so L rounds have a leader with 1 - q ^ L; in the end there is one with 1.
"""

from fractions import Fraction
from functools import lru_cache
from itertools import product
from math import comb

from gallery.families import ENCODING, Known
from toolbox.model import CLOSED, Model, ask, sure

SIZES = {"small": [(3, 2), (3, 4), (4, 2)], "large": [(4, 8)]}
COUNTS = {(3, 2): (26, 33), (3, 4): (147, 210)}


def model(processes, numbers):
    zeros, nobody = (0,) * processes, (False,) * processes
    share = Fraction(1, numbers**processes)
    first = ("draw", zeros, zeros, nobody)

    def rule(state):
        doing, drawn, handed, fit = state
        if doing == "draw":
            everybody = (True,) * processes
            return [[(share, (1, row, row, everybody)) for row in product(range(numbers), repeat=processes)]]
        if doing == "decide":
            return [[(1, ("elected", zeros, zeros, nobody) if any(fit) else first)]]
        if doing == "elected":
            return []
        return [[(1, read(doing, drawn, handed, fit))]]

    return Model(first, rule, {"elected": lambda state: state[0] == "elected"})


def read(count, drawn, handed, fit):
    """Each process reads what its right neighbour hands on."""
    handed = handed[1:] + handed[:1]
    fit = tuple(here and own != met for here, own, met in zip(fit, drawn, handed))
    if count < len(drawn) - 1:
        return (count + 1, drawn, handed, fit)
    kept = tuple(0 if here else own for here, own in zip(fit, drawn))
    return ("decide", kept, (0,) * len(drawn), fit)


def failed_round(processes, numbers):
    """The chance that no number was drawn by one process alone."""

    @lru_cache(maxsize=None)
    def ways(left, kinds):
        if kinds == 0:
            return int(left == 0)
        return sum(comb(left, many) * ways(left - many, kinds - 1) for many in range(left + 1) if many != 1)

    return Fraction(ways(processes, numbers), numbers**processes)


def questions(processes, numbers):
    failed, steps = failed_round(processes, numbers), processes + 1
    yield ask("Pmax=?", "elected", 1, CLOSED, published="1")
    yield sure("P>=1", "elected", value=1, source=CLOSED)
    within = {1: 1 - failed, 3: 1 - failed**3}
    for rounds, value in within.items():
        published = "0.75" if (processes, numbers, rounds) == (3, 2, 1) else ""
        yield ask("Pmax=?", "elected", value, CLOSED, steps=rounds * steps, published=published)
    yield ask("P>=3/4", "elected", within[1], CLOSED, steps=steps)


def rewards(*_):
    return {"rounds": lambda state, after: state[0] == "draw"}


def known_as(processes, numbers):
    name = f"`leader_sync` {processes}-{numbers}: `elected`"
    counts = COUNTS.get((processes, numbers))
    return Known(name, *counts) if counts else Known(name, kind=ENCODING)
