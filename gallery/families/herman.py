"""A self-stabilising ring of processes that move all at once.

    gallery/write herman PROCESSES NAME

Source: T. Herman, Probabilistic self-stabilization, Information Processing Letters 35, 1990; `herman` of the benchmark
set.

State: a bit of each process. A process has a token where its bit is that of its left neighbour. In each step each
process with a token draws its bit, and each other one takes that of its left neighbour. PROCESSES is odd, so the number
of tokens is odd; the ring is stable where there is one. It begins with a token at each process.

Value: 1, the theorem of the source. Of three processes a step ends it unless all three draw the same, so it is stable
within k steps with 1 - 1 / 4^k. An end takes at most 4 PROCESSES squared / 27 steps on average from each state
(conjectured by A. McIver and C. Morgan, An elementary proof that Herman's ring is Theta(N squared), Information
Processing Letters 94, 2005; proved by M. Bruna, R. Grigore, S. Kiefer, J. Ouaknine and J. Worrell, Proving the Herman
protocol conjecture, ICALP 2016), so twice as many are not enough with at most 1/2 (Markov's inequality).
"""

from fractions import Fraction
from itertools import product

from gallery.families import Known
from toolbox.model import BACKWARD, CLOSED, HALF, Model, ask, sure

SOURCE = "Herman 1990"
SIZES = {"small": [(3,), (5,), (7,)], "large": [(11,)]}
FEW = 7


def model(processes):
    def rule(bits):
        sides = [(0, 1) if bits[place] == bits[place - 1] else (bits[place - 1],) for place in range(processes)]
        share = HALF ** tokens(bits)
        return [[(share, after) for after in product(*sides)]]

    return Model((0,) * processes, rule, {"stable": lambda bits: tokens(bits) == 1})


def tokens(bits):
    return sum(bits[place] == bits[place - 1] for place in range(len(bits)))


def questions(processes):
    yield ask("Pmin=?", "stable", 1, SOURCE, published="1")
    yield ask("P>=1", "stable", 1, SOURCE)
    yield sure("P>=1", "stable", value=1, source=SOURCE)
    mean = -(-4 * processes**2 // 27)
    if processes == 3:
        yield ask("Pmax=?", "stable", 1 - Fraction(1, 4**mean), CLOSED, steps=mean)
    elif processes <= FEW:
        yield ask("Pmax=?", "stable", source=BACKWARD, steps=mean)
    soon = ask("P>=0.5", "stable", steps=-(-8 * processes**2 // 27))
    yield ask("P>=1", soon, 1, CLOSED, path="G")


def rewards(_):
    return {"steps": lambda bits, after: tokens(bits) > 1}


def known_as(processes):
    return Known(f"`herman` {processes}", 2**processes, 3**processes + 1)
