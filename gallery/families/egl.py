"""Contract signing by secrets in turn, as PRISM's case study has it.

    gallery/write egl PAIRS BITS NAME

Source: S. Even, O. Goldreich and A. Lempel, A randomized protocol for signing contracts, Communications of the ACM 28,
1985; G. Norman and V. Shmatikov, Analysis of probabilistic contract signing, Journal of Computer Security 14, 2006;
`egl` of the benchmark set, written anew from its commands.

State: for each party and each of its pairs of secrets how many bits of both it knows of the other's; and which bit of
which secret is sent next, by whom. First each party in turn sends one secret of each of its pairs, and can't tell which
one arrives. Then the first secrets of all pairs are sent bit by bit, and then the second ones. For each bit A sends
that of its first pair, then B those of all its pairs, then A those of the others. Who knows both secrets of a pair has
the contract. `contract.py` is another order, in which B may stop.

Value: B has it before A (`unfairA`) where it lacks the first secret of A's first pair, with 1/2; else A has it first
where it lacks some first secret, and else B, which then lacks some first secret or gets the second secret first. So A
is first with 1/2 (1 - 1 / 2 ^ PAIRS), and B with what is left of 1.
"""

from fractions import Fraction
from itertools import product

from gallery.families import changed, same_or_size
from toolbox.model import CLOSED, HALF, Model, ask, sure

SIZES = {"small": [(2, 1), (3, 2)], "large": [(5, 2)]}
COUNTS = {(5, 2): (33790, 34813)}
PUBLISHED = {(5, 2): ("0.515625", "0.484375")}


def model(pairs, bits):
    order = orders(pairs, bits)

    def rule(state):
        sent, known_a, known_b = state
        if len(known_b) < pairs or len(known_a) < pairs:
            drawn = [(bits, 0), (0, bits)]
            if len(known_b) == len(known_a):
                return [[(HALF, (0, known_a, known_b + (pair,))) for pair in drawn]]
            return [[(HALF, (0, known_a + (pair,), known_b)) for pair in drawn]]
        if sent == len(order):
            return []
        receiver, pair, second = order[sent]
        if receiver == "a":
            return [[(1, (sent + 1, learnt(known_a, pair, second, bits), known_b))]]
        return [[(1, (sent + 1, known_a, learnt(known_b, pair, second, bits)))]]

    def has_contract(known):
        return (bits, bits) in known

    labels = {
        "unfair_a": lambda state: has_contract(state[2]) and not has_contract(state[1]),
        "unfair_b": lambda state: has_contract(state[1]) and not has_contract(state[2]),
        "done": lambda state: state[0] == len(order),
    }
    return Model((0, (), ()), rule, labels)


def orders(pairs, bits):
    """Who learns a bit of which secret of which pair, one after the other."""
    row = [("b", 0), *(("a", pair) for pair in range(pairs)), *(("b", pair) for pair in range(1, pairs))]
    return [(receiver, pair, second) for second, _, (receiver, pair) in product((0, 1), range(bits), row)]


def learnt(known, pair, second, bits):
    """What a party knows with one bit more of a secret of a pair, where it does not know all of them."""
    counts = list(known[pair])
    counts[second] = min(counts[second] + 1, bits)
    return changed(known, pair, tuple(counts))


def questions(pairs, bits):
    a_first = HALF * (1 - Fraction(1, 2**pairs))
    unfair_a, unfair_b = PUBLISHED.get((pairs, bits), ("", ""))
    yield ask("Pmax=?", "unfair_a", 1 - a_first, CLOSED, published=unfair_a)
    yield ask("Pmax=?", "unfair_b", a_first, CLOSED, published=unfair_b)
    yield ask(f"P<={a_first}", "unfair_b", a_first, CLOSED)
    yield sure("P>=1", "done", value=1, source=CLOSED)


def known_as(pairs, bits):
    return same_or_size("`egl`", (pairs, bits), COUNTS, "`unfairA`, `unfairB`")
