"""Contract signing by two parties who release their secrets in turn.

    gallery/write contract PAIRS NAME

Source: S. Even, O. Goldreich and A. Lempel, A randomized protocol for signing contracts, Communications of the ACM 28,
1985; with probabilities: G. Norman and V. Shmatikov, Analysis of probabilistic contract signing, Journal of Computer
Security 14, 2006.

State: for each party and each of its pairs of secrets which one the other lacks, how many releases there were, and
whether B stopped. First each party sends one secret of each of its pairs, and can't tell which one arrives (oblivious
transfer). Then both release all their secrets in turn, A before B, the first ones of all pairs before the second ones.
Who knows both secrets of one pair of the other has the contract. B may stop before each release of his own. A secret
has one bit here; with more, the last bits are released so.

Value: B gets the contract at release j of A with 1 / 2^j for j <= n, and else at the next one; A likewise, of B's
releases. Both get it at the same one with t = 1/4 + .. + 1/4^n + 1/4^n = 1/3 + (2/3) / 4^n, and then B is first. So B
is first with (1 + t) / 2 = 2/3 + (1/3) / 4^n, and may stop there; A is first with what is left of 1, where B goes on.
A's release j is step 2n + 2j - 1, and B is first at it with 1 / 2^j * 1 / 2^(j-1), so within 4n steps he cheats with
2/4 + .. + 2/4^n = (2/3) (1 - 1/4^n).
"""

from fractions import Fraction

from gallery.families import OTHER, Known
from toolbox.model import CLOSED, HALF, Model, ask

SIZES = {"small": [(1,), (3,)], "large": [(6,)]}
KNOWN = Known("`egl`", kind=OTHER)


def model(pairs):
    def rule(state):
        a_lacks, b_lacks, releases, stopped = state
        if len(b_lacks) < pairs:
            return [[(HALF, (a_lacks, b_lacks + (lack,), 0, False)) for lack in (0, 1)]]
        if len(a_lacks) < pairs:
            return [[(HALF, (a_lacks + (lack,), b_lacks, 0, False)) for lack in (0, 1)]]
        if stopped or releases == 4 * pairs:
            return []
        onward, stop = (a_lacks, b_lacks, releases + 1, False), (a_lacks, b_lacks, releases, True)
        is_turn_of_b = releases % 2 == 1
        return [[(1, onward)], [(1, stop)]] if is_turn_of_b else [[(1, onward)]]

    labels = {
        "b_cheats": lambda state: state[3] and b_has_contract(state) and not a_has_contract(state),
        "a_first": lambda state: a_has_contract(state) and not b_has_contract(state),
    }
    return Model(((), (), 0, False), rule, labels)


def a_has_contract(state):
    a_lacks, _, releases, _ = state
    return is_told(a_lacks, releases // 2)


def b_has_contract(state):
    _, b_lacks, releases, _ = state
    return is_told(b_lacks, (releases + 1) // 2)


def is_told(lacks, released):
    """Whether one of the lacking secrets, the first (0) or second (1) of a pair, is among so many that are released."""
    return any(pair + second * len(lacks) < released for pair, second in enumerate(lacks))


def questions(pairs):
    cheated = Fraction(2, 3) + Fraction(1, 3 * 4**pairs)
    yield ask("Pmax=?", "b_cheats", cheated, CLOSED)
    yield ask("Pmax=?", "a_first", 1 - cheated, CLOSED)
    yield ask(f"P<={cheated}", "b_cheats", cheated, CLOSED)
    yield ask(f"P<{cheated}", "b_cheats", cheated, CLOSED)
    yield ask("P<=2/3", "b_cheats", cheated, CLOSED)
    early, steps = Fraction(2, 3) * (1 - Fraction(1, 4**pairs)), 4 * pairs
    yield ask("Pmax=?", "b_cheats", early, CLOSED, steps=steps)
    yield ask("P<=2/3", "b_cheats", early, CLOSED, steps=steps)
    yield ask("P>=1/3", "!b_cheats", 1 - cheated, CLOSED, path="G")
