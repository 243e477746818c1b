"""A duel of three or more, in which coalitions differ.

    gallery/write truel HIT HIT HIT .. NAME

Source: F. Mosteller, Fifty challenging problems in probability, 1965, problem 20: A hits with 0.3, B always and C with
0.5.

State: who is alive, and whose turn it is. They shoot in turn, A first, at a living one of their choice or into the air,
until one is left. A coalition plays together against all others, who want the opposite.

Value, of A as the last one, for the hits of the source. A alone: A has to hit B at once, who else hits A; then C and A
shoot in turn, C first, and A wins with x = 0.5 (0.3 + 0.7 x) = 3/13: in all 0.3 * 3/13 = 9/130. A and C: C shoots into
the air once B is hit: 0.3. A and B: B hits C, and waits for A to hit: 1. Of A or C as the last one, together: if A
misses, B hits C and A has one shot more: 0.3 + 0.7 * 0.3 = 0.51. For other hits the values are computed in fractions.
Within 2j + 1 shots the sums of these series end at their j-th term: 9/130 (1 - 0.35^j), 0.3 (1 - 0.7^j) and 1 - 0.7^j.
For other hits these are computed backward.

A is the last one with 0.3 without help where it shoots at one other: 0.3 against B, 6/13 against C. A alone comes there
with 0.3 * 0.5, since it has to hit B, and C then to miss; and beside C, which shoots into the air, with 0.3.

Expected turns, with A and B together: C is hit in the second turn, and then A has every other one: 1 + 2 / 0.3 = 23/3.
"""

from fractions import Fraction
from string import ascii_lowercase

from toolbox.model import BACKWARD, CLOSED, COMPUTED, Model, ask, sure

MOSTELLER = ("0.3", "1", "0.5")
SIZES = {
    "small": [MOSTELLER, ("1/3", "2/3", "1"), ("0.5", "0.6", "0.7", "0.8", "0.9")],
    "large": [("0.3", "0.4", "0.5", "0.6", "0.7", "0.8", "0.9")],
}


def model(*hits):
    shooters = ascii_lowercase[: len(hits)]
    chances = dict(zip(shooters, map(Fraction, hits)))

    def rule(state):
        alive, shooter = state
        if len(alive) == 1:
            return []
        air = [[(1, (alive, next_of(alive, shooter)))]]
        return air + [shot(alive, shooter, target) for target in alive if target != shooter]

    def shot(alive, shooter, target):
        after, chance = alive.replace(target, ""), chances[shooter]
        return [(chance, (after, next_of(after, shooter))), (1 - chance, (alive, next_of(alive, shooter)))]

    labels = {"a_wins": lambda state: state[0] == "a", "a_or_c_wins": lambda state: state[0] in ("a", "c")}
    return Model((shooters, "a"), rule, labels, shooters, lambda state: state[1])


def next_of(alive, shooter):
    """The living one whose turn is next."""
    return min(alive, key=lambda name: (name <= shooter, name))


def questions(*hits):
    known = hits == MOSTELLER
    asked = (
        ("a_wins", "a", Fraction(9, 130)),
        ("a_wins", "ac", Fraction(3, 10)),
        ("a_wins", "ab", Fraction(1)),
        ("a_or_c_wins", "ac", Fraction(51, 100)),
    )
    for goal, coalition, value in asked:
        answer = (value, CLOSED) if known else (None, COMPUTED)
        yield ask("Pmax=?", goal, *answer, coalition=tuple(coalition))
    if known:
        yield ask("P>=0.3", "a_wins", Fraction(3, 10), CLOSED, coalition=("a", "c"))
        yield ask("P>0.3", "a_wins", Fraction(3, 10), CLOSED, coalition=("a", "c"))
    yield sure("P>=1", "a_wins", coalition=("a", "b"))
    yield from questions_of_shots(3 * len(hits), known)


def questions_of_shots(shots, known):
    """How likely A is the last one within so many shots, and never."""
    alone, together = 1 - Fraction("0.35") ** 4, 1 - Fraction("0.7") ** 4
    for coalition, value in (("a", Fraction(9, 130) * alone), ("ac", Fraction(3, 10) * together), ("ab", together)):
        answer = (value, CLOSED) if known else (None, BACKWARD)
        yield ask("Pmax=?", "a_wins", *answer, coalition=tuple(coalition), steps=shots)
    for steps in (13, 15) if known else ():
        value = 1 - Fraction("0.7") ** (steps // 2)
        yield ask("P>=0.9", "a_wins", value, CLOSED, coalition=("a", "b"), steps=steps)
    answer = (Fraction(121, 130), CLOSED) if known else (None, COMPUTED)
    yield ask("Pmax=?", "!a_wins", *answer, coalition=("b", "c"), path="G")
    yield from questions_of_turns(known)


def questions_of_turns(known):
    """How likely A comes to where it is the last one with 0.3 without the help of others."""
    ahead = ask("P>=0.3", "a_wins", coalition=("a",))
    for coalition, value in (("a", Fraction(3, 20)), ("ac", Fraction(3, 10))):
        answer = (value, CLOSED) if known else (None, COMPUTED)
        yield ask("Pmax=?", ahead, *answer, coalition=tuple(coalition))
    answer = (Fraction(17, 20), CLOSED) if known else (None, COMPUTED)
    yield ask("Pmax=?", ("!", ahead), *answer, coalition=("b", "c"), path="G")


def rewards(*_):
    """A turn, of one who shoots into the air too."""
    return {"turns": lambda state, after: len(state[0]) > 1}
