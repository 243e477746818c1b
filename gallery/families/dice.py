"""A game: two players throw dice in turn, and choose with which.

    gallery/write dice THROWS NAME

Source: after the dice game of PRISM-games, as K. Chatterjee, J.-P. Katoen, M. Weininger and T. Winkler describe it:
two players, a number of throws, and three outcomes, that either wins or neither does (Stochastic games with
lexicographic reachability-safety objectives, CAV 2020). Rebuilt from these words; which dice there are is our choice.

State: the throws that were made, and how far a lies ahead. Each player throws THROWS times, a first, and adds up what
it throws: with the steady die 1 to 6, with the bold one 0 or 6, with 1/2 each. Who has more wins.

Value: computed in fractions by strategy iteration for both players. With one throw each a throws the steady die. To
keep it from winning b answers 6, 5 and 4 boldly and the rest steadily, so a wins with (1/2 + 1/2 + 1/2 + 2/6 + 1/6 +
0) / 6 = 1/3, and with 1/4 if it throws boldly. To win itself b answers 3 and more boldly, so it wins with (0 + 1/2 +
1/2 + 1/2 + 4/6 + 5/6) / 6 = 1/2, and with 1/2 too if a throws boldly.

Expected points: the steady die throws 3.5 and the bold one 3. So who wants many gets 3.5 and who wants few gives 3.
"""

from fractions import Fraction

from gallery.families import REBUILT, Known
from toolbox.model import CLOSED, COMPUTED, Model, ask, sure

STEADY, BOLD = (1, 2, 3, 4, 5, 6), (0, 6)
SIZES = {"small": [(1,), (4,)], "large": [(20,)]}
KNOWN = Known("PRISM-games' `dice`", kind=REBUILT)


def model(throws):
    def rule(state):
        made, lead = state
        if made == 2 * throws:
            return []
        sign = 1 if made % 2 == 0 else -1
        return [[(Fraction(1, len(die)), (made + 1, lead + sign * points)) for points in die] for die in (STEADY, BOLD)]

    labels = {
        "a_wins": lambda state: state[0] == 2 * throws and state[1] > 0,
        "b_wins": lambda state: state[0] == 2 * throws and state[1] < 0,
        "draw": lambda state: state == (2 * throws, 0),
        "over": lambda state: state[0] == 2 * throws,
    }
    return Model((0, 0), rule, labels, ["a", "b"], lambda state: "ab"[state[0] % 2])


def questions(throws):
    one_throw = {"a": Fraction(1, 3), "b": Fraction(1, 2)}
    for player, value in one_throw.items():
        answer = (value, CLOSED) if throws == 1 else (None, COMPUTED)
        yield ask("Pmax=?", f"{player}_wins", *answer, coalition=(player,))
    yield ask("Pmax=?", "draw", coalition=("a", "b"))
    yield ask("Pmax=?", "!b_wins", coalition=("a",), path="G")
    yield ask("P>=0.5", "b_wins", coalition=("b",))
    yield sure("P>=1", "over", value=1, source=CLOSED)


def rewards(_):
    return {"points": lambda state, after: abs(after[1] - state[1])}
