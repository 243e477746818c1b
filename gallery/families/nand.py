"""A reliable gate out of unreliable ones: NAND multiplexing.

    gallery/write nand BUNDLE RESTORATIONS NAME

Source: J. von Neumann, Probabilistic logics and the synthesis of reliable organisms from unreliable components,
Automata Studies, Princeton University Press, 1956; as a Markov chain: G. Norman, D. Parker, M. Kwiatkowska and S.
Shukla, Evaluating the reliability of NAND multiplexing with PRISM, IEEE Transactions on CAD 24, 2005.

State: the stage, how many gates of it have worked, how many of them gave a 1, how many 1s are left among the first and
the second inputs, and the first input that was drawn. A stage has BUNDLE gates; the outputs of each stage, in a random
order, are both bundles of inputs of the next one. There are 2 RESTORATIONS + 1 stages. Each input of the first is 1
with 0.9; a gate errs with 0.02.

Value: where k of n inputs are 1, two 1s meet at j gates with C(k, j) C(n-k, k-j) / C(n, k), and each gate then gives 1
by itself. So the number of 1s is a chain over stages, whose matrix is multiplied in fractions, without a state of this
model.
"""

from fractions import Fraction
from math import comb

from gallery.families import ENCODING, Known
from toolbox.model import COMPUTED, Model, ask

ERROR = Fraction(2, 100)
ONE_AT_FIRST = Fraction(9, 10)
STAGES = COMPUTED + ", by stages"
SIZES = {"small": [(4, 1), (6, 1)], "large": [(20, 1)]}


def model(bundle, restorations):
    stages = 2 * restorations + 1

    def rule(state):
        if state[0] == "end":
            return []
        stage, worked, ones, first_left, second_left, drawn = state
        if drawn is None:
            chance = chance_of_one(stage, first_left, bundle - worked)
            one = (stage, worked, ones, max(0, first_left - 1), second_left, 1)
            return [[(chance, one), (1 - chance, state[:-1] + (0,))]]
        return [[(part, entered(after)) for part, after in worked_gate(state, bundle)]]

    def entered(state):
        stage, worked, ones = state[:3]
        if worked < bundle:
            return state
        return (stage + 1, 0, 0, ones, ones, None) if stage < stages else ("end", ones)

    labels = {"reliable": lambda state: state[0] == "end" and 10 * state[1] < bundle}
    return Model((1, 0, 0, 0, 0, None), rule, labels)


def worked_gate(state, bundle):
    """Draws the second input and lets the gate work: parts of a probability and the state behind it."""
    stage, worked, ones, first_left, second_left, drawn = state
    chance = chance_of_one(stage, second_left, bundle - worked)
    for second, part in ((1, chance), (0, 1 - chance)):
        right = 1 - drawn * second
        for output, share in ((right, 1 - ERROR), (1 - right, ERROR)):
            yield part * share, (stage, worked + 1, ones + output, first_left, max(0, second_left - second), None)


def chance_of_one(stage, ones_left, left):
    return ONE_AT_FIRST if stage == 1 else Fraction(ones_left, left)


def outputs(bundle, meetings):
    """The distribution of the number of 1s among the outputs, where two 1s meet at so many gates."""
    distribution = [Fraction(1)]
    for gate in range(bundle):
        one = ERROR if gate < meetings else 1 - ERROR
        distribution = [stays * (1 - one) + rises * one for stays, rises in zip(distribution + [0], [0] + distribution)]
    return distribution


def reliability(bundle, restorations):
    """The chance that fewer than a tenth of the last outputs are 1, by the number of 1s behind each stage."""
    by_meetings = [outputs(bundle, meetings) for meetings in range(bundle + 1)]
    both = ONE_AT_FIRST**2
    weights = [comb(bundle, met) * both**met * (1 - both) ** (bundle - met) for met in range(bundle + 1)]
    for _ in range(2 * restorations):
        ones = mixed(weights, by_meetings)
        weights = mixed(ones, [meetings_of(bundle, count) for count in range(bundle + 1)])
    return sum(chance for count, chance in enumerate(mixed(weights, by_meetings)) if 10 * count < bundle)


def meetings_of(bundle, ones):
    """The distribution of the gates at which two 1s meet, where so many of both bundles of inputs are 1."""
    ways = [comb(ones, met) * comb(bundle - ones, ones - met) if met <= ones else 0 for met in range(bundle + 1)]
    return [Fraction(way, comb(bundle, ones)) for way in ways]


def mixed(weights, rows):
    return [sum(weight * row[column] for weight, row in zip(weights, rows)) for column in range(len(rows[0]))]


def questions(bundle, restorations):
    value = reliability(bundle, restorations)
    published = "0.28641904638485" if (bundle, restorations) == (20, 1) else ""
    yield ask("Pmax=?", "reliable", value, STAGES, published=published)
    yield ask("P>=0.6", "reliable", value, STAGES)


def known_as(bundle, restorations):
    instance = " 20-1" if (bundle, restorations) == (20, 1) else ""
    return Known(f"`nand`{instance}: `reliable`", kind=ENCODING)
