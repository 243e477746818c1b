"""Games that pay, and what `audit --rewards` has to write of them, worked out apart from the program."""

from dataclasses import dataclass
from fractions import Fraction
from itertools import product
from math import floor

from answers import initial_of, read_files, status_of
from core import COALITIONS, SIGNS, drawn_game, drawn_state, looped_game
from gallery.solved import verdict_by
from spelling import joined, spelt_number
from texts import MOST_BYTES, FormulaReader, Refusal, read_formula
from toolbox.certificates import decimal
from toolbox.exact import Problem
from toolbox.expected import turns_paid, values_of_pair
from toolbox.formulas import TRUE
from toolbox.reward_certificates import Audit, read_certificate
from toolbox.reward_certificates import Refused as NoCertificate
from toolbox.reward_formulas import RewardFormula, RewardReader
from toolbox.rewards import INFINITE, MOST_REWARD, Rewards, number_of, read_rewards
from toolbox.rewards import Refused as NoRewards

LITTLE = tuple(map(Fraction, ("0", "0", "0", "1", "1", "2", "5/2", "1/3", "7")))
ODD = tuple(map(Fraction, ("0", "0", "1/7", "1e-23", "123e-16", "0.000001", "1e6", "123456789012", "1e14", "1e15")))
NAMES = (None, None, None, "x", "a.b", "max", "}")
ENDINGS = ("tra", "lab", "own", "rewards")


# Drawn


def drawn_rewards(draw, model):
    """Rewards of the states and of the choices of a model, of which many are 0."""
    pays = draw.choice((LITTLE, LITTLE, LITTLE, (*LITTLE, *ODD), (Fraction(0), draw.choice(ODD))))
    states = [draw.choice(pays) if draw.random() < 0.5 else Fraction(0) for _ in model.choices]
    return Rewards(states, [[draw.choice(pays) for _ in choices] for choices in model.choices])


def drawn_model(draw):
    """A small game of two players, all of whose states are initial; in half of them play can stay."""
    return looped_game(draw, 4, 5) if draw.random() < 0.5 else drawn_game(draw, 2, 6)


def drawn_question(draw, model, rewards):
    """A formula of rewards, and the value of each state; a threshold is a value, or next to it."""
    goal = ("label", "one") if draw.random() < 0.6 else drawn_state(draw, 0, ())
    said = {"coalition": draw.choice((("a",), ("b",), *COALITIONS)), "name": draw.choice(NAMES)}
    bound = draw.choice(("Rmax", "Rmin", *SIGNS))
    formula = RewardFormula(bound=bound, limit=None, path="U", left=TRUE, right=goal, **said)
    values = values_of(Problem(model, formula), turns_paid(rewards))
    if bound in SIGNS:
        limit = drawn_limit(draw, [value for value in values if value < INFINITE])
        formula = RewardFormula(bound=bound, limit=limit, path="U", left=TRUE, right=goal, **said)
    return formula, values


def drawn_limit(draw, values):
    """A threshold that is one of these values, to some places, or a little off it."""
    unit = 10 ** draw.choice((0, 3, 9, 12, 14, 15))
    value = Fraction(draw.choice(values or [1])).limit_denominator(10**23)
    near = Fraction(floor(value * unit) + draw.choice((0, 0, 1)), unit)
    limit = value if max(value.numerator, value.denominator) < 10**23 and draw.random() < 0.4 else near
    return max(Fraction(0), min(limit, Fraction(MOST_REWARD)))


def spelt_rewards(draw, rewards):
    """The file of these rewards, with some of 0, and the lines in some order."""
    spots = [((state,), reward) for state, reward in enumerate(rewards.states)]
    for state, paid in enumerate(rewards.choices):
        spots += [((state, number), reward) for number, reward in enumerate(paid)]
    lines = [
        f"{' '.join(map(str, spot))} {spelt_number(draw, reward)}"
        for spot, reward in spots
        if reward or draw.random() < 0.1
    ]
    if draw.random() < 0.4:
        draw.shuffle(lines)
    return joined(draw, [f"rewards {len(rewards.states)} {len(lines)}", *lines])


def values_of(problem, paid):
    """The value of each state, over all pairs of strategies without memory: the best least is the least best."""
    mine, theirs = strategies_of(problem, True), strategies_of(problem, False)
    pairs = [[list(map(sum, zip(one, other))) for other in theirs] for one in mine]
    table = [[values_of_pair(problem, paid, pair) for pair in row] for row in pairs]
    best_least = [max(column) for column in zip(*([min(state) for state in zip(*row)] for row in table))]
    least_best = [min(column) for column in zip(*([max(state) for state in zip(*column)] for column in zip(*table)))]
    if best_least != least_best:
        raise ValueError(f"no value: {best_least} {least_best}")
    return best_least


def strategies_of(problem, side):
    """All strategies of a side, each with 0 where the other one moves and at goals."""
    moves = enumerate(zip(problem.choices, problem.maximises))
    asked = [(choices, mover == side and state not in problem.goals) for state, (choices, mover) in moves]
    return list(product(*(range(len(choices)) if is_asked else [0] for choices, is_asked in asked)))


# Read and audited


class PaidReader(RewardReader):
    """Reads a formula of rewards, and refuses it with the causes of the program."""

    refuse = FormulaReader.refuse

    def limit_of(self, token):
        try:
            number = number_of(token.encode("ascii"))
        except ValueError as fault:
            self.refuse(f"BadNumber {fault}", "")
        return number if number <= MOST_REWARD else self.refuse("ThresholdOutOfRange", "")


def read_paid(text):
    """The formula that a text spells; one of probabilities is read as it is without rewards."""
    if len(text) > MOST_BYTES:
        raise Refusal("formula", MOST_BYTES, "TooLong")
    start = PaidReader(text)
    if start.token() == "<<":
        start.coalition()
    return read_formula(text) if start.token() in ("P", "Pmax", "Pmin") else PaidReader(text).whole()


@dataclass
class Posed:
    """A formula of rewards about a game, with the rewards and the initial states."""

    problem: Problem
    rewards: Rewards
    formula: RewardFormula
    initial: list


def posed(texts):
    """The question of these texts, or the refusal of the first that is none."""
    files = read_files(*(texts.get(ending) for ending in ENDINGS[:3]))
    try:
        rewards = read_rewards(texts["rewards"].encode("latin-1"), [len(choices) for choices in files.game])
    except NoRewards as fault:
        raise Refusal("rewards", *fault.args) from fault
    formula = read_paid(texts["formula"])
    initial = initial_of(files, formula)
    if not isinstance(formula, RewardFormula):
        raise Refusal("question", 0, "WrongKind")
    return Posed(Problem(files.plain(), formula), rewards, formula, initial)


def certified(question, text):
    """The certificate of a text, which an audit accepts, or its refusal."""
    try:
        certificate = read_certificate(text, len(question.problem))
        Audit(question.problem, question.rewards, certificate).judge()
    except NoCertificate as fault:
        raise Refusal("cert", *fault.args) from fault
    return certificate


def report_of(question, certificate, how):
    """The status and the lines of a report on the initial states, by the values of a certificate."""
    unit, lines, verdicts = 10**certificate.places, [], []
    for state in question.initial:
        bounds = certificate.lower[state], certificate.upper[state]
        verdicts.append(verdict_by(question.formula, *(amount(units, unit) for units in bounds)))
        lower, upper = (decimal(units, certificate.places) for units in bounds)
        lines.append(f"state {state} lower {lower} upper {upper} {how} {verdicts[-1]}\n")
    return status_of(verdicts), "".join(lines)


def amount(units, unit):
    return units if units == INFINITE else Fraction(units, unit)


def paid_audit(texts, certificate):
    """The status and the lines of `audit`, or a refusal."""
    question = posed(texts)
    return report_of(question, certified(question, certificate), "audited")
