"""Expected rewards and their certificates, which the program will be compared with."""

import random
import unittest
from fractions import Fraction
from itertools import product

from gallery.families import coin, die
from toolbox.certificates import decimal
from toolbox.exact import Problem
from toolbox.expected import INFINITE, expected_values, plain_expected, split, turns_paid, values_of_pair
from toolbox.model import HALF, Model, ask
from toolbox.reward_certificates import Audit, Certificate, Refused, certificate_of, certificate_text, read_certificate
from toolbox.rewards import Rewards, no_rewards

GAMES, MUTANTS = 60, 40
PARTS = (HALF, Fraction(1, 3), Fraction(3, 10), Fraction(1, 1000))
PAYS = tuple(map(Fraction, ("0", "0", "0", "1", "2.5", "1/3", "7")))

# two states, at the first of which one waits for nothing or goes on for 2; the second is the goal
WAITING = {"here": [[(1, "here")], [(1, "goal")]], "goal": []}
# At `max` one goes to `min` for 1, or gets 3 and ends with one half. At `min` one ends for 2, or goes back or ends for
# nothing, with one half each. From `trap` there is no way, and who stays at `edge` waits for nothing.
DUEL = {
    "max": [[(1, "min")], [(HALF, "min"), (HALF, "goal")]],
    "min": [[(1, "goal")], [(HALF, "max"), (HALF, "goal")]],
    "goal": [[(1, "edge")]],
    "edge": [[(1, "edge")], [(HALF, "max"), (HALF, "trap")]],
    "trap": [],
}
DUEL_PAYS = {("max", 0): 1, ("max", 1): 3, ("min", 0): 2}
DUEL_CERTIFICATE = """rewards 1 1 5
0 4.0 1 2 4.0 -
1 2.0 - 1 2.0 0
2 0.0 - 0 0.0 -
3 infinite 0 1 infinite -
4 infinite 0 1 infinite -
"""

# an old and a new text of this certificate, and how it is refused
REFUSED = [
    ("rewards 1", "certificate 1", "0 NoCertificate"),
    ("1 1 5", "1 1", "1 BadLine"),
    ("1 1 5", "1 x 5", "1 BadLine"),
    ("1 1 5", "2 16 6", "1 Version"),
    ("1 1 5", "1 16 6", "1 Places"),
    ("1 1 5", "1 1 6", "1 StateCount"),
    ("0 4.0", "0 4.00", "2 BadLine"),
    ("0 4.0", "0 04.0", "2 BadLine"),
    ("0 4.0", "0 4", "2 BadLine"),
    ("0 4.0", "1 4.0", "2 BadLine"),
    ("3 infinite 0 1 infinite", "3 infinite 0 1 7.0", "5 BadLine"),
    ("0 4.0", "0 100000000000000.1", "2 NumberOutOfRange"),
    ("0 4.0 1", "0 4.0 16384", "2 NumberOutOfRange"),
    ("0 1 infinite -\n4", "0 4294967296 infinite -\n4", "5 NumberOutOfRange"),
    ("4 infinite 0 1 infinite -\n", "", "6 MissingLine"),
    ("4 infinite 0 1 infinite -\n", "4 infinite 0 1 infinite -\n5\n", "7 BadLine"),
    ("2 0.0", "2 0.1", "0 Goal state 2"),
    ("0 0.0", "0 infinite", "0 Goal state 2"),
    ("2.0 0", "2.0 -", "0 Reply state 1"),
    ("2.0 0", "2.0 2", "0 Reply state 1"),
    ("3 infinite 0 1 infinite", "3 0.0 0 1 9.0", "0 Leaves state 3 choice 1"),
    ("2 4.0", "2 3.9", "0 Above state 0 choice 1"),
    ("1 2.0 0\n", "1 1.9 0\n", "0 Above state 1 choice 0"),
    ("1 2 4.0", "1 0 4.0", "0 NoStep state 0 choice 0"),
    ("0 4.0 1", "0 4.0 -", "0 Choice state 0"),
    ("0 4.0 1", "0 4.0 0", "0 Short state 0 choice 0"),
    ("1 2.0 - 1 2.0 0", "1 2.1 - 1 2.0 0", "0 Short state 1 choice 0"),
    ("3 infinite 0", "3 infinite -", "0 Choice state 3"),
    ("3 infinite 0 1", "3 infinite 1 1", "0 Away state 3 choice 1"),
]


def model_of(rule, *game):
    """A model of a rule by names, with the goal as a label."""
    return Model(next(iter(rule)), rule.get, {"goal": "goal".__eq__}, *game)


def each_turn(model, pays):
    """Rewards that pay for a turn at each state."""
    rewards = no_rewards(list(map(len, model.choices)))
    return rewards._replace(states=list(map(Fraction, map(pays, model.names))))


def values(model, bound, goal, rewards):
    return expected_values(Problem(model, ask(bound, goal)), turns_paid(rewards))


def duel_game():
    """The model and the rewards of the duel."""
    model = model_of(DUEL, ["anna", "bert"], lambda name: "bert" if name == "min" else "anna")
    rewards = no_rewards(list(map(len, model.choices)))
    for (name, choice), pay in DUEL_PAYS.items():
        rewards.choices[model.names.index(name)][choice] = Fraction(pay)
    return model, rewards


def duel():
    """The problem and the rewards of the duel."""
    model, rewards = duel_game()
    return Problem(model, ask("Pmax=?", "goal", coalition=("anna",))), rewards


class Values(unittest.TestCase):
    def test_a_coin_until_heads(self):
        model = model_of({"toss": [[(HALF, "toss"), (HALF, "goal")]], "goal": []})
        self.assertEqual(values(model, "Pmax=?", "goal", each_turn(model, lambda name: 1)), [2, 0])

    def test_a_die(self):
        model = die.model(6)
        for bound in ("Pmin=?", "Pmax=?"):
            tosses = values(model, bound, "done", each_turn(model, lambda name: 1))
            self.assertEqual(tosses[:3], [Fraction(11, 3), Fraction(8, 3), Fraction(8, 3)])

    def test_a_fair_gambler(self):
        rule = {4: None} | {money: [[(HALF, money - 1), (HALF, money + 1)]] for money in range(1, 10)} | {0: [], 10: []}
        model = Model(4, rule.get, {"over": lambda money: money in (0, 10)})
        found = values(model, "Pmax=?", "over", each_turn(model, lambda money: 1))
        self.assertEqual(found, [money * (10 - money) for money in model.names])

    def test_waiting_for_nothing(self):
        """Who pays little is not paid for staying away for ever."""
        model = model_of(WAITING)
        rewards = Rewards([Fraction(0)] * 2, [[Fraction(0), Fraction(2)], [Fraction(0)]])
        self.assertEqual(values(model, "Pmin=?", "goal", rewards), [2, 0])
        self.assertEqual(values(model, "Pmax=?", "goal", rewards), [INFINITE, 0])

    def test_a_shared_coin(self):
        model = coin.model(2, 2)
        for bound, steps in (("Pmax=?", 75), ("Pmin=?", 48)):
            rewards = each_turn(model, lambda name: 1)
            self.assertEqual(values(model, bound, "finished", rewards)[0], steps)
            plain = plain_expected(Problem(model, ask(bound, "finished")), turns_paid(rewards), 1e-12)
            self.assertAlmostEqual(plain[0], steps)


class Certificates(unittest.TestCase):
    def test_a_duel(self):
        problem, rewards = duel()
        certificate = certificate_of(problem, rewards, 1)
        self.assertEqual(certificate_text(certificate), DUEL_CERTIFICATE)
        self.assertEqual(read_certificate(f"state 0\nformula\n{DUEL_CERTIFICATE}\n", 5), certificate)
        Audit(problem, rewards, certificate).judge()

    def test_faults(self):
        problem, rewards = duel()
        for old, new, cause in REFUSED:
            with self.subTest(cause=cause, new=new):
                self.assertIn(old, DUEL_CERTIFICATE)
                with self.assertRaises(Refused) as caught:
                    text = DUEL_CERTIFICATE.replace(old, new, 1)
                    Audit(problem, rewards, read_certificate(text, 5)).judge()
                self.assertEqual(str(caught.exception), f"refused cert line {cause}")

    def test_a_die(self):
        model = die.model(6)
        problem, rewards = Problem(model, ask("Pmin=?", "done")), each_turn(model, lambda name: 1)
        certificate = certificate_of(problem, rewards, 14)
        Audit(problem, rewards, certificate).judge()
        self.assertEqual(certificate_text(certificate).splitlines()[1], "0 3.66666666666666 - 3 3.66666666666667 0")

    def test_rewards_are_rounded_apart(self):
        """The halves of a state and of its choice count 0 below and 2 above in whole units."""
        model = model_of({"here": [[(1, "goal")]], "goal": []})
        rewards = Rewards([HALF, Fraction(0)], [[HALF], [Fraction(0)]])
        problem = Problem(model, ask("Pmax=?", "goal"))
        for places, lower, upper in ((0, "0", "2"), (1, "1.0", "1.0")):
            made = certificate_of(problem, rewards, places)
            self.assertEqual([decimal(table[0], places) for table in (made.lower, made.upper)], [lower, upper])
        for lower, upper, cause in ((1, 2, "Short state 0 choice 0"), (0, 1, "Above state 0 choice 0")):
            with self.assertRaisesRegex(Refused, cause):
                Audit(problem, rewards, Certificate(0, [lower, 0], [0, None], [1, 0], [upper, 0], [None] * 2)).judge()

    def test_an_upper_value_may_be_missing(self):
        problem, rewards = duel()
        text = DUEL_CERTIFICATE.replace("2 4.0 -", "2 infinite -").replace("1 2.0 0", "1 infinite -")
        Audit(problem, rewards, read_certificate(text, 5)).judge()


# Random games


def drawn_game(draw):
    """A small game whose last state is the goal, and rewards of which half are 0."""
    while True:
        count = draw.randint(2, 5)
        rule = {name: [drawn_choice(draw, count) for _ in range(draw.choice((1, 1, 2, 3)))] for name in range(count)}
        owners = [draw.choice(("a", "b")) for _ in range(count)]
        model = Model(0, rule.get, {"goal": (count - 1).__eq__}, ["a", "b"], owners.__getitem__)
        if (count - 1) in model.names:
            paid = [[draw.choice(PAYS) for _ in choices] for choices in model.choices]
            return model, Rewards([draw.choice(PAYS) for _ in model.names], paid)


def drawn_problem(draw):
    model, rewards = drawn_game(draw)
    return Problem(model, ask("Pmax=?", "goal", coalition=("a",))), rewards


def drawn_choice(draw, count):
    if draw.random() < 0.4:
        return [(1, draw.randrange(count))]
    first, second = draw.choices(range(count), k=2)
    part = draw.choice(PARTS)
    return [(part, first), (1 - part, second)]


def strategies_of(problem, side):
    """All strategies of a side, each with 0 where the other one moves."""
    moves = zip(problem.choices, problem.maximises)
    return list(product(*(range(len(choices)) if mover == side else [0] for choices, mover in moves)))


def values_by_pairs(problem, paid):
    """The best least, and the least best, over all pairs of strategies without memory."""
    mine, theirs = strategies_of(problem, True), strategies_of(problem, False)
    table = [[values_of_pair(problem, paid, list(map(sum, zip(one, other)))) for other in theirs] for one in mine]
    best_least = [max(least) for least in zip(*([min(state) for state in zip(*row)] for row in table))]
    least_best = [min(best) for best in zip(*([max(state) for state in zip(*column)] for column in zip(*table)))]
    return best_least, least_best


def mutated(draw, certificate):
    """A certificate with one entry changed."""
    column = draw.choice(("lower", "choices", "ranks", "upper", "replies"))
    table = list(getattr(certificate, column))
    state = draw.randrange(len(table))
    if column in ("lower", "upper"):
        near = 0 if table[state] == INFINITE else table[state] + draw.choice((-1, 1, 5, 10**6))
        table[state] = draw.choice((INFINITE, 0, near))
    else:
        table[state] = draw.randrange(4)
    return certificate._replace(**{column: table})


class RandomGames(unittest.TestCase):
    def test_games(self):
        """The values are those of all pairs; and a certificate that is accepted, made or mutated, is right."""
        draw, accepted = random.Random(1), 0
        for _ in range(GAMES):
            problem, rewards = drawn_problem(draw)
            paid = turns_paid(rewards)
            found = expected_values(problem, paid)
            self.assertEqual(values_by_pairs(problem, paid), (found, found))
            self.assertEqual({state for state, value in enumerate(found) if value < INFINITE}, split(problem).finite)
            made = certificate_of(problem, rewards, draw.randrange(7))
            self.judge(problem, rewards, made, found)
            self.assertEqual(read_certificate(certificate_text(made), len(found)), made)
            for _ in range(MUTANTS):
                try:
                    self.judge(problem, rewards, mutated(draw, made), found)
                    accepted += 1
                except Refused:
                    pass
        self.assertGreater(accepted, GAMES)

    def judge(self, problem, rewards, certificate, found):
        Audit(problem, rewards, certificate).judge()
        for value, lower, upper in zip(found, certificate.lower, certificate.upper):
            self.assertTrue(lower <= value * 10**certificate.places <= upper)
