"""Tests of what the gallery's models pay: python3 -m unittest gallery/test_rewards.py"""

import unittest
from fractions import Fraction

from gallery.collected import faults_of_width
from gallery.families import agrees, brp, crowds, die, zeroconf
from gallery.rewards import EXPECTED, Worked, is_right, paying, rewards_of, texts
from toolbox.expected import expected_values, turns_paid
from toolbox.rewards import INFINITE, read_rewards, text_of


class Known(unittest.TestCase):
    def test_known_values(self):
        for row in EXPECTED:
            with self.subTest(row):
                _, problem, rewards = paying(row)
                self.assertTrue(is_right(row, expected_values(problem, turns_paid(rewards))))

    def test_what_is_right(self):
        row = EXPECTED[0]
        self.assertTrue(is_right(row, [Fraction(11, 3)]))
        self.assertFalse(is_right(row, [Fraction(11, 3) + Fraction(1, 10**9)]))
        rounded = row._replace(value="3.667")
        self.assertTrue(is_right(rounded, [Fraction(11, 3)]))
        self.assertFalse(is_right(rounded, [Fraction(11, 3) + Fraction(1, 500)]))

    def test_the_cost_of_an_address(self):
        """The source's formula, of four probes and addresses of which 1000 in 65024 are used."""
        model, pays = zeroconf.model(4, 1000), zeroconf.rewards(4, 1000)["cost"]
        _, problem, _ = paying(next(row for row in EXPECTED if row.family == "zeroconf"))
        cost = expected_values(problem, turns_paid(rewards_of(model, pays)))[0]
        self.assertEqual(cost, zeroconf.cost(4, Fraction(1000, 65024)))


    def test_closed_forms(self):
        failed, again = 1 - (1 - brp.FRAME_LOST) * (1 - brp.ANSWER_LOST), {}
        for frames, retries in ((16, 2), (64, 5)):
            lost = failed ** (retries + 1)
            again[frames, retries] = (1 - lost) / (1 - failed) * (1 - (1 - lost) ** frames) / lost
        for row in EXPECTED:
            if row.structure == "tries":
                self.assertTrue(agrees(again[row.sizes], row.value))
            if row.structure == "paths":
                self.assertEqual(Fraction(row.value), 2 / crowds.chances(*row.sizes[:2])[1])

    def test_widths(self):
        """Two units apart for each expected turn and two more, and no wider."""
        known = Worked(0, Fraction(2), 2, True)
        line = "state 0 lower 1.9 upper 2.{} solved Bracket"
        self.assertEqual(faults_of_width(line.format(5), known), [])
        self.assertTrue(faults_of_width(line.format(6), known))
        infinite = known._replace(value=INFINITE)
        never = "state 0 lower infinite upper infinite solved Bracket"
        self.assertEqual(faults_of_width(never, infinite), [])
        self.assertTrue(faults_of_width(never, known))
        self.assertTrue(faults_of_width("state 0 lower 1.9 upper infinite solved Bracket", known))
        self.assertTrue(faults_of_width(line.format(5), infinite))


class Texts(unittest.TestCase):
    def test_a_die(self):
        found = texts(die.model(6), die, (6,))
        self.assertEqual(found["tosses"], "rewards 13 7\n" + "".join(f"{state} 1\n" for state in range(7)))

    def test_texts_are_read(self):
        for row in EXPECTED:
            _, problem, rewards = paying(row)
            text = text_of(rewards).encode("ascii")
            self.assertEqual(read_rewards(text, list(map(len, problem.choices))), rewards)
