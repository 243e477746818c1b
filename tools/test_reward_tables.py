"""Tables and strategies of certificates of expected rewards, and what the induced models pay."""

import json
import random

from toolbox.exact import Problem
from toolbox.expected import expected_values, turns_paid
from toolbox.model import ask
from toolbox.reward_certificates import certificate_of, certificate_text
from toolbox.reward_formulas import rewards_asked
from toolbox.rewards import read_rewards, text_of
from toolbox.testing import InFolder, call_tool
from tools.test_expected import DUEL_CERTIFICATE, drawn_game, duel_game
from tools.test_ways_out import SCHEMA, fits

from answers import read_files

GAMES = 40
FORMULA = '<<anna>> R{"cost"}max=? [ F "goal" ]'
SAID = f"formula {FORMULA}\n{DUEL_CERTIFICATE}"

TABLE = """state,owner,labels,lower,upper,mover,choice,rank
0,anna,init,4.0,4.0,maximiser,1,2
1,bert,,2.0,2.0,minimiser,0,1
2,anna,goal,0.0,0.0,maximiser,,0
3,anna,,infinite,infinite,maximiser,0,1
4,anna,,infinite,infinite,maximiser,0,1
"""

NO_LINE = "no line of state {}: number, lower bound, choice, rank, upper bound, reply"
# an old and a new text of the certificate below its formula, and why it is refused
REFUSED = [
    ("rewards 1 1 5", "rewards 2 1 5", "line 2: 'rewards 2 1 5' is no 'rewards 1 D N' with D up to 15"),
    ("rewards 1 1 5", "rewards 1 16 5", "line 2: 'rewards 1 16 5' is no 'rewards 1 D N' with D up to 15"),
    ("rewards 1 1 5", "rewards 5 1", "line 2: 'rewards 5 1' is no 'rewards 1 D N' with D up to 15"),
    ("rewards 1 1 5", "rewards 1 1 6", f"line 8: {NO_LINE.format(5)}"),
    ("0 4.0", "0 04.0", f"line 3: {NO_LINE.format(0)}"),
    ("0 4.0", "0 4", f"line 3: {NO_LINE.format(0)}"),
    ("0 4.0", "0 100000000000000.1", "line 3: a number of state 0 is above its limit"),
    ("0 4.0", f"0 {'9' * 5000}.0", "line 3: a number of state 0 is above its limit"),
    ("0 4.0", "0 infinite", "line 3: state 0 has an upper bound below a lower one that is infinite"),
]

# formulas, and the text of theirs that is printed
FORMULAS = [
    ('Rmax=?[F"a"]', 'Rmax=? [ F "a" ]'),
    ('R{"x"}min =? [ F !"a" & true ]', 'R{"x"}min=? [ F !"a" & true ]'),
    ('<<p1,p2>> R{"x"}>=11/3 [ F "a" ]', '<<p1,p2>> R{"x"}>=11/3 [ F "a" ]'),
    ("<<>> R<1e15 [ F true ]", "<<>> R<1e15 [ F true ]"),
]
NO_FORMULAS = [
    ('Pmax=? [ F "a" ]', "place 0: 'Pmax' in place of R or Rmax or Rmin"),
    ('R=? [ F "a" ]', "place 1: '=?' in place of >= or > or <= or <"),
    ('R{x}max=? [ F "a" ]', "place 2: 'x' in place of a name in quotes"),
    ("R{", "place 2: the formula ends before a name in quotes"),
    ('Rmax=? [ F<=3 "a" ]', "place 10: '<=' in place of a name"),
    ('Rmax=? [ G "a" ]', "place 9: 'G' in place of F"),
    ('Rmax=? [ F P>=0.5 [ F "a" ] ]', "place 11: a formula inside a formula of rewards"),
    ('R<1e16 [ F "a" ]', "place 2: threshold '1e16': above 10^15"),
    ('R<1e-24 [ F "a" ]', "place 2: threshold '1e-24': finer than 10^-23"),
]


class Formulas(InFolder):
    def test_printed(self):
        for text, printed in FORMULAS:
            with self.subTest(text=text):
                self.assertEqual(rewards_asked(text).formula(), printed)

    def test_refused(self):
        for text, cause in NO_FORMULAS:
            with self.subTest(text=text):
                self.refused(None, cause, rewards_asked, text)


class Duel(InFolder):
    """The duel of `test_expected`: anna collects, and bert pays."""

    def setUp(self):
        super().setUp()
        model, rewards = duel_game()
        model.write(self.folder / "m")
        self.write("m.rewards", text_of(rewards))
        self.cert = self.write("cert", SAID)

    def files(self, *endings):
        return [word for ending in endings for word in (f"--{ending}", str(self.folder / f"m.{ending}"))]

    def test_table(self):
        words = self.files("lab", "own")
        self.assertEqual(call_tool("table", self.cert, *words, "--csv"), (0, TABLE, ""))
        made = json.loads(call_tool("table", self.cert, *words, "--json")[1])
        self.assertTrue(fits(json.loads(SCHEMA.read_text()), made))
        self.assertEqual((made["formula"], made["mirrored"]), (FORMULA, False))
        rows = [",".join(" ".join(cell) if isinstance(cell, list) else "" if cell is None else str(cell)
                         for cell in row.values()) for row in made["states"]]
        self.assertEqual(rows, TABLE.splitlines()[1:])

    def test_whole_units_and_no_upper_bound(self):
        cert = self.write("whole", "rewards 1 0 2\n0 12 0 1 infinite -\n1 0 - 0 0 -\n")
        lines = call_tool("table", cert, "--csv")[1].splitlines()
        self.assertEqual(lines[1:], ["0,12,infinite,maximiser,0,1", "1,0,0,,,0"])

    def test_refused(self):
        for old, new, cause in REFUSED:
            with self.subTest(new=new[:50]):
                cert = self.write("changed", SAID.replace(old, new, 1))
                self.assertEqual(call_tool("table", cert), (4, "", f"table: {cert}: {cause}\n"))
        cert = self.write("changed", SAID.replace(FORMULA, 'Pmax=? [ F "goal" ]'))
        said = "table: formula: place 0: 'Pmax' in place of R or Rmax or Rmin\n"
        self.assertEqual(call_tool("table", cert), (4, "", said))

    def test_strategies(self):
        for side, text in (("maximiser", "0:1\n2:0\n3:0\n4:0\n"), ("minimiser", "1:0\n")):
            words = [*self.files("tra", "own"), "--side", side, "--prism-actions"]
            self.assertEqual(call_tool("strategy", self.cert, *words), (0, text, ""))
        alone = self.write("alone", DUEL_CERTIFICATE)
        said = f"strategy: {alone}: line 1: no formula stands above; --formula says who moves\n"
        self.assertEqual(call_tool("strategy", alone, *words), (4, "", said))
        self.assertEqual(call_tool("strategy", alone, *words, "--formula", FORMULA), (0, "1:0\n", ""))

    def test_induced_rewards(self):
        words = [*self.files("tra", "lab", "own", "rewards"), "--side"]
        for side, text in (
            ("maximiser", "rewards 5 2\n0 0 3\n1 0 2\n"),
            ("minimiser", "rewards 5 3\n0 0 1\n0 1 3\n1 0 2\n"),
        ):
            out = self.folder / side
            names = "".join(f"{out}.{ending}\n" for ending in ("tra", "lab", "own", "rewards"))
            self.assertEqual(call_tool("strategy", self.cert, *words, side, "--induced", out), (0, names, ""))
            self.assertEqual((self.folder / f"{side}.rewards").read_text(), text)
        self.assertEqual(call_tool("strategy", self.cert, *words, side, "--storm-json")[:2], (3, ""))
        for text, cause in (
            ("rewards 5 1\n0 9 1\n", "line 2: ChoiceOutOfRange"),
            ("rewards 5 1\n", "LineCount read 0 stated 1"),
        ):
            name = self.write("m.rewards", text)
            ended = call_tool("strategy", self.cert, *words, side, "--induced", out)
            self.assertEqual(ended, (4, "", f"strategy: {name}: {cause}\n"))


class Drawn(InFolder):
    def test_induced_models(self):
        """What is expected in the induced models of drawn games keeps the bounds of the certificate at each state."""
        draw = random.Random("induced")
        for number in range(GAMES):
            model, rewards = drawn_game(draw)
            model.write(self.folder / "m")
            made = certificate_of(Problem(model, ask("Pmax=?", "goal", coalition=("a",))), rewards, draw.randrange(7))
            cert = self.write("cert", f'formula <<a>> Rmax=? [ F "goal" ]\n{certificate_text(made)}')
            words = [f"--{ending}={self.folder / 'm'}.{ending}" for ending in ("tra", "lab", "own")]
            paid = self.write("m.rewards", text_of(rewards))
            words += [f"--rewards={paid}", f"--induced={self.folder / 'out'}", "--side"]
            for side in ("maximiser", "minimiser"):
                with self.subTest(number=number, side=side):
                    status, _, errors = call_tool("strategy", cert, *words, side)
                    self.assertEqual((status, errors), (0, ""))
                    for value, lower, upper in zip(self.expected_of_files(), made.lower, made.upper):
                        units = value * 10**made.places
                        self.assertTrue(units >= lower if side == "maximiser" else units <= upper)

    def expected_of_files(self):
        """What is expected at each state of the model that was written."""
        names = [self.folder / f"out.{ending}" for ending in ("tra", "lab", "own")]
        plain = read_files(*(name.read_text() for name in names)).plain()
        rewards = read_rewards((self.folder / "out.rewards").read_bytes(), list(map(len, plain.choices)))
        return expected_values(Problem(plain, ask("Pmax=?", "goal", coalition=("a",))), turns_paid(rewards))
