"""The second audit judges certificates of expected rewards as the first one in Python does, and reads what pays and
what is asked by the same rules."""

import random
from fractions import Fraction

from gallery.families import coin, die
from toolbox.certificates import decimal
from toolbox.exact import Problem
from toolbox.model import HALF, Model, ask
from toolbox.reward_certificates import Audit, Refused, certificate_of, certificate_text, read_certificate
from toolbox.rewards import Refused as RefusedRewards
from toolbox.rewards import Rewards, read_rewards, text_of
from toolbox.testing import InFolder, call_tool, load
from tools.test_expected import DUEL_CERTIFICATE, REFUSED, WAITING, drawn_game, duel_game, each_turn, model_of, mutated
from tools.test_rewards import FAULTS

from damaged import FIELDS, damaged

reaudit = load("reaudit")
GAMES, MUTANTS, DAMAGED, CHANGED = 60, 20, 8, 300
ODD = (*FIELDS, "infinite", "inf", "0.0", "1.0", "1", "00", "1e3", "rewards", "15", "16", "1000000000000001")
FORMULA = '<<anna>> Rmax=? [ F "goal" ]'


def gambler():
    rule = {4: None} | {money: [[(HALF, money - 1), (HALF, money + 1)]] for money in range(1, 10)} | {0: [], 10: []}
    return Model(4, rule.get, {"over": lambda money: money in (0, 10)})


def waiting():
    """One waits for nothing, or goes on for 2."""
    return model_of(WAITING), Rewards([Fraction(0)] * 2, [[Fraction(0), Fraction(2)], [Fraction(0)]])


def per_turn(model):
    return model, each_turn(model, lambda name: 1)


def halves():
    """A state and its choice pay one half each."""
    return model_of({"here": [[(1, "goal")]], "goal": []}), Rewards([HALF, Fraction(0)], [[HALF], [Fraction(0)]])


TOSSES = {"toss": [[(HALF, "toss"), (HALF, "goal")]], "goal": []}

# a model with its rewards, a formula, the places of a unit, and what a line says behind the state
WORKED = [
    (lambda: per_turn(model_of(TOSSES)), 'Rmax=? [ F "goal" ]', 0, "lower 2 upper 2 reaudited Bracket"),
    (lambda: per_turn(die.model(6)), 'Rmin=? [ F "done" ]', 14,
     "lower 3.66666666666666 upper 3.66666666666667 reaudited Bracket"),
    (lambda: per_turn(die.model(6)), 'R{"tosses"}max=? [ F "done" ]', 1, "lower 3.6 upper 3.7 reaudited Bracket"),
    (lambda: per_turn(die.model(6)), 'R>=11/3 [ F "done" ]', 14,
     "lower 3.66666666666666 upper 3.66666666666667 reaudited Undecided"),
    (lambda: per_turn(gambler()), 'Rmax=? [ F "over" ]', 13,
     "lower 24.0000000000000 upper 24.0000000000000 reaudited Bracket"),
    (waiting, 'Rmin=? [ F "goal" ]', 2, "lower 2.00 upper 2.00 reaudited Bracket"),
    (waiting, 'Rmax=? [ F "goal" ]', 2, "lower infinite upper infinite reaudited Bracket"),
    (waiting, 'R<=2 [ F "goal" ]', 0, "lower infinite upper infinite reaudited False"),
    (waiting, 'R>1 [ F "goal" ]', 0, "lower 2 upper 2 reaudited True"),
    (waiting, 'R>=2 [ F "goal" ]', 0, "lower 2 upper 2 reaudited True"),
    (waiting, 'R{"pay"}>2.0 [ F "goal" ]', 0, "lower 2 upper 2 reaudited False"),
    (waiting, '<<p0>> R<=2 [ F "goal" ]', 0, "lower 2 upper 2 reaudited True"),
    (waiting, '<<>> R<1e15 [ F "goal" ]', 0, "lower infinite upper infinite reaudited False"),
    (lambda: per_turn(coin.model(2, 2)), 'Rmax=? [ F "finished" ]', 0, "lower 75 upper 75 reaudited Bracket"),
    (lambda: per_turn(coin.model(2, 2)), 'Rmin=? [ F "finished" ]', 0, "lower 48 upper 48 reaudited Bracket"),
    (halves, 'Rmax=? [ F "goal" ]', 0, "lower 0 upper 2 reaudited Bracket"),
    (halves, 'Rmax=? [ F "goal" ]', 1, "lower 1.0 upper 1.0 reaudited Bracket"),
]

# A bound of the duel, whose lower value is 4, the upper value of its first state in a certificate, and the verdict.
VERDICTS = [
    ("R>=4", "4.0", "True"),
    ("R>4", "4.0", "False"),
    ("R>4", "infinite", "Undecided"),
    ("R>=1e15", "infinite", "Undecided"),
    ("R>=4", "infinite", "True"),
    ("R<=4", "4.0", "True"),
    ("R<4", "4.0", "False"),
    ("R<5", "infinite", "Undecided"),
    ("R<4", "infinite", "False"),
]

# formulas and why they are refused
NO_FORMULA = [
    ('Pmax=? [ F "goal" ]', "a formula of probabilities, which takes no rewards"),
    ('P>=0.5 [ F<=3 "goal" ]', "a formula of probabilities, which takes no rewards"),
    ('P>=2 [ F "goal" ]', "a threshold above 1"),
    ('Rmax=? [ F<=3 "goal" ]', "<= in place of a label"),
    ('Rmax=? [ G "goal" ]', "G in place of F"),
    ('Rmax=? [ X "goal" ]', "X in place of F"),
    ('Rmax=? [ C<=3 ]', "C in place of F"),
    ('Rmax=? [ true U "goal" ]', "true in place of F"),
    ('Rmax=? [ F Rmax=? [ F "goal" ] ]', "Rmax in place of a label"),
    ('R=? [ F "goal" ]', "neither R with a threshold nor Rmax=? nor Rmin=?"),
    ('R{"x"}=? [ F "goal" ]', "neither R with a threshold nor Rmax=? nor Rmin=?"),
    ('R{x}max=? [ F "goal" ]', "x in place of a name in quotes"),
    ('R{"x"max=? [ F "goal" ]', "max in place of }"),
    ('Rmax{"x"}=? [ F "goal" ]', "{ in place of =?"),
    ('R{"x"}max>=1 [ F "goal" ]', ">= in place of =?"),
    ('R<=1000000000000000.1 [ F "goal" ]', "a threshold above 10^15"),
    ('<<c>> Rmax=? [ F "goal" ]', "a player of the coalition is not in the owner file"),
]


class InGame(InFolder):
    """A folder with the files of a game and of what it pays."""

    def written(self, model, rewards, places=0):
        model.write(self.folder / "m")
        own = ["--own", str(self.folder / "m.own")] if model.players else []
        paid = self.write("m.rewards", text_of(rewards))
        return [str(self.folder / "m.tra"), str(self.folder / "m.lab")], [*own, "--rewards", str(paid)]

    def call(self, words, formula, text, options):
        return call_tool("reaudit", *words, formula, self.write("certificate", text), *options)


def question_of(model, formula):
    """The question of a formula of rewards, as the exact values are asked for."""
    sign, goal = reaudit.Formula(formula, True), formula.split("F ")[1].split('"')[1]
    bound = f"{sign.bound}=?" if sign.threshold is None else f"P{sign.bound}0"
    coalition = None if sign.coalition is None else tuple(sign.coalition)
    return Problem(model, ask(bound, goal, coalition=coalition))


class Worked(InGame):
    def test_rows(self):
        for make, formula, places, said in WORKED:
            with self.subTest(formula=formula, said=said):
                model, rewards = make()
                text = certificate_text(certificate_of(question_of(model, formula), rewards, places))
                words, options = self.written(model, rewards)
                _, output, errors = self.call(words, formula, text, options)
                self.assertEqual((output, errors), (f"state 0 {said}\n", ""))

    def test_faults(self):
        """The causes are those of the first audit, which the rows of its test name."""
        words, options = self.written(*duel_game())
        self.assertEqual(self.call(words, FORMULA, DUEL_CERTIFICATE, options)[0], 0)
        for old, new, cause in REFUSED:
            with self.subTest(cause=cause, new=new):
                text = DUEL_CERTIFICATE.replace(old, new, 1)
                ended = self.call(words, FORMULA, text, options)
                self.assertEqual(ended, (8, f"refused cert line {cause}\n", ""))

    def test_verdicts(self):
        words, options = self.written(*duel_game())
        for bound, upper, verdict in VERDICTS:
            with self.subTest(bound=bound, upper=upper):
                text = DUEL_CERTIFICATE.replace("1 2 4.0", f"1 2 {upper}")
                formula = f'<<{"anna" if ">" in bound else "bert"}>> {bound} [ F "goal" ]'
                status = {"True": 0, "False": 1, "Undecided": 2}[verdict]
                line = f"state 0 lower 4.0 upper {upper} reaudited {verdict}\n"
                self.assertEqual(self.call(words, formula, text, options), (status, line, ""))

    def test_formulas(self):
        words, options = self.written(*duel_game())
        for formula, cause in NO_FORMULA:
            with self.subTest(formula=formula):
                ended = self.call(words, formula, DUEL_CERTIFICATE, options)
                self.assertEqual(ended, (4, "", f"reaudit: formula: line 1: {cause}\n"))
        for formula in (FORMULA, 'R{"x"}min=? [ F "goal" ]', "R<1 [ F true ]"):
            with self.subTest(formula=formula):
                said = "reaudit: formula: line 1: neither P with a threshold nor Pmax=? nor Pmin=?\n"
                self.assertEqual(self.call(words, formula, DUEL_CERTIFICATE, options[:2]), (4, "", said))
        self.assertEqual(call_tool("reaudit", *words, FORMULA, *options)[:2], (3, ""))


class Texts(InGame):
    """Files of rewards are read as the program reads them."""

    def line_of(self, text, counts):
        """The line at which the second audit refuses a file of rewards; None where it takes it."""
        path = self.folder / "drawn.rewards"
        path.write_bytes(text.encode("latin-1"))
        try:
            reaudit.read_rewards(str(path), [[()] * count for count in counts])
        except reaudit.Ended as fault:
            self.assertEqual(fault.args[0], 4)
            return reaudit.place[1]
        return None

    def test_faults(self):
        for text, line, _ in FAULTS:
            with self.subTest(text):
                self.assertEqual(self.line_of(text, [2, 1]), line)
        self.assertIsNone(self.line_of("rewards 2 3\r\n0 1 1e15\n1 0\t1/3\n0 0.5\n\n", [2, 1]))

    def test_damaged(self):
        draw, lines = random.Random("rewards"), []
        for number in range(CHANGED):
            model, rewards = drawn_game(draw)
            text, counts = damaged(draw, text_of(rewards), False, ODD), list(map(len, model.choices))
            try:
                read_rewards(text.encode("latin-1"), counts)
                line = None
            except RefusedRewards as refused:
                line = refused.args[0]
            with self.subTest(number=number, text=text):
                self.assertEqual(self.line_of(text, counts), line)
            lines.append(line)
        self.assertTrue(len(lines) / 20 < lines.count(None) < len(lines) / 2, lines.count(None))

    def test_no_file(self):
        words, _ = self.written(*duel_game())
        none = self.folder / "none"
        said = f"reaudit: cannot read {none}: no such file or directory\n"
        self.assertEqual(self.call(words, FORMULA, DUEL_CERTIFICATE, ["--rewards", none]), (5, "", said))


class Alike(InGame):
    """The second audit says of certificates of drawn games what the first one does."""

    def first(self, problem, rewards, text):
        try:
            certificate = read_certificate(text, len(problem))
            Audit(problem, rewards, certificate).judge()
        except Refused as refused:
            return str(refused)
        tables = (certificate.lower, certificate.upper)
        return " ".join(["state 0", *map(decimal, (table[0] for table in tables), [certificate.places] * 2)])

    def second(self, question, text):
        path = self.folder / "certificate"
        path.write_text(text, encoding="utf-8")
        try:
            entries, places = reaudit.paid_entries_of(str(path), len(question.game))
            reaudit.judge_paid(question, places, entries)
        except reaudit.Ended as ended:
            return ended.args[1]
        line = reaudit.report(question, entries, places)[1].split()
        self.assertEqual(line[6:], ["reaudited", "Bracket"])
        return " ".join([*line[:2], line[3], line[5]])

    def test_drawn_games(self):
        draw, counts = random.Random("changed"), {"state": 0, "refused": 0}
        for number in range(GAMES):
            model, rewards = drawn_game(draw)
            formula = draw.choice(("<<a>> Rmax=?", "<<b>> Rmin=?", "<<b>> Rmax=?", "Rmax=?", "Rmin=?"))
            problem = question_of(model, f'{formula} [ F "goal" ]')
            words, options = self.written(model, rewards)
            question = reaudit.Question(*words, f'{formula} [ F "goal" ]', options[1], options[3])
            made = certificate_of(problem, rewards, draw.choice((0, 1, 2, 6)))
            texts = [certificate_text(made), *(certificate_text(mutated(draw, made)) for _ in range(MUTANTS))]
            texts += [damaged(draw, draw.choice(texts), False, ODD) for _ in range(DAMAGED)]
            for place, text in enumerate(texts):
                with self.subTest(number=number, place=place, text=text):
                    said = self.first(problem, rewards, text)
                    self.assertEqual(self.second(question, text), said)
                    counts[said.split()[0]] += 1
            self.assertIn("state", self.first(problem, rewards, texts[0]))
        self.assertTrue(min(counts.values()) > sum(counts.values()) / 6, counts)
