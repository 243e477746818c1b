"""The second audit says what `stogame audit` says about the gallery's certificates, a thousand changed ones, and
damaged models and formulas. About bounded steps it says what `stogame check` says."""

import random
import re
import sys
from functools import lru_cache
from unittest import mock

from toolbox.testing import CERTIFICATE, FORMULA, TOOLS, InFolder, call_tool, certified_models, certified_questions
from toolbox.testing import load, needs_program, program, run, stepped_questions

import core
import limits
from certificates import change
from damaged import FIELDS, certificate_for, damaged, drawn_texts, spoken

CHANGED = 1000
DAMAGED, FEW = 200, 4
MOST_STATES = 400
reaudit = load("reaudit")
read_game = lru_cache(maxsize=None)(reaudit.read_game)

GAME = (
    "4 6 9\n0 0 1 1\n0 1 2 0.65\n0 1 3 0.35\n1 0 2 1/2\n1 0 3 5e-1\n1 1 2 0.2\n1 1 3 0.8\n2 0 2 1\n3 0 3 1\n",
    '0="init" 1="goal"\n0: 0\n2: 1\n',
    '0="p1" 1="p2"\n1: 1\n',
)
HEAD, *ENTRIES = CERTIFICATE.splitlines()

# Each row has a formula, a line of the certificate, what replaces it, and what is written.
WORKED = [
    (FORMULA, 0, ENTRIES[0], "state 0 lower 0.650000000000000 upper 0.650000000000000 reaudited True"),
    ('<<p1>> P>0.65 [ F "goal" ]', 0, ENTRIES[0],
     "state 0 lower 0.650000000000000 upper 0.650000000000000 reaudited False"),
    ('<<p1>> Pmax=? [ true U "goal" & !"init" ]', 0, ENTRIES[0],
     "state 0 lower 0.650000000000000 upper 0.650000000000000 reaudited Bracket"),
    ('<<p1>> P<1 [ G !"goal" ]', 0, ENTRIES[0],
     "state 0 lower 0.350000000000000 upper 0.350000000000000 reaudited True"),
    (FORMULA, 0, "0 0.500000000000000 1 1 0.700000000000000 -",
     "state 0 lower 0.500000000000000 upper 0.700000000000000 reaudited Undecided"),
    (FORMULA, 0, "0 0.650000000000000 0 1 0.650000000000000 -", "refused cert line 0 Short state 0 choice 0"),
    (FORMULA, 0, "0 0.650000000000000 - 1 0.650000000000000 -", "refused cert line 0 Choice state 0"),
    (FORMULA, 0, "0 0.650000000000000 1 1 0.640000000000000 -", "refused cert line 0 Above state 0 choice 1"),
    (FORMULA, 1, "1 0.200000000000000 - 1 0.200000000000000 0", "refused cert line 0 Reply state 1"),
    (FORMULA, 1, "1 0.200000000000000 - 1 0.100000000000000 1", "refused cert line 0 NoReply state 1"),
    (FORMULA, 2, "2 1.000000000000000 - 0 0.900000000000000 -", "refused cert line 0 Goal state 2"),
    (FORMULA, 2, "2 0.900000000000000 - 0 1.000000000000000 -", "refused cert line 0 Short state 0 choice 1"),
    (FORMULA, 3, "3 0.100000000000000 0 0 1.000000000000000 0", "refused cert line 0 Above state 0 choice 1"),
    (FORMULA, 3, "3 0.000000000000000 - 0 1.100000000000000 -", "refused cert line 5 NumberOutOfRange"),
    (FORMULA, 3, "3 0.000000000000000 - 0 1.1 -", "refused cert line 5 BadLine"),
    (FORMULA, 3, "", "refused cert line 5 MissingLine"),
]

# Each row has a formula with a bound on the steps, and what is written.
STEPPED = [
    ('<<p1>> P>=0.6 [ F<=1 "goal" ]', "state 0 lower 0.650000000000000 upper 0.650000000000000 steps 1 True"),
    ('<<p1>> P<0.6 [ F<=1 "goal" ]', "state 0 lower 0.000000000000000 upper 0.000000000000000 steps 1 True"),
    ('<<p1>> P<0.6 [ F<=2 "goal" ]', "state 0 lower 0.500000000000000 upper 0.500000000000000 steps 2 True"),
    ('<<p2>> Pmax=? [ true U<=0 "goal" ]', "state 0 lower 0.000000000000000 upper 0.000000000000000 steps 0 Bracket"),
    ('Pmax=? [ "goal" U<=007 "goal" ]', "state 0 lower 0.000000000000000 upper 0.000000000000000 steps 7 Bracket"),
    ('Pmax=? [ "init" U<=1000000 "goal" ]',
     "state 0 lower 0.650000000000000 upper 0.650000000000000 steps 1000000 Bracket"),
    ('Pmin=? [ X !"goal" ]', "state 0 lower 0.350000000000000 upper 0.350000000000000 steps 1 Bracket"),
    ('Pmin=? [ X true ]', "state 0 lower 1.000000000000000 upper 1.000000000000000 steps 1 Bracket"),
    ('P>=0.5 [ X "init" ]', "state 0 lower 0.000000000000000 upper 0.000000000000000 steps 1 False"),
]


def call(*words):
    return call_tool("reaudit", *words)


class Worked(InFolder):
    """These rows about the game of two players were worked out by hand."""

    def words(self, formula):
        names = [str(self.write(name, text)) for name, text in zip(("m.tra", "m.lab", "m.own"), GAME)]
        return [*names[:2], formula, str(self.folder / "certificate"), "--own", names[2]]

    def test_rows(self):
        for formula, place, entry, line in WORKED:
            with self.subTest(formula=formula, entry=entry):
                entries = [*ENTRIES[:place], entry, *ENTRIES[place + 1 :]]
                self.write("certificate", "\n".join([HEAD, *entries, ""]))
                _, output, errors = call(*self.words(formula))
                self.assertEqual((output, errors), (line + "\n", ""))

    def test_steps(self):
        for formula, line in STEPPED:
            with self.subTest(formula=formula):
                words = self.words(formula)
                self.assertEqual(call(*words[:3], *words[4:])[1:], (line + "\n", ""))

    def test_each_step_is_rounded(self):
        """In a chain that stays with one third at each state no value is a whole number of units."""
        words = [
            str(self.write("m.tra", "3 5\n0 0 1/3\n0 1 2/3\n1 1 1/3\n1 2 2/3\n2 2 1\n")),
            str(self.write("m.lab", '0="init" 1="goal"\n0: 0\n2: 1\n')),
        ]
        for steps, low, high in ((1, "0.0", "0.0"), (2, "0.444444444444444", "0.444444444444445"),
                                 (3, "0.740740740740740", "0.740740740740741")):
            with self.subTest(steps=steps):
                line = f"state 0 lower {low:0<17} upper {high:0<17} steps {steps} Bracket\n"
                self.assertEqual(call(*words, f'Pmax=? [ F<={steps} "goal" ]')[1], line)

    def test_a_rank_that_does_not_fall(self):
        """The maximiser may stay at state 0, or go to the goal, state 1:
        only one of the choices of value 1 gets there."""
        words = [
            str(self.write("m.tra", "2 3 3\n0 0 0 1\n0 1 1 1\n1 0 1 1\n")),
            str(self.write("m.lab", '0="init" 1="goal"\n0: 0\n1: 1\n')),
        ]
        for first, second, line in (
            (
                "1.000000000000 1 1",
                "1.000000000000",
                "state 0 lower 1.000000000000000 upper 1.000000000000000 reaudited Bracket",
            ),
            ("1.000000000000 0 1", "1.000000000000", "refused cert line 0 NoStep state 0 choice 0"),
            ("0.000000000000 - 0", "0.900000000000", "refused cert line 0 Value state 1"),
        ):
            with self.subTest(line=line):
                text = f"certificate 1 2\n0 {first} 1.000000000000 -\n1 {second} - 0 1.000000000000 -\n"
                words[2:] = ['Pmax=? [ F "goal" ]', str(self.write("certificate", text))]
                self.assertEqual(call(*words)[1], line + "\n")

    def test_faults_name_file_and_line(self):
        self.write("certificate", CERTIFICATE)
        words = self.words(FORMULA)
        for place, text, said in (
            (0, "4 6 9\n0 0 x 1\n", "line 2: 'x' is no whole number"),
            (0, "1 1 1\n0 0 0 0.5\n", "line 0: the probabilities of state 0 choice 0 do not add up to 1"),
            (0, "1 1 2\n0 0 0 1\n", "line 0: 1 lines; the header states 2"),
            (0, "1 1 1\n0 0 -1 1\n", "line 2: '-1' is no whole number"),
            (1, '0="init"\n0: 7\n', "line 2: 7 is no index of the header"),
            (1, "x\n", "line 1: 'x' is no index and name"),
        ):
            with self.subTest(text=text):
                changed = [*words[:place], str(self.write("changed", text)), *words[place + 1 :]]
                self.assertEqual(call(*changed), (4, "", f"reaudit: {changed[place]}: {said}\n"))
        for formula, said in (
            ('P>=0.5 [ F "gaol" ]', 'there is no label "gaol"'),
            ('P>=0.5 [ F xgoalx ]', "xgoalx in place of a label"),
            ('P>=0.5 [ X "goal" ]', "a bound on the steps, of which there is no certificate"),
            ('P>=0.5 [ F<=3 "goal" ]', "a bound on the steps, of which there is no certificate"),
            ('P>=0.5 [ F<=3. "goal" ]', "'3.' is no whole number"),
            ('P>=0.5 [ true U<=1000001 "goal" ]', "more than 1000000 steps"),
            ('P>=0.5 [ G<=3 "goal" ]', "<= in place of a label"),
            ('P>=0.5 [ X<=3 "goal" ]', "<= in place of a label"),
            ('P<=2 [ F "goal" ]', "a threshold above 1"),
            ('<<p3>> Pmax=? [ F "goal" ]', "a player of the coalition is not in the owner file"),
            ('Pmax=? [ F ("goal" ]', "] in place of )"),
            ("", "neither P with a threshold nor Pmax=? nor Pmin=?"),
        ):
            with self.subTest(formula=formula):
                self.assertEqual(call(*self.words(formula)), (4, "", f"reaudit: formula: line 1: {said}\n"))

    def test_other_endings(self):
        words = self.words(FORMULA)
        none = str(self.folder / "none")
        said = f"reaudit: cannot read {none}: no such file or directory\n"
        for place in (0, 1, 3, 5):
            self.assertEqual(call(*words[:place], none, *words[place + 1 :]), (5, "", said))
        self.assertEqual(call(*words[:3], *words[4:])[:2], (3, ""))
        self.write("certificate", CERTIFICATE)
        command = " ".join(f"'{word}'" for word in (sys.executable, TOOLS / "reaudit", *words))
        for output, cause in (("> /dev/full", "no storage space"), (">&-", "bad file descriptor")):
            ended = run("bash", "-c", f"{command} {output}")
            self.assertEqual(ended, (6, "", f"reaudit: cannot write the output: {cause}\n"))

    def test_short_and_alone(self):
        lines = (TOOLS / "reaudit").read_text().splitlines()
        self.assertLessEqual(len(lines), 590)
        others = {"toolbox", *(path.name.split(".")[0] for path in TOOLS.iterdir())} - {"reaudit"}
        for line in lines:
            found = re.match(r"(?:from|import) (\w+)", line)
            self.assertFalse(found and found[1] in others, line)


def question_of(one):
    """Reads a question as the second audit does; each game is read only once."""
    with mock.patch.object(reaudit, "read_game", read_game):
        return reaudit.Question(*one.words[:3], one.words[4] if len(one.words) > 3 else None)


def judged(question, text, path):
    """Returns what the second audit writes about a certificate for a question that was read."""
    path.write_text(text, encoding="latin-1")
    try:
        entries = reaudit.entries_of(str(path), len(question.game))
        reaudit.judge(question, entries)
        return reaudit.report(question, entries)[1] + "\n"
    except reaudit.Ended as ended:
        return ended.args[1] + "\n"


# Code in Python might take these fields for others.
ODD = ("\xb2", "\x0b", "0x1", "0:1", "0:0 1", "0.5 jump", '3="a"b"', '3=""', '4="p 4"', '5="init"', "<<p3>>")


@needs_program
class Damaged(InFolder):
    """The program and the second audit refuse the same damaged texts, and write the same of the others."""

    def compare(self, texts):
        """Asks both, about steps if there is no certificate, and returns the status."""
        names = {one: str(self.folder / one) for one in texts}
        for one, name in names.items():
            (self.folder / one).write_bytes(texts[one].encode("latin-1"))
        cert, formula = [names["certificate"]] if "certificate" in names else [], spoken(texts["formula"])
        words = [names["tra"], names["lab"], formula, *cert, "--own", names["own"]]
        ended, said, _ = run(program(), "audit" if cert else "check", *words)
        status, output, errors = call(*words)
        self.assertEqual(status, ended, (said, output, errors))
        if status == 4:
            place = "formula" if errors.startswith("reaudit: formula: ") else errors.split(": ")[1].rsplit("/", 1)[1]
            self.assertIn(said.split()[1], ("formula", "question") if place == "formula" else (place,), errors)
        else:
            self.assertEqual(output.replace(" reaudited ", " audited "), said)
        return status

    def test_limits(self):
        """Both agree at each limit and just beyond it. If the model is another one, its certificate may be refused."""
        certificate = certificate_for(limits.TEXTS)
        for kind, text in limits.rows():
            with self.subTest(kind=kind, text=text[:200]):
                self.compare({**limits.TEXTS, "certificate": certificate, kind: text})

    def test_each_kind(self):
        for kind in ("tra", "lab", "own", "formula", "certificate"):
            draw, statuses = random.Random(kind), []
            for number in range(DAMAGED):
                if number % FEW == 0:
                    right = drawn_texts(draw, False)
                    right["certificate"] = certificate_for(right)
                texts = dict(right)
                for _ in range(draw.choice((1, 1, 1, 2, 3))):
                    texts[kind] = damaged(draw, texts[kind], kind == "formula", draw.choice((FIELDS, ODD)))
                with self.subTest(kind=kind, number=number, text=texts[kind]):
                    statuses.append(self.compare(texts))
            refused = sum(status in (4, 8) for status in statuses)
            with self.subTest(kind=kind):
                self.assertTrue(DAMAGED / 4 < refused < DAMAGED, refused)

    def test_steps(self):
        """Both write the same lines about damaged formulas that still have a bound on the steps."""
        draw, statuses = random.Random("steps"), []
        for number in range(DAMAGED):
            texts = {**drawn_texts(draw, True), "formula": core.drawn_formula(draw, core.STEPPED).formula()}
            texts["formula"] = damaged(draw, texts["formula"], True, draw.choice((FIELDS, ODD)))
            steps = re.search(r"(\bX\b|<=\s*[0-9]+\b(?![^[]*\[))", texts["formula"])
            if steps and not re.search("\0|P.*P", texts["formula"]):
                with self.subTest(number=number, text=texts["formula"]):
                    statuses.append(self.compare(texts))
        self.assertTrue(DAMAGED / 8 < statuses.count(4) < len(statuses) * 7 / 8, len(statuses))


@needs_program
class Alike(InFolder):
    """The program and the second audit write the same, but for `audited` and `reaudited`."""

    def compare(self, one, question, text):
        mine = judged(question, text, self.folder / "certificate")
        words = [*one.words[:3], str(self.folder / "certificate"), *one.words[3:]]
        _, output, errors = run(program(), "audit", *words)
        self.assertEqual((mine.replace(" reaudited ", " audited "), errors), (output, ""), text[:300])
        return output

    def test_certificates_of_the_gallery(self):
        for one in certified_questions():
            with self.subTest(model=one.name, formula=one.words[2]):
                self.assertIn(" audited ", self.compare(one, question_of(one), one.text))

    def test_steps_of_the_gallery(self):
        for name, words in stepped_questions():
            with self.subTest(model=name, formula=words[2]):
                self.assertEqual(call(*words), run(program(), "check", *words))

    def test_changed_ones(self):
        draw = random.Random(17)
        few = [one for one in certified_models() if one.states() <= MOST_STATES]
        questions = [question_of(one) for one in few]
        accepted = 0
        for number in range(CHANGED):
            place = number % len(few)
            with self.subTest(number=number, model=few[place].name):
                lines = [line.split() for line in few[place].text.splitlines()]
                change(draw, draw.choice(lines[few[place].start + 1 :]))
                text = "".join(f"{' '.join(fields)}\n" for fields in lines)
                text = text if draw.random() < 0.85 else damaged(draw, text, False)
                accepted += " audited " in self.compare(few[place], questions[place], text)
        self.assertTrue(CHANGED / 20 < accepted < CHANGED / 2, accepted)
