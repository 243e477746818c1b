"""Expected rewards asked by files of properties, guaranteed by a strategy of one's own, and filed in dossiers."""

import json
import os
from unittest import mock

from tools.test_dossier import Judged
from toolbox.reward_formulas import rewards_asked
from toolbox.testing import InFolder, call_tool, load, needs_program, program, run

FILES = {
    "walk.tra": "3 4 4\n0 0 1 1 slow\n0 1 2 1 fast\n1 0 2 1\n2 0 2 1\n",
    "walk.lab": '0="init" 1="goal" 2="end"\n0: 0\n2: 1\n',
    "walk.own": '0="anna" 1="bert"\n1: 1\n',
    "time": "rewards 3 2\n0 1\n1 2\n",
    "cost": "rewards 3 3\n0 0 1\n0 1 5\n1 2\n",
    "wrong": "rewards 2 0\n",
}

# Each row has a property, and the line of its first state.
ANSWERS = [
    ('R{"time"}max=? [ F "goal" ]', "3.00000000000000,3.00000000000000,Bracket,solve"),
    ('Rmin=? [ F "goal" ]', "1.00000000000000,1.00000000000000,Bracket,solve"),
    ('R{2}min=? [ F "goal" ]', "3.00000000000000,3.00000000000000,Bracket,solve"),
    ('R{"cost"}<=4 [ F "goal" ]', "5.00000000000000,5.00000000000000,False,solve"),
    ('R{"cost"}min<=4 [ F "goal" ]', "3.00000000000000,3.00000000000000,True,solve"),
    ('R{"cost"}max=? [ F "end" ]', "infinite,infinite,Bracket,solve"),
    ('Pmax=? [ F "goal" ]', "1.000000000000000,1.000000000000000,Bracket,check"),
]

# Each row has a property, why it has no answer, and the status.
NO_ANSWERS = [
    ('R{"money"}max=? [ F "goal" ]', 'no file of the rewards "money"; give it by --rewards money=FILE', 4),
    ('R{"gone"}max=? [ F "goal" ]', "stogame: cannot read none: no such file or directory", 5),
    ('R{"wrong"}max=? [ F "goal" ]', "refused rewards line 1 StateCount", 4),
]

SENTENCES = [
    ('R{"cost"}max=? [ F "a" ]', 'What is the greatest expected reward "cost", over all strategies, before "a" holds?'),
    ('R<=5/2 [ F !"a" ]', 'Is the expected reward at most 5/2, under every strategy, before "a" does not hold?'),
    ('<<p1>> Rmin=? [ F "a" ]',
     'What is the least expected reward that p1 can bring about, whatever the others do, before "a" holds?'),
    ('<<p1>> R>0 [ F "a" ]',
     'Can p1, whatever the others do, make sure that the expected reward is more than 0 before "a" holds?'),
]


class Walk(Judged):
    """From the first state a slow way of two turns leads to the goal, and a fast one that costs more."""

    def setUp(self):
        super().setUp()
        for name, text in FILES.items():
            self.write(name, text)
        self.model = self.paths("walk.tra", "walk.lab")

    def paths(self, *names):
        return [str(self.folder / name) for name in names]

    def own(self):
        return ["--own", *self.paths("walk.own")]

    def paid(self):
        return ["--rewards", *self.paths("cost")]


@needs_program
class Properties(Walk):
    def ask(self, rows, *more):
        text = "".join(f"{row[0]}\n" for row in rows)
        files = [f"--rewards={name}={self.folder / name}" for name in ("time", "cost", "wrong")]
        return call_tool("properties", *self.model, self.write("props", text), *files, "--rewards=gone=none", *more)

    def test_answers(self):
        status, output, errors = self.ask(ANSWERS, "--csv")
        self.assertEqual((status, errors), (1, ""))
        self.assertEqual([line.split(",", 3)[3].rsplit(",", 1)[0] for line in output.splitlines()[1:]],
                         [line for _, line in ANSWERS])

    def test_no_answers(self):
        """Each is refused by its line, and the others are answered."""
        status, output, errors = self.ask([*NO_ANSWERS, *ANSWERS], "--json")
        made = json.loads(output)
        self.assertEqual((status, [one["status"] for one in made[:3]]), (5, [row[2] for row in NO_ANSWERS]))
        self.assertTrue(all(one["states"] for one in made[3:]))
        said = "".join(f"properties: {self.folder / 'props'}: line {line}: {cause}\n"
                       for line, (_, cause, _) in enumerate(NO_ANSWERS, 1))
        self.assertEqual(errors, said)

    def test_files_without_a_name(self):
        for words, name in (([], ""), ([f"--rewards=time={self.folder / 'time'}"], '{"time"}')):
            asked = self.write("props", 'Rmax=? [ F "goal" ]\n')
            files = [*words, "--rewards", str(self.folder / "cost"), "--json"]
            made = json.loads(call_tool("properties", *self.model, asked, *files)[1])
            self.assertEqual(made[0]["formula"], f'R{name}max=? [ F "goal" ]')
        for words, said in (
            (["--rewards=a=x", "--rewards=a=y"], "--rewards names the same rewards twice"),
            (["--rewards=a="], "argument --rewards: 'a=' names no file"),
        ):
            ended = call_tool("properties", *self.model, asked, *words)
            self.assertEqual(ended, (3, "", f"properties: {said}; properties --help says more\n"))

    def test_within(self):
        """Neither bound is infinite, both are, or one."""
        is_wider = load("properties").is_wider
        for bounds, wide in ((("1.0", "1.2"), True), (("1.0", "1.1"), False), (("infinite",) * 2, False),
                             (("1.0", "infinite"), True)):
            self.assertEqual(is_wider(*bounds, 0.15), wide)


@needs_program
class Guarantees(Walk):
    def ask(self, strategy, formula, *more):
        mine = self.write("mine", strategy)
        return call_tool("guarantee", *self.model, formula, "--strategy", mine, *self.paid(), *more)

    def test_lines(self):
        most, least = "3.00000000000000", "5.00000000000000"
        for strategy, formula, line, status in (
            ("0:slow\n", 'Rmax=? [ F "goal" ]',
             f"maximiser guarantees at least {most} and no more than {most} audited Bracket", 0),
            ("0:fast\n", 'R>=4 [ F "goal" ]',
             f"minimiser guarantees at most {least} and no less than {least} audited True", 0),
            ("0:slow\n", 'Rmin=? [ F "end" ]',
             "minimiser guarantees at most infinite and no less than infinite audited Bracket", 0),
        ):
            with self.subTest(strategy=strategy, formula=formula):
                self.assertEqual(self.ask(strategy, formula), (status, f"state 0 {line}\n", ""))

    def test_files(self):
        out = str(self.folder / "out")
        self.assertEqual(self.ask("0:fast\n", '<<anna>> Rmax=? [ F "goal" ]', *self.own(), "--out", out)[0], 0)
        self.assertEqual((self.folder / "out.rewards").read_text(), "rewards 3 2\n0 0 5\n1 2\n")
        words = [f"{out}.tra", f"{out}.lab", '<<anna>> Rmax=? [ F "goal" ]', f"{out}.cert"]
        audit = run(program(), "audit", *words, "--own", f"{out}.own", "--rewards", f"{out}.rewards")
        self.assertEqual(audit.status, 0)

    def test_refused(self):
        said = "guarantee: certificates of rewards are made by solve; guarantee --help says more\n"
        self.assertEqual(self.ask("0:fast\n", 'Rmax=? [ F "goal" ]', "--by", "check"), (3, "", said))
        said = "guarantee: formula: place 0: 'Pmax' in place of R or Rmax or Rmin\n"
        self.assertEqual(self.ask("0:fast\n", 'Pmax=? [ F "goal" ]'), (4, "", said))


@needs_program
class Dossiers(Walk):
    def setUp(self):
        super().setUp()
        os.environ["STOGAME"] = str(program())
        self.start(mock.patch.object(load("dossier"), "provenance", lambda: ["sources unknown", "kit unknown"]))
        self.words = [*self.model, '<<anna>> R{"cost"}<=3 [ F "goal" ]', *self.own(), *self.paid()]
        self.text = call_tool("dossier", *self.words)[1]

    def test_it_is_verified(self):
        for asker, word in (("audit", "audited"), ("reaudit", "reaudited")):
            line = f"state 0 lower 3.00000000000000 upper 3.00000000000000 {word} True"
            self.assertIn(f"\nlines 1 status 0 by {asker}\n{line}\n", self.text)
        name = self.write("dossier", self.text)
        status, output, errors = call_tool("dossier", "--verify", name)
        self.assertEqual((status, errors), (0, ""))
        self.assertTrue(output.startswith("verified: 4 files, "), output)
        audit = run(program(), "audit", *self.words[:3], name, *self.words[3:])
        self.assertEqual((audit.status, audit.output.split()[-1]), (0, "True"))

    def test_what_changed_is_told(self):
        name = self.write("dossier", self.text)
        self.write("cost", FILES["cost"].replace("0 0 1", "0 0 1.0"))
        status, _, errors = call_tool("dossier", "--verify", name)
        self.assertEqual((status, errors.count("\n")), (1, 1))
        self.assertIn(": it is 'paid sha256 ", errors)
        self.write("cost", FILES["cost"].replace("0 0 1", "0 0 2"))
        self.assertEqual(call_tool("dossier", "--verify", name)[0], 8)

    def test_given_certificates(self):
        """Its own formula is compared with the one that is filed, but for the name."""
        certificate = "".join(f"{line}\n" for line in self.text.splitlines()[-4:])
        for head, told in (
            ('formula <<anna>> R<=3 [ F "goal" ]\n', 0),
            ('formula <<anna>> R<=4 [ F "goal" ]\n', 1),
        ):
            cert = self.write("cert", head + certificate)
            status, output, errors = call_tool("dossier", *self.words, "--cert", cert)
            self.assertEqual((status, output, errors.count("\n")), (0, self.text, told))

    def test_refused(self):
        words = [*self.words, "--by", "check"]
        said = "dossier: certificates of rewards are made by solve; dossier --help says more\n"
        self.assertEqual(call_tool("dossier", *words), (3, "", said))
        cert = self.write("cert", "rewards 1 0 3\n")
        said = f"dossier: {cert}: refused cert line 2 MissingLine\n"
        self.assertEqual(call_tool("dossier", *self.words, "--cert", cert), (8, "", said))


class Sentences(InFolder):
    def test_questions_in_words(self):
        for formula, sentence in SENTENCES:
            with self.subTest(formula=formula):
                self.assertEqual(rewards_asked(formula).words(), sentence)
