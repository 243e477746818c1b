"""These dossiers are of formulas with a bound on the steps and of formulas with others inside.

With EVERY_BYTE in the environment each byte of a dossier of steps is changed in turn, and a thousand bytes of one with
a formula inside; else a few of each.
"""

import os
import random
import re
import sys
import unittest
from unittest import mock

from tools.test_dossier import Judged
from toolbox import evidence, programs
from toolbox.testing import GAME, MODELS, TOOLS, call_tool, load, needs_program, program, run

from core import ALL_PATHS, drawn_formula, drawn_game

OWN = ["--own", GAME[2]]
COIN = [str(MODELS / f"coin-2-2.{ending}") for ending in ("tra", "lab")]
DIE = [str(MODELS / f"die-6.{ending}") for ending in ("tra", "lab")]
RECOVERS = 'P>=1 [ G P>=1 [ F "finished" ] ]'
FEW, MANY, MOST, DRAWN = 10, 1000, 3000, 20

# Each row has a formula and what it is taken apart into.
PARTS = [
    ('Pmax=? [ F "a" ]', ['Pmax=? [ F "a" ]']),
    ('P>=1 [ G P>=1 [ F "a" ] ]', ['P>=1 [ F "a" ]', 'P>=1 [ G "inside_1" ]']),
    ('<<P>> P<1 [ !<<P,q>> P>0.5 [ X "init" ] U<=3 ("init" | P>0[F"P"]) ]',
     ['<<P,q>> P>0.5 [ X "given_init" ]', 'P>0[F"P"]', '<<P>> P<1 [ !"inside_1" U<=3 ("init" | "inside_2") ]']),
    ('P>0 [ F P>0 [ X P>0 [ X "a[" ] & "b" ] ]',
     ['P>0 [ X "a[" ]', 'P>0 [ X "inside_1" & "b" ]', 'P>0 [ F "inside_2" ]']),
]

# Each row has the words of a dossier, and the lines that both audits write in its last step.
ANSWERED = [
    ([*GAME[:2], '<<p1>> P>=0.6 [ F<=1 "goal" ]', *OWN],
     ["state 0 lower 0.650000000000000 upper 0.650000000000000 steps 1 True"] * 2),
    ([*GAME[:2], 'Pmax=? [ X P>=0.5 [ F "goal" ] ]'],
     ["state 0 lower 0.650000000000000 upper 0.650000000000000 steps 1 Bracket"] * 2),
    ([*GAME[:2], '<<p1>> P>=0.6 [ F "init" & <<p2>> P<0.3 [ G !"goal" ] | "goal" ]', *OWN],
     [f"state 0 lower 0.650000000000000 upper 0.650000000000000 {word} True" for word in ("audited", "reaudited")]),
    ([*GAME[:2], '<<p1>> P>=0.6 [ F P>0 [ X P>=1 [ G "goal" ] ] ]', *OWN],
     [f"state 0 lower 1.000000000000000 upper 1.000000000000000 {word} True" for word in ("audited", "reaudited")]),
]


class TakenApart(unittest.TestCase):
    def test_parts(self):
        for formula, parts in PARTS:
            with self.subTest(formula=formula):
                self.assertEqual(evidence.taken_apart(formula, evidence.Names("")), parts)

    def test_labels_are_new(self):
        names = evidence.names_beside([b"init", b"inside_1", b"given_init_", b"inside_x__"])
        self.assertEqual((names.inside(1), names.init()), ("inside_1__", "given_init__"))

    def test_label_files(self):
        marks = {"init": bytearray(b"\1\1\1\0"), "a": bytearray(b"\0\0\1\0")}
        self.assertEqual(evidence.label_text(marks), '0="init" 1="a"\n0: 0\n1: 0\n2: 0 1\n')


@needs_program
class Evidence(Judged):
    def setUp(self):
        super().setUp()
        self.start(mock.patch.object(load("dossier"), "provenance", lambda: ["sources unknown", "kit unknown"]))

    def dossier(self, *words):
        """Returns the text of a dossier, which has to verify."""
        status, text, errors = call_tool("dossier", *words)
        self.assertEqual((status, errors), (0, ""))
        name = self.write("dossier", text)
        self.assertEqual(call_tool("dossier", "--verify", name)[::2], (0, ""))
        return text

    def test_answers(self):
        for words, lines in ANSWERED:
            with self.subTest(formula=words[2]):
                text = self.dossier(*words)
                self.assertEqual(re.findall("(?m)^lines 1 status 0 by .*\n(.*)", text)[-2:], lines)

    def test_steps_by_hand(self):
        """What a dossier holds is accepted, step by step, by the commands that it has."""
        for words in ([*COIN, RECOVERS], ANSWERED[3][0]):
            text = self.dossier(*words)
            (self.folder / "held").mkdir(exist_ok=True)
            done = call_tool("dossier", "--unpack", self.folder / "dossier", "--into", self.folder / "held")
            self.assertEqual(done, (0, "", ""))
            commands = [line.partition("by: ")[2] for line in text.split("\n") if "by: " in line]
            self.assertEqual(len(commands), 2 * text.count("\nstep "))
            for command in commands:
                words = command.replace("stogame ", f"{program()} ").replace("tools/reaudit", str(TOOLS / "reaudit"))
                status, output, errors = run("bash", "-c", f"cd '{self.folder}/held' && {words}")
                self.assertEqual((status, errors), (status % 3, ""), command)
                self.assertTrue(output.startswith("state 0 lower "), output)

    def test_both_directions(self):
        """A label has the true states and no others: one more or one less is told, whatever hashes say."""
        text = self.dossier(*ANSWERED[2][0])
        self.assertIn('\n0="init" 1="inside_1" 2="goal"\n0: 0\n2: 1 2\n', text)
        for line, instead in (("\n0: 0\n", "\n0: 0 1\n"), ("\n2: 1 2\n", "\n2: 2\n")):
            name = self.write("forged", self.forged(text, "labels_2", line, instead))
            status, _, errors = call_tool("dossier", "--verify", name)
            self.assertEqual(status, 1)
            self.assertIn(": it is 'file labels_2 sha256 ", errors)

    def forged(self, text, piece, old, new):
        """Changes one of the files of a dossier, and makes the hashes fit."""
        dossier = load("dossier")
        held = dossier.pieces_filed(text.split("\n"))[piece]
        changed = held.replace(old, new, 1)
        self.assertNotEqual(held, changed)
        for before, after in ((held, changed), tuple(dossier.digest_of(one.encode()) for one in (held, changed))):
            text = text.replace(before, after)
        first, _, body = text.split("\n", 2)
        return f"{first}\n{dossier.second_line(body)}\n{body}"

    def test_a_forged_certificate(self):
        """The certificate of a formula inside is judged at every state."""
        text = self.dossier(*COIN, RECOVERS)
        forged = self.forged(text, "certificate_1", "\n9 1.000000000000000", "\n9 0.900000000000000")
        name = self.write("forged", forged)
        status, _, errors = call_tool("dossier", "--verify", name)
        self.assertEqual((status, errors.split("refused cert")[0]), (8, f"dossier: {name}: certificate_1: "))

    def test_what_stays_undecided(self):
        said = 'dossier: the formula inside, P>=1/3 [ F "one" ], is undecided at state 1\n'
        self.assertEqual(call_tool("dossier", *DIE, 'Pmax=? [ X P>=1/3 [ F "one" ] ]'), (2, "", said))

    def test_what_is_refused(self):
        cert = self.write("cert", "certificate 2 4\n")
        for formula in ('P>0 [ X "goal" ]', 'P>0 [ F<=3 "goal" ]', 'P>0 [ F P>0 [ F "goal" ] ]'):
            status, output, errors = call_tool("dossier", *GAME[:2], formula, "--cert", cert)
            self.assertEqual((status, output), (3, ""))
            self.assertIn("--cert is for a formula with no bound on the steps and none inside", errors)
        for formula, said in (
            ('P>0 [ F Pmax=? [ F "goal" ] ]', "solve: refused formula place 8 AskInside"),
            ('P>0 [ F P>0 [ F "gaol" ] ]', "solve: refused question line 0 UnknownLabel gaol"),
            ('P>0 [ F<=3. "goal" ]', "formula: place 9: '3.' in place of a number of steps"),
        ):
            with self.subTest(formula=formula):
                self.assertEqual(call_tool("dossier", *GAME[:2], formula), (4, "", f"dossier: {said}\n"))

    def test_drawn_formulas(self):
        """Steps come to what the program says by itself, or stop where a state stays undecided."""
        draw, statuses = random.Random(3), []
        for _ in range(DRAWN):
            model, formula = drawn_game(draw, all_initial=False), drawn_formula(draw, ALL_PATHS, 2).formula()
            model.write(self.folder / "m")
            tra, lab, own = (str(self.folder / f"m.{ending}") for ending in ("tra", "lab", "own"))
            words = [tra, lab, formula, "--own", own]
            with self.subTest(formula=words[2]):
                status, text, errors = call_tool("dossier", *words)
                self.assertIn(status, (0, 2), errors)
                self.assertEqual(bool(text), not status)
                statuses.append(status)
                if text:
                    verified = call_tool("dossier", "--verify", self.write("dossier", text))
                    self.assertEqual(verified[::2], (0, ""))
        self.assertGreater(statuses.count(0), DRAWN // 2)

    def test_an_argument_that_is_wrong(self):
        """What the program says by itself, and what the second audit says, has to agree with the steps."""
        wrong = programs.Ended(1, "inner 1 undecided 0\nstate 0 lower 0.0 upper 0.0 solved False\n", "")
        answered = programs.answered
        with mock.patch.object(
            programs, "answered", lambda command, words: wrong if command == "solve" else answered(command, words)
        ):
            status, _, errors = call_tool("dossier", *COIN, RECOVERS)
        said = "dossier: solve: its bounds at state 0 are apart from those of the steps\n"
        self.assertEqual((status, errors), (4, said))
        with mock.patch.object(evidence, "second_of", lambda *_: programs.Ended(0, "state 0 other\n", "")):
            status, _, errors = call_tool("dossier", *COIN, RECOVERS)
        self.assertEqual(status, 4)
        self.assertIn("the second audit says otherwise: state 0 other", errors)

    def test_changed_bytes(self):
        """No byte of a dossier can be another one: it is refused, with a line on standard error."""
        for words, many, most in (
            ([*DIE, 'P>=3/4 [ F<=3 "done" ]'], MOST, MOST),
            ([*COIN, RECOVERS], MANY, None),
        ):
            content = self.dossier(*words).encode()
            self.assertLess(len(content), most or sys.maxsize)
            draw, places = random.Random(words[2]), list(range(len(content)))
            many = min(many if "EVERY_BYTE" in os.environ else FEW, len(content))
            for place in draw.sample(places, many):
                byte = draw.choice([byte for byte in range(256) if byte != content[place]])
                with self.subTest(formula=words[2], place=place, byte=byte):
                    self.refused(content[:place] + bytes([byte]) + content[place + 1 :])

    def refused(self, content):
        name = self.folder / "changed"
        name.write_bytes(content)
        status, output, errors = call_tool("dossier", "--verify", name)
        self.assertIn(status, range(1, 10))
        self.assertEqual(output, "")
        self.assertTrue(errors.startswith("dossier: "), errors)
