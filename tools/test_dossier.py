"""Dossiers: what one has, that it is a certificate file, and that each change of it or of what it names is told."""

import hashlib
import os
import shutil
import unittest
from pathlib import Path
from unittest import mock

from tools.test_reaudit import call
from toolbox import evidence, programs
from toolbox.formulas import Reader
from toolbox.testing import FORMULA, GAME, TOOLS, InFolder, call_tool, load, needs_program, program, run

# Each row has a formula and its sentence.
SENTENCES = [
    ('Pmax=? [ F "goal" ]', 'What is the greatest probability, over all strategies, that at some time "goal" holds?'),
    ('Pmin=? [ G !"bad" ]',
     'What is the least probability, over all strategies, that at every time "bad" does not hold?'),
    ('P>=0.5 [ "safe" U "goal" ]',
     'Is the probability at least 1/2, under every strategy, that at some time "goal" holds, and at each time before '
     '"safe" holds?'),
    ('P<1/3 [ F ("a" | "b") & !("c" => "d") ]',
     'Is the probability less than 1/3, under every strategy, that at some time ("a" holds or "b" holds) and it is not '
     'so that ("c" holds implies "d" holds)?'),
    (FORMULA,
     'Can p1, whatever the others do, make sure that the probability is at least 3/5 that at some time "goal" holds?'),
    ('<<p1,p2>> Pmin=? [ F true ]',
     "What is the least probability that p1, p2 can bring about, whatever the others do, that at some time "
     "anything holds?"),
    ('<<>> Pmax=? [ F "goal" ]', 'What is the least probability, over all strategies, that at some time "goal" holds?'),
    ('<<>> P>0 [ F "goal" ]', 'Is the probability more than 0, under every strategy, that at some time "goal" holds?'),
    ('P>0 [ F<=1 "goal" ]', 'Is the probability more than 0, under every strategy, that within 1 step "goal" holds?'),
    ('Pmax=? [ "safe" U<=020 "goal" ]',
     'What is the greatest probability, over all strategies, that within 20 steps "goal" holds, and at each time '
     'before "safe" holds?'),
    ('Pmin=? [ X !"bad" ]',
     'What is the least probability, over all strategies, that after 1 step "bad" does not hold?'),
]


class Sentences(unittest.TestCase):
    def test_questions_in_words(self):
        for formula, sentence in SENTENCES:
            with self.subTest(formula=formula):
                self.assertEqual(Reader(formula).whole().words(), sentence)


def hashed(text):
    """Returns the dossier with the hash of what follows in its second line."""
    first, _, body = text.split("\n", 2)
    return f"{first}\n{load('dossier').second_line(body)}\n{body}"


def second_here(question, *certificate):
    """Runs the second audit in this process."""
    return programs.Ended(*call(*question[:3], *certificate, *question[3:]))


class Judged(InFolder):
    """For tests of dossiers the second audit runs in this process."""

    def setUp(self):
        super().setUp()
        os.environ["STOGAME"] = str(program())
        self.start(mock.patch.object(evidence, "second_of", second_here))


@needs_program
class Dossiers(Judged):
    def setUp(self):
        super().setUp()
        self.files = [shutil.copy(name, self.folder) for name in GAME]
        self.words = [*self.files[:2], FORMULA, "--own", self.files[2]]
        self.text = call_tool("dossier", *self.words)[1]
        self.name = str(self.write("dossier", self.text))

    def test_what_it_has(self):
        lines = self.text.splitlines()
        self.assertEqual(lines[0], "dossier 3")
        for kind, name in zip(("tra", "lab", "own"), self.files):
            content = Path(name).read_bytes()
            self.assertIn(
                f"{kind} sha256 {hashlib.sha256(content).hexdigest()} bytes {len(content)} name {name}", lines
            )
        content = Path(program()).read_bytes()
        self.assertIn(f"program sha256 {hashlib.sha256(content).hexdigest()} bytes {len(content)}", lines)
        self.assertIn(f"question {SENTENCES[4][1]}", lines)
        for asker, word in (("audit", "audited"), ("reaudit", "reaudited")):
            line = f"state 0 lower 0.650000000000000 upper 0.650000000000000 {word} True"
            self.assertIn(f"\nlines 1 status 0 by {asker}\n{line}\n", self.text)
        self.assertRegex(self.text, r"\nsources (unknown|commit [0-9a-f]+ (clean|changed))\nkit \S")

    def test_it_is_a_certificate(self):
        status, output, _ = run(program(), "audit", *self.words[:3], self.name, *self.words[3:])
        self.assertEqual((status, output.split()[-1]), (0, "True"))
        self.assertIn("\n0,p1,0.65", call_tool("table", self.name, "--csv", "--own", self.files[2])[1])

    def test_a_script_is_no_program(self):
        script = self.write("script", f'#!/bin/sh\nexec {program()} "$@"\n')
        script.chmod(0o755)
        with mock.patch.dict(os.environ, STOGAME=str(script)):
            status, output, errors = call_tool("dossier", *self.words)
        self.assertEqual((status, output), (4, ""))
        self.assertIn(f"{script}: a script", errors)

    def test_behind_the_wrapper_is_what_was_built(self):
        dossier = load("dossier")
        with mock.patch.dict(os.environ, STOGAME=str(TOOLS.parent / "stogame")):
            self.assertEqual(dossier.program_file(), dossier.programs.BUILT)

    def test_the_logic_of_the_kit(self):
        """The logic is compared if both are known; commit, state and the kit's name are only recorded."""
        start = self.text.index("\nsources ")
        for filed, today, status, said in (
            ("kit 1 logic ab", "kit 2 logic ab", 0, "the kit's logic is the same"),
            ("kit 1 logic ab", "kit 1 logic ac", 1, "the logic of the kit is ac today"),
            ("kit unknown", "kit 1 logic ac", 0, "so the kit was not compared"),
            ("kit 1 logic ab", "kit unknown", 0, "so the kit was not compared"),
        ):
            with self.subTest(filed=filed, today=today):
                rest = self.text[self.text.index("\nlines ") :]
                text = f"{self.text[:start]}\nsources commit 0 changed\n{filed}{rest}"
                name = self.write("filed", hashed(text))
                with mock.patch.object(load("dossier"), "provenance", lambda: ["sources unknown", today]):
                    ended, output, errors = call_tool("dossier", "--verify", name)
                self.assertEqual(ended, status)
                self.assertIn(said, output + errors)

    def test_it_is_verified(self):
        status, output, errors = call_tool("dossier", "--verify", self.name)
        self.assertEqual((status, errors), (0, ""))
        self.assertTrue(output.startswith("verified: 3 files, "), output)
        other = self.folder / "elsewhere"
        other.mkdir()
        for name in self.files:
            shutil.move(name, other)
        self.assertEqual(call_tool("dossier", "--verify", self.name)[0], 5)
        self.assertEqual(call_tool("dossier", "--verify", self.name, "--folder", other)[0], 0)

    def test_changes_are_told(self):
        """Each line but those of the certificate and those that are recorded alone, changed, left out and doubled in
        turn, is told once; and of the certificate the first bound."""
        lines = self.text.split("\n")
        start = next(place for place, line in enumerate(lines) if line.startswith("certificate "))
        for place in range(1, start):
            if not lines[place].startswith(("formula ", "sources ", "kit ", "tra ", "lab ", "own ", "file ")):
                with self.subTest(line=lines[place]):
                    for instead in ([lines[place] + "x"], [], [lines[place]] * 2):
                        errors = self.refused(1, [*lines[:place], *instead, *lines[place + 1 :]])
                        self.assertEqual(errors.count("\n"), 1, errors)
        self.refused(4, ["dossier 2", *lines[1:]])
        for kind in ("sources ", "kit "):
            errors = self.refused(1, [line + "x" if line.startswith(kind) else line for line in lines])
            self.assertIn("line 2: it is 'sha256 ", errors)
        self.refused(4, [line for line in lines if not line.startswith("kit ")])
        self.refused(8, [line.replace("0.650000000000000 1", "0.650000000000001 1") for line in lines])
        self.refused(1, [line.replace("P>=0.6", "P>=0.7") for line in lines])
        self.refused(8, lines[:start])

    def refused(self, ended, lines):
        name = self.write("changed", "\n".join(lines))
        with mock.patch.object(load("dossier"), "provenance", lambda: ["sources unknown", "kit unknown"]):
            status, output, errors = call_tool("dossier", "--verify", name)
        self.assertEqual((status, output), (ended, ""), errors)
        self.assertTrue(errors.startswith("dossier: "), errors)
        return errors

    def test_a_changed_file_is_told(self):
        self.write("two_players.lab", '0="init" 1="goal"\n0: 0\n2:  1\n')
        status, _, errors = call_tool("dossier", "--verify", self.name)
        self.assertEqual((status, errors.count("\n")), (1, 1))
        self.assertIn(": it is 'lab sha256 ", errors)

    def test_given_certificates(self):
        cert = self.write("cert", "\n".join(self.text.splitlines()[-5:]) + "\n")
        self.assertEqual(call_tool("dossier", *self.words, "--cert", cert), (0, self.text, ""))
        self.assertEqual(call_tool("dossier", *self.words, "--by", "check")[0], 0)
        cert = self.write("cert", "certificate 2 4\n")
        self.assertEqual(
            call_tool("dossier", *self.words, "--cert", cert),
            (8, "", f"dossier: {cert}: refused cert line 2 MissingLine\n"),
        )

    def test_what_a_certificate_says_of_itself(self):
        """Its own formula and lines are compared with those that are filed; the words for how it was made are not."""
        certificate = "\n".join(self.text.splitlines()[-5:]) + "\n"
        line = "state 0 lower 0.650000000000000 upper 0.650000000000000 rounds 1 True"
        for head, said in (
            (f'{line}\nformula <<p1>> P>=3/5 [ true U !!"goal" ]\n', []),
            ('formula <<p1>> P>=4/5 [ F "goal" ]\n', ["line 1: 'formula <<p1>> P>=4/5 [ F \"goal\" ]' is another"]),
            (line.replace("True", "False") + "\n", ["line 1: 'state 0 lower"]),
            (line.replace("0.65", "0.64") + "\nformula x\n", ["line 1: 'state 0 lower", "line 2: 'formula x'"]),
        ):
            with self.subTest(head=head):
                cert = self.write("cert", head + certificate)
                status, output, errors = call_tool("dossier", *self.words, "--cert", cert)
                self.assertEqual((status, output, errors.count("\n")), (0, self.text, len(said)))
                for text in said:
                    self.assertIn(f"dossier: {cert}: {text}", errors)

    def test_no_certificate_no_dossier(self):
        status, output, errors = call_tool("dossier", *self.files[:2], 'Pmax=? [ F "gaol" ]')
        said = "dossier: solve: refused question line 0 UnknownLabel gaol\n"
        self.assertEqual((status, output, errors), (4, "", said))
