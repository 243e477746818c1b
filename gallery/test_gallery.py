"""Tests of the gallery's own parts: python3 -m unittest gallery/test_gallery.py"""

import contextlib
import io
import os
import random
import re
import unittest
from fractions import Fraction
from pathlib import Path
from unittest import mock
from xml.etree import ElementTree

from gallery import pictures
from gallery.answer import Answer, judge_bracket, judge_inside, parted
from gallery.collected import key_of_row
from gallery.families import OTHER, SIZES, Known, agrees, brp, chain, charlton, coin, csma, egl, hallway, instances
from gallery.families import investor, known_as, microgrid, same_or_size, teams, wlan
from gallery.picture import BOTTOM, LEFT, RIGHT, Picture, linear, logarithmic
from gallery.rewards import ROWS
from gallery.solved import Solved, faults_of_line, is_taken, solved
from gallery.solved import spelt as spelt_width
from gallery.table import contents, joined, read_lines, write_lines, write_markdown
from toolbox.drawn import drawn_game, drawn_question, drawn_values, fault_of, stays_open
from toolbox.exact import determinacy, plain_value_iteration
from toolbox.model import CLOSED, HALF, Model, ask, spelt, sure
from toolbox.programs import bracket_of
from toolbox.testing import InFolder

import stiff

MOST_STATES, MOST_STEPS = 130, 300


def coin_loop():
    """A coin that is tossed again with one half, and falls on the goal or a trap with a quarter each."""
    quarter = Fraction(1, 4)
    choices = {"loop": [[(HALF, "loop"), (quarter, "goal"), (quarter, "trap")]], "goal": [], "trap": []}
    return Model("loop", choices.get, {"goal": lambda name: name == "goal"})


def is_given(question):
    """Whether a question has its value with it, and no more steps than can be made here."""
    return question.value is not None and (question.steps or 0) <= MOST_STEPS


class Files(unittest.TestCase):
    def test_texts_of_the_coin_loop(self):
        texts = coin_loop().texts()
        self.assertEqual(texts["tra"], "3 5\n0 0 0.5\n0 1 0.25\n0 2 0.25\n1 1 1\n2 2 1\n")
        self.assertEqual(texts["lab"], '0="init" 1="goal"\n0: 0\n1: 1\n')
        self.assertNotIn("own", texts)

    def test_owners(self):
        rule = {"a": [[(1, "b")]], "b": []}.get
        model = Model("a", rule, {}, ["x", "y"], {"a": "x", "b": "y"}.get)
        self.assertEqual(model.texts()["own"], '0="x" 1="y"\n0: 0\n1: 1\n')
        self.assertEqual(model.texts()["tra"], "2 2 2\n0 0 1 1\n1 0 1 1\n")

    def test_spellings(self):
        spellings = {1: "1", HALF: "0.5", Fraction(1, 8): "0.125", Fraction(2, 3): "2/3", Fraction(7, 250): "0.028"}
        for probability, spelling in spellings.items():
            self.assertEqual(spelt(probability), spelling)
            self.assertEqual(Fraction(spelling), probability)

    def test_a_choice_adds_up_to_one(self):
        with self.assertRaises(ValueError):
            Model("a", lambda name: [[(HALF, "a")]], {})


class Values(unittest.TestCase):
    def test_coin_loop(self):
        self.assertEqual(determinacy(coin_loop(), ask("Pmax=?", "goal")), [HALF, 1, 0])
        self.assertAlmostEqual(plain_value_iteration(coin_loop(), ask("Pmax=?", "goal"), 1e-9)[-1], 0.5)

    def test_coin_loop_within_steps(self):
        for steps, value in enumerate((0, Fraction(1, 4), Fraction(3, 8), Fraction(7, 16))):
            self.assertEqual(determinacy(coin_loop(), ask("Pmin=?", "goal", steps=steps)), [value, 1, 0])

    def test_the_next_step_and_always(self):
        self.assertEqual(determinacy(coin_loop(), ask("Pmax=?", "!goal", path="X")), [Fraction(3, 4), 0, 1])
        self.assertEqual(determinacy(coin_loop(), ask("Pmax=?", "!goal", path="G")), [HALF, 0, 1])

    def test_formulas_inside(self):
        likely, certain = ask("P>=0.5", "goal"), ask("P>=1", "goal")
        self.assertEqual(determinacy(coin_loop(), ask("P>=1", likely)), [1, 1, 0])
        self.assertEqual(determinacy(coin_loop(), ask("Pmax=?", certain)), [HALF, 1, 0])
        never = ask("Pmax=?", ("!", certain), path="G")
        self.assertEqual(determinacy(coin_loop(), never), [HALF, 0, 1])
        known = ask("Pmax=?", "goal", safe=ask("P>0.5", "goal", coalition=("p0",)))
        self.assertEqual(determinacy(coin_loop(), known), [0, 1, 0])

    def test_the_chain_stops_as_told(self):
        for length, rounds in chain.STOPS.items():
            plain = plain_value_iteration(chain.model(length), ask("Pmax=?", "goal"), 1e-6)
            self.assertEqual(len(plain) - 1, rounds)
            self.assertAlmostEqual(plain[-1], float(chain.reached_within(length, rounds)))

    def test_given_values_are_those_of_the_models(self):
        for name, module, sizes in instances("small"):
            model = module.model(*sizes)
            given = [question for question in module.questions(*sizes) if is_given(question)]
            for question in given if len(model) <= MOST_STATES else []:
                with self.subTest(model=name, question=question.title()):
                    self.assertEqual(determinacy(model, question)[0], question.value)


class KnownModels(unittest.TestCase):
    def test_published_values(self):
        self.assertTrue(agrees(Fraction(1, 3), "0.333"))
        self.assertTrue(agrees(Fraction(2, 3), "0.667"))
        self.assertTrue(agrees(Fraction(2, 3), "0.666"))
        self.assertTrue(agrees(Fraction(1, 8), "1.25e-1"))
        for published in ("0.665", "0.668", "0.6665"):
            self.assertFalse(agrees(Fraction(2, 3), published))

    def test_counts(self):
        self.assertEqual(Known("name", 13, 20).faults(13, 20), [])
        self.assertEqual(Known("name", 13).faults(13, 21), [])
        self.assertEqual(Known("name", kind=OTHER).faults(13, 20), [])
        self.assertEqual(Known().faults(13, 20), [])
        self.assertTrue(Known("name", 13, 20).faults(13, 21))
        self.assertTrue(Known("name", 13, 20).faults(14, 20))
        self.assertTrue(Known("name").faults(13, 20))

    def test_words(self):
        self.assertEqual(Known().words(), "")
        self.assertEqual(Known("`brp`", kind=OTHER).words(), "`brp`; another model")
        counts = {(1, 2): (13, 20)}
        self.assertEqual(same_or_size("`x`", (1, 2), counts, "`p`"), Known("`x` 1-2: `p`", 13, 20))
        other = same_or_size("`x`", (1, 3), counts, "`p`")
        self.assertEqual(other.words(), "`x` 1-3: `p`; the same rules, size not compared")

    def test_small_models_are_as_published(self):
        for name, module, sizes in instances("small"):
            states, _, moves = module.model(*sizes).counts()
            with self.subTest(model=name):
                self.assertEqual(known_as(module, sizes).faults(states, moves), [])

    def test_models_of_the_benchmark_set(self):
        """The numbers of states and moves, and values, that are published of some models that are not among the small
        ones."""
        for module, sizes, counts in (
            (egl, (5, 2), (33790, 34813)),
            (wlan, (2, 10), (6063, 10619)),
            (brp, (64, 5), (5192, 6915)),
            (csma, (2, 4), (7958, 10594)),
            (coin, (4, 2), (22656, 75232)),
        ):
            states, _, moves = module.model(*sizes).counts()
            self.assertEqual((states, moves), counts)
            for question in module.questions(*sizes):
                self.assertTrue(not question.published or agrees(question.value, question.published))


class Games(unittest.TestCase):
    def value(self, model, goal, *coalition):
        return determinacy(model, ask("Pmax=?", goal, coalition=coalition))[0]

    def test_a_village_of_one_block(self):
        """Two roads to the house, each with a jam at worst: 0.1 * 0.01."""
        self.assertEqual(self.value(charlton.model(1), "home", "car"), Fraction("0.999") ** 2)

    def test_one_hour_of_two_households(self):
        """Both get a load with 1/4. Who wants a peak runs its own at once, and the other one gently."""
        model = microgrid.model(2, 2, 1)
        self.assertEqual(self.value(model, "peak", "h1"), Fraction(1, 4))
        self.assertEqual(self.value(microgrid.model(2, 3, 1), "peak", "h1"), 0)
        self.assertEqual(self.value(microgrid.model(2, 3, 1), "peak", "h1", "h2"), Fraction(1, 4))

    def test_a_hallway_of_two_fields(self):
        """The robot needs one move, which succeeds with 0.8 while it is whole;
        the human comes to it with 1/2, against its will."""
        whole = Fraction(8, 10) / (1 - Fraction(19, 100) / 2) + Fraction(19, 200) / (1 - Fraction(19, 200))
        self.assertEqual(self.value(hallway.model(1, 2), "found_whole", "robot"), whole)


    def test_three_agents_who_know_each_other(self):
        """Two of them do a task that needs their two resources alone, one of four; all three do any."""
        model = teams.model(3, 1, 1)
        self.assertEqual(self.value(model, "one_done", "a1", "a2"), Fraction(1, 4))
        self.assertEqual(self.value(model, "one_done", "a1", "a2", "a3"), 1)

    def test_four_agents_in_a_ring(self):
        """The last has the first one's resource and takes its place, where it acts before the first two: with 1/3."""
        model = teams.model(4, 1, 1)
        for label in ("one_done", "with_a1"):
            self.assertEqual(self.value(model, label, "a1", "a2"), Fraction(1, 4) * Fraction(2, 3))

    def test_a_sale_in_the_first_month(self):
        """Each later month is worse. The share has to rise, with 1/2;
        where HIGH is TOP the cap has to stay, with 1/2."""
        self.assertEqual(self.value(investor.model(2, 2, 1), "i1_high", "i1"), Fraction(1, 4))
        self.assertEqual(self.value(investor.model(4, 3, 1), "i1_high", "i1"), HALF)
        self.assertEqual(self.value(investor.model(2, 2, 2), "one_high", "i1"), Fraction(1, 4))


class Pictures(InFolder):
    def test_axes(self):
        axis = logarithmic("s", -2, 2)
        self.assertEqual([axis.share(value) for value in (0.001, 0.01, 1, 100, 1000)], [0, 0, 0.5, 1, 1])
        self.assertEqual([words for _, words in axis.marks], ["10⁻²", "10⁻¹", "1", "10", "100"])
        self.assertEqual(linear("p", 0, 1, 4, 2).marks[1], (0.25, "0.25"))

    def drawn(self, draw, name, rows):
        """The words of a picture that is drawn of these rows, and how many curves and signs it has, as tags of SVG."""
        places = {"FOLDER": self.folder, "MEASURED": self.write("measured.tsv", rows.replace(",", "\t"))}
        with mock.patch.multiple(pictures, **places), contextlib.redirect_stdout(io.StringIO()):
            draw()
        tree = ElementTree.parse(self.folder / f"{name}.svg").getroot()
        tags = [element.tag.rpartition("}")[2] for element in tree.iter()]
        return [element.text for element in tree.iter() if element.tag.endswith("text")], tags

    def test_times(self):
        rows = "part,group,model,kind,states,command,status,rounds,seconds,clock,megabytes,width\n" + "".join(
            f"runs,g,{model},{kind},{states},{command},0,,{seconds},1,1,0.0e+00\n"
            for model, kind, states in (("a", "DTMC", 1000), ("b", "game", 2000), ("faster", "game", 2000))
            for command, seconds in (
                ("check", "1" if model == "faster" else "3.5"),
                ("check --traps", "4"),
                ("solve", "0.2" if model == "a" else ""),
            )
        )
        words, tags = self.drawn(pictures.draw_times, "times", rows)
        for word in (
            "Time by number of states",
            "number of states",
            "processor time, seconds",
            "check, DTMC",
            "solve, DTMC",
            "a",
            "b",
            "faster",
        ):
            self.assertIn(word, words)
        self.assertNotIn("solve, game", words)
        self.assertEqual((tags.count("circle"), tags.count("polygon")), (4, 3))

    def test_widths(self):
        rows = "part,model,states,command,rounds,seconds,width\n" + "".join(
            f"widths,m,1234,{command},7,{seconds},{width}\n"
            for command, seconds, width in (
                ("check", 0.1, "1.0e+00"),
                ("check", 2, "5.0e-03"),
                ("solve", 0.0, "0.0e+00"),
            )
        )
        words, tags = self.drawn(pictures.draw_widths, "widths", rows)
        title = "Width of the bracket by time: m, 1,234 states"
        for word in (title, "check", "solve", "check: 5.0 · 10⁻³", "solve: 0"):
            self.assertIn(word, words)
        self.assertNotIn("check --traps", words)
        self.assertEqual(tags.count("circle"), 2)

    def test_words_beside_each_other(self):
        """Those of one point stand on no others, on no sign and not on the frame; where there is no room are none."""
        picture = Picture("", logarithmic("", 0, 2), logarithmic("", 0, 2))
        picture.dot(10, 10, "")
        for place in ((10, 10), (12, 10), (100, 100), (1, 1)):
            for number in range(5):
                picture.words(*place, f"name {number}")
        boxes = picture.taken
        self.assertEqual(len(boxes), 5)
        for number, (left, top, right, bottom) in enumerate(boxes[1:], 1):
            self.assertTrue(LEFT < left and right < RIGHT and picture.top < top and bottom < BOTTOM)
            for low, above, high, below in boxes[:number]:
                self.assertTrue(right <= low or high <= left or bottom <= above or below <= top)


class Answers(unittest.TestCase):
    def answer_to(self, question, *lines):
        """The answer of these lines to a question about the coin loop, whose value is 1/2."""
        inside, report = parted(question, lines)
        answer = Answer("loop", 3, question, HALF, inside, report[0], 0.0)
        judge_inside(answer)
        judge_bracket(answer, report)
        return answer

    def test_the_line_before_the_report(self):
        line = "state 0 lower 0.500000000000000 upper 0.500000000000000 rounds 50 Bracket"
        plain, nested = ask("Pmax=?", "goal"), ask("Pmax=?", ask("P>=1", "goal"))
        counted = self.answer_to(nested, "inner 1 undecided 0", line)
        self.assertEqual((counted.faults, counted.stored()), ([], f"inner 1 undecided 0, {line}"))
        self.assertEqual(counted.summary(), "Bracket, undecided 0")
        self.assertEqual((self.answer_to(plain, line).faults, self.answer_to(plain, line).stored()), ([], line))
        self.assertEqual(self.answer_to(nested, "inner 1 undecided 3", line).faults, [])
        for lines in (["inner 2 undecided 0", line], ["inner 1 undecided 4", line], ["inner 1", line], [line], []):
            self.assertTrue(self.answer_to(nested, *lines).faults)
        self.assertTrue(self.answer_to(plain, "inner 0 undecided 0", line).faults)

    def test_bounds_with_something_undecided_may_be_wide(self):
        line = "state 0 lower 0.250000000000000 upper 1.000000000000000 steps 3 Bracket"
        nested = ask("Pmax=?", ask("P>=1", "goal"), steps=3)
        self.assertEqual(self.answer_to(nested, "inner 1 undecided 1", line).faults, [])
        self.assertTrue(self.answer_to(nested, "inner 1 undecided 0", line).faults)


MADE_UP = """#!/bin/sh
case "$1 $*" in
    solve*--plan*) echo "$LINE"; echo 'certificate 2 3' ;;
    solve*) echo "$LINE" ;;
    audit*) grep -q certificate "$5" && echo "$AUDIT" ;;
esac
"""
SOLVED = "state 0 lower 0.{} upper 0.{} {} {}"
LOOSE = SOLVED.format("4" + "9" * 14, "5" + "0" * 13 + "1", "solved", "Bracket")


class Solving(InFolder):
    """What is required of `solve`, over a program that is made up, which prints the same lines of every question."""

    def setUp(self):
        super().setUp()
        self.start(mock.patch.dict(os.environ, STOGAME=self.write_command(MADE_UP)))

    def answer(self, line, audit, question=ask("Pmax=?", "goal"), value=HALF):
        os.environ.update(LINE=line, AUDIT=audit)
        return solved(coin_loop(), "none", question, value)

    def test_a_right_answer(self):
        answer = self.answer(LOOSE, LOOSE.replace("solved", "audited"))
        self.assertEqual((answer.faults, answer.line, answer.summary()), ([], LOOSE, "2.0e-15"))

    def test_other_certificates(self):
        for audit in (LOOSE, LOOSE.replace("solved", "audited").replace("49", "48"), "refused cert line 1 Version"):
            self.assertEqual(self.answer(LOOSE, audit).faults, [f"solve: the audit says {audit}"])

    def test_what_is_no_answer(self):
        for line in ("", "refused formula place 4 Unexpected", LOOSE.replace("solved", "rounds 3")):
            answer = self.answer(line, line)
            self.assertEqual(answer.faults[0], "solve: there is no bracket of one initial state")
        self.assertEqual(Solved("", 0.0).summary(), "none")

    def test_a_value_outside(self):
        for value in (Fraction(1, 3), Fraction(2, 3)):
            self.assertEqual(faults_of_line(LOOSE, ask("Pmax=?", "goal"), value), ["the bracket misses the value"])

    def test_values_that_the_graph_decides(self):
        zeros, ends = "0" * 15, "the bounds do not say whether the value is 0 or 1"
        none = SOLVED.format(zeros, zeros, "solved", "Bracket")
        nearly = SOLVED.format(zeros, zeros[1:] + "1", "solved", "Bracket")
        one = none.replace("0.0", "1.0")
        for line, value, faults in (
            (none, 0, []),
            (one, 1, []),
            (nearly, 0, [ends]),
            (none, Fraction(1, 10**20), [ends]),
        ):
            with self.subTest(line=line, value=value):
                found = faults_of_line(line, ask("Pmin=?", "goal"), value)
                self.assertEqual([fault for fault in found if fault == ends], faults)

    def test_verdicts(self):
        line = LOOSE.replace("Bracket", "{}")
        for bound, told in (("P>=0.5", "Undecided"), ("P>0.6", "False"), ("P<=0.6", "True"), ("P>=0.4", "True")):
            question = ask(bound, "goal")
            for verdict in ("True", "False", "Undecided"):
                faults = faults_of_line(line.format(verdict), question, HALF)
                self.assertEqual(not faults, verdict == told)

    def test_what_is_asked(self):
        inner = ask("P>=1", "goal")
        for question in (ask("Pmax=?", "goal", safe="ok"), ask("P>1/3", "!goal", path="G")):
            self.assertTrue(is_taken(question))
        for question in (
            ask("Pmax=?", "goal", path="X"),
            ask("Pmax=?", "goal", steps=3),
            ask("Pmax=?", inner),
            sure("Pmax=?", "goal"),
        ):
            self.assertFalse(is_taken(question))

    def test_one_line_for_a_formula(self):
        path = self.folder / "lines.tsv"
        write_lines(path, ["b", "a", "b", "c"], {"a": "1", "b": "2"})
        self.assertEqual(path.read_text(encoding="ascii"), "b\t2\na\t1\n")
        self.assertEqual(read_lines(path), {"a": "1", "b": "2"})


class Page(InFolder):
    def test_a_section(self):
        """One row for a question; two where it is long; and the verdict of `solve` only where it is another one."""
        value, line = Fraction(1, 3), "state 0 lower 0.25 upper 0.5 {} {}"
        options = ("--rounds", "1000000", "--traps")
        waits = ask("P>=0.2500000001", "goal", options=options, coalition=("anna", "bert", "carl"))
        asked = (
            (ask("Pmax=?", "goal", source=CLOSED, published="0.33"), "Bracket", "Bracket"),
            (ask("P>=0.3", "goal", source=CLOSED), "Undecided", "True"),
            (waits, "Undecided", "Undecided"),
            (ask("Pmin=?", ask("P>=1", "goal"), source=CLOSED), "Bracket", None),
        )
        answers = [
            Answer(
                name="a-1",
                states=3,
                question=question,
                value=value,
                inside="inner 1 undecided 2" if question.inside() else "",
                line=line.format("rounds 1", verdict),
                seconds=0.0,
                solved=Solved(line.format("solved", solved_verdict), 0.0) if solved_verdict else None,
            )
            for question, verdict, solved_verdict in asked
        ]
        answers.append(Answer("b", 4, sure("Pmax=?", "goal"), Fraction(1), "", "sure 4 of 4", 0.0))
        models = [("a-1", Known("`a` 1: `p`", kind=OTHER), (3, 5, 8)), ("b", Known(), (4, 4, 6))]
        head = "| Question | Value | Bracket | Verdict | Width by `solve` |\n|---|---|---|---|---|\n"
        wanted = (
            "before\n<!-- small -->\n\n### a-1\n\n3 states, 5 choices, 8 moves. `a` 1: `p`; another model. "
            "Values: (a) closed form, published as 0.33; (b) closed form;\n(c) computed in fractions.\n\n" + head
            + '| `Pmax=? [ F "goal" ]` | 1/3 (a) | 0.[25,5] | Bracket | 2.5e-01 |\n'
            '| `P>=0.3 [ F "goal" ]` | 1/3 (b) | 0.[25,5] | Undecided | 2.5e-01, True |\n'
            '| `<<anna,bert,carl>> P>=0.2500000001 [ F "goal" ]` `--rounds 1000000 --traps` |  |  |  |  |\n'
            "|  | 1/3 (c) | 0.[25,5] | Undecided | 2.5e-01 |\n"
            '| `Pmin=? [ F P>=1 [ F "goal" ] ]` | 1/3 (b) | 0.[25,5] | Bracket, undecided 2 |  |\n'
            "\n### b\n\n4 states, 4 choices, 6 moves. Values: computed in fractions.\n\n" + head
            + '| `Pmax=? [ F "goal" ]` | 1 |  | sure 4 of 4 |  |\n<!-- end of small -->\nbehind\n'
        )
        path = self.write("page", "before\n<!-- small -->\nold\n<!-- end of small -->\nbehind\n")
        write_markdown(path, "small", answers, models)
        self.assertEqual(path.read_text(encoding="utf-8"), wanted)

    def test_both_bounds(self):
        for bracket, text in (
            (("0.161", "0.163"), "0.16[1,3]"),
            (("0.999", "1.000"), "[0.999,1.000]"),
            (("0.5", "0.5"), "0.5"),
            ((), ""),
        ):
            self.assertEqual(joined(bracket), text)

    def test_contents(self):
        """The page of answers has a link to each model, and its lines are no longer than others."""
        names = ["die-6", "die-8", "chain-8-0.7", *(f"teams-{number}-1-1" for number in range(5))]
        self.assertEqual(
            contents(names),
            "- die: [die-6](#die-6), [die-8](#die-8)\n- chain: [chain-8-0.7](#chain-8-07)\n"
            "- teams: [teams-0-1-1](#teams-0-1-1), [teams-1-1-1](#teams-1-1-1), [teams-2-1-1](#teams-2-1-1),\n"
            "  [teams-3-1-1](#teams-3-1-1), [teams-4-1-1](#teams-4-1-1)\n",
        )
        page = (Path(__file__).resolve().parent / "ANSWERS.md").read_text(encoding="utf-8")
        named = [name for size in SIZES for name, _, _ in instances(size)]
        self.assertIn(f"\n<!-- contents -->\n{contents(named)}<!-- end of contents -->\n", page)

    def test_which_property_is_which_formula(self):
        """Each formula of the table is asked about the family, which names the property; no property stands twice."""
        page = (Path(__file__).resolve().parent / "README.md").read_text(encoding="utf-8")
        rows = re.findall(r"(?m)^\| (`[\w-]+`: `\w+`) \| (\w+) \| `(.*)` \|$", page)
        self.assertEqual((len(rows), len({row[:2] for row in rows})), (15, 15))
        known = {}
        for size in SIZES:
            for _, module, sizes in instances(size):
                name = known_as(module, sizes).name
                for question in module.questions(*sizes):
                    known.setdefault((module.__name__.rpartition(".")[2], question.formula()), []).append(name)
        for there, family, formula in rows:
            with self.subTest(there=there, family=family):
                model, asked = there.split(": ")
                names = known[family, formula]
                self.assertTrue(any(name.startswith(model) and asked in name.split(": ")[1] for name in names), names)

    def test_the_page_has_what_is_stored(self):
        """Each model has its section, in their order, and each stored line its formula there,
        and its bounds or width."""
        here = Path(__file__).resolve().parent
        lines, page = read_lines(here / "lines.tsv"), (here / "ANSWERS.md").read_text(encoding="utf-8")
        sections = dict(part.split("\n", 1) for part in page.split("\n### ")[1:])
        self.assertLessEqual(max(map(len, page.splitlines())), 120)
        self.assertEqual(list(sections), [name for size in SIZES for name, _, _ in instances(size)])
        for key, line in (one for one in lines.items() if "R{" not in one[0]):
            (name, asked), bounds = key.split("\t"), bracket_of(line.split(", ")[-1])
            width = spelt_width(Fraction(bounds[1]) - Fraction(bounds[0])) if bounds else ""
            with self.subTest(model=name, question=asked):
                self.assertIn("| `{}`".format(asked.split("'")[1]), sections[name])
                self.assertIn(width if asked.startswith("solve") else joined(bounds), sections[name])

    def test_the_page_has_what_is_expected(self):
        """Each row of the tables of expected rewards has its stored line, and its bounds on the page."""
        here = Path(__file__).resolve().parent
        lines, page = read_lines(here / "lines.tsv"), (here / "ANSWERS.md").read_text(encoding="utf-8")
        keys = [key_of_row(one) for size in SIZES for one in ROWS[size]]
        self.assertEqual(keys, [key for key in lines if "R{" in key])
        for key in keys:
            with self.subTest(key):
                name, asked = key.split("\t")
                _, found, rest = page.partition("| {} | `{}`".format(name, asked.split("'")[1]))
                self.assertTrue(found)
                self.assertIn(f" {joined(bracket_of(lines[key]))} |", "".join(rest.splitlines()[:2]))


class Drawn(unittest.TestCase):
    def test_the_same_games(self):
        """The same of one seed, with values that no end decides, of which play can stay away at some."""
        questions, opened, between = 40, 0, 0
        for number in range(questions):
            drawn = [drawn_game(random.Random(number)) for _ in range(2)]
            self.assertEqual(drawn[0].texts(), drawn[1].texts())
            question, values = drawn_question(random.Random(number), drawn[0])
            self.assertTrue(is_taken(question))
            opened += stays_open(drawn[0], values)
            between += sum(0 < value < 1 for value in values)
        self.assertGreater(opened, questions // 8)
        self.assertGreater(between, questions)

    def test_play_that_stays_open(self):
        rule = {"a": [[(1, "b")], [(HALF, "goal"), (HALF, "end")]], "b": [[(1, "a")]], "goal": [], "end": []}
        model = Model("a", rule.get, {"goal": lambda name: name == "goal"}, ["x"], lambda name: "x")
        self.assertTrue(stays_open(model, [HALF, HALF, 1, 0]))
        self.assertFalse(stays_open(coin_loop(), [HALF, 1, 0]))

    def test_faults_of_files_of_values(self):
        for text, fault in (
            (b"0.5\n1\n0\n", None),
            (b"\n nan\r\n1/0\n\t-1e999", None),
            (b"0.5\n1\n", (0, "LineCount")),
            (b"0.5\n1\n0\n0\n", (0, "LineCount")),
            (b"", (0, "LineCount")),
            (b"\n0.5\n0,1\n", (3, "BadField")),
            (b"0.5\n1=0\n", (2, "BadField")),
            (b"0.5\n1\n0\r", (3, "BadField")),
            (b"1=0.5\n\n0:(1,2)=.5\n", None),
            (b"1=0.5\n (0) : (1, =2) : 5.\n", None),
            (b"1=0.5\n3=0.5\n", (2, "StateOutOfRange")),
            (b"1=0.5\n(1)=0.5\n", (2, "DoubleState")),
            (b"1=0.5\n0==0.5\n", (2, "BadField")),
            (b"1=0.5\n0.5\n", (2, "BadField")),
        ):
            self.assertEqual(fault_of(text, 3), fault, text)

    def test_files_of_many_kinds(self):
        faults = [fault_of(drawn_values(random.Random(number), 4), 4) for number in range(100)]
        causes = [fault and fault[1] for fault in faults]
        for cause in (None, "BadField", "LineCount", "StateOutOfRange", "DoubleState"):
            self.assertGreater(causes.count(cause), 1, cause)

    def test_turns_of_stiff_models(self):
        """Of a loop that is left by one half, of a state before it, and of one that is never left."""
        rows = [{0: HALF, None: HALF}, {0: Fraction(1)}, {2: Fraction(1)}]
        self.assertEqual(stiff.expected_turns(rows), [2, 3, float("inf")])


class Questions(unittest.TestCase):
    def test_formulas(self):
        self.assertEqual(ask("Pmax=?", "goal").formula(), 'Pmax=? [ F "goal" ]')
        until = ask("P>=1/2", "goal", safe="!bad", coalition=("a", "b"))
        self.assertEqual(until.formula(), '<<a,b>> P>=1/2 [ !"bad" U "goal" ]')
        self.assertEqual(sure("P>=1", "goal").title(), """sure 'P>=1 [ F "goal" ]'""")

    def test_paths(self):
        self.assertEqual(ask("Pmax=?", "goal", steps=3).formula(), 'Pmax=? [ F<=3 "goal" ]')
        self.assertEqual(ask("Pmax=?", "goal", safe="ok", steps=3).formula(), 'Pmax=? [ "ok" U<=3 "goal" ]')
        self.assertEqual(ask("Pmin=?", "!bad", path="G").formula(), 'Pmin=? [ G !"bad" ]')
        self.assertEqual(ask("P>0", "goal", path="X").horizon(), 1)

    def test_duals(self):
        dual = ask("P>=1/3", "!bad", Fraction(1, 4), path="G").dual()
        self.assertEqual((dual.formula(), dual.value), ('P<=2/3 [ F !!"bad" ]', Fraction(3, 4)))
        self.assertEqual(ask("Pmax=?", "ok", path="G").dual().formula(), 'Pmin=? [ F !"ok" ]')

    def test_questions_with_formulas_inside(self):
        inner = ask("P<0.3", "a", path="X", coalition=("p0",))
        outer = ask("P>=0.6", inner, safe=("!", inner))
        text = '<<p0>> P<0.3 [ X "a" ]'
        self.assertEqual(outer.formula(), f"P>=0.6 [ !{text} U {text} ]")
        self.assertEqual(outer.inside(), [inner, inner])
        always = ask("P>=1/3", outer, path="G")
        self.assertEqual(always.dual().formula(), f"P<=2/3 [ F !{outer.formula()} ]")
        self.assertEqual(len(always.inside()), 3)

    def test_sides(self):
        self.assertTrue(ask("P<=1", "goal").maximises(None))
        self.assertFalse(ask("P>=1", "goal").maximises(None))
        self.assertTrue(ask("P>=1", "goal", coalition=("a",)).maximises("a"))
        self.assertFalse(ask("P>=1", "goal", coalition=("a",)).maximises("b"))
        self.assertFalse(ask("Pmin=?", "goal", coalition=("a",)).maximises("a"))

    def test_thresholds(self):
        self.assertTrue(ask("P>=1/2", "goal").is_true_of(HALF))
        self.assertFalse(ask("P>0.5", "goal").is_true_of(HALF))
        self.assertEqual(ask("Pmax=?", "goal").limit, None)
