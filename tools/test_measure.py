"""Tests of tools/measure, over a program that is made up, and over the built one where there is one."""

import sys
import unittest
from unittest import mock

from gallery.families import die, wind
from toolbox.exact import determinacy
from toolbox.model import ask
from toolbox.testing import InFolder, load, needs_program, program, run_tool

measure = load("measure")

# a program of three commands that answers the same of every model
MADE_UP = """#!/bin/sh
case "$1" in
    "") echo 'usage: stogame check TRA LAB FORMULA | audit TRA LAB FORMULA CERT | sure TRA LAB FORMULA'; exit 3 ;;
    sure) echo 'sure 1 of 5' ;;
    audit) test -f "$5" && echo 'state 0 lower 0.250000000000000 upper 0.500000000000000 audited Bracket' ;;
    check)
        echo 'state 0 lower 0.250000000000000 upper 0.750000000000000 rounds 7 Bracket'
        echo 'formula Pmax=? [ F "won" ]'
        echo 'certificate 2 2'
        echo '0 0.250000000000000 1 1 0.750000000000000 -'
        echo '1 0.000000000000000 - 0 0.000000000000000 -' ;;
esac
"""
STALL = measure.Entry("traps", "stall-1", '<<max>> Pmax=? [ F "won" ]')


class MadeUp(InFolder):
    def setUp(self):
        super().setUp()
        self.program = self.write_command(MADE_UP)
        self.files = measure.Files(STALL, self.folder)

    def test_the_files_of_a_model(self):
        """Two rooms, the play, and its two ends; each room has two choices, of which one pays with two moves."""
        self.assertEqual((self.files.states, self.files.choices, self.files.moves), (5, 7, 9))
        self.assertEqual(self.files.kind(), "game")

    def test_a_row_of_a_model(self):
        row = measure.model_row(self.files, self.program)
        self.assertEqual(measure.model_cells(row), ["traps", "stall-1", "game", "5", "7", "9", "60.0 %"])

    def test_only_commands_that_there_are(self):
        names = [command.name for command in measure.offered(self.program)]
        self.assertEqual(names, ["check", "check, 4 workers", "check --traps", "check --plan", "audit"])

    def test_rows_of_runs(self):
        rows = list(measure.run_rows(self.files, measure.offered(self.program), self.program, 60))
        self.assertEqual([row["width"] for row in rows], ["5.0e-01"] * 4 + ["2.5e-01"])
        self.assertEqual([row["rounds"] for row in rows], ["7"] * 4 + [""])
        self.assertTrue(all(float(row["seconds"]) < 10 and float(row["megabytes"]) > 0 for row in rows))

    def test_rows_of_widths(self):
        rows = list(measure.width_rows(self.files, measure.offered(self.program), self.program, 60))
        self.assertEqual([row["command"] for row in rows], ["check", "check --traps"], "no more rounds are made than 7")

    def test_cells_of_a_run(self):
        row = {"model": "m", "command": "check", "rounds": "7", "seconds": "1.5", "clock": "2", "width": "1.0e-15"}
        self.assertEqual(measure.run_cells({**row, "megabytes": "17.3"})[4], "under 20 MB")
        self.assertEqual(measure.run_cells({**row, "megabytes": "123.4"})[4], "123 MB")

    def test_a_run_that_takes_too_long_is_given_up(self):
        run = measure.run_once(["sleep", "20"], 0.1, self.folder / "out")
        self.assertEqual((run.status, run.is_answered(), run.line), (None, False, ""))
        row = {**dict.fromkeys(measure.FIELDS["runs"], ""), "model": "m", "command": "check"}
        self.assertEqual(measure.run_cells(row), ["m", "`check`", "", "given up", "", ""])

    def test_rows_take_their_place(self):
        heads = "\t".join(measure.COLUMNS)
        blank = "\t" * (len(measure.COLUMNS) - 3)
        text = f"{heads}\nmodels\tg\ta{blank}\nruns\tg\told{blank}\nwidths\t\tc{blank}\n"
        self.start(mock.patch.object(measure, "STORED", self.write("measured.tsv", text)))
        measure.store("runs", [{"group": "g", "model": "new"}])
        self.assertEqual(measure.STORED.read_text(encoding="ascii"), text.replace("old", "new"))


class Words(unittest.TestCase):
    def test_words_of_a_script(self):
        self.assertEqual(measure.arranged(["7", "--game", "2"], "name"), ["7", "2", "name", "--game"])

    def test_rounds(self):
        self.assertEqual(measure.rounds_up_to(100), [1, 3, 10, 30, 100])
        self.assertEqual(measure.rounds_up_to(10), [1, 3, 10])

    def test_faults(self):
        self.assertEqual(run_tool("measure", "small", "--program", "none")[0], 5)
        status, _, errors = run_tool("measure", "small", "--store", "--program", sys.executable)
        said = "measure: only what is measured in full is stored; measure --help says more\n"
        self.assertEqual((status, errors), (3, said))

    def test_columns_of_the_stored_rows(self):
        rows = measure.stored()
        self.assertEqual(list(rows[0]), measure.COLUMNS)
        self.assertEqual({row["part"] for row in rows}, set(measure.FIELDS))


@needs_program
class Shares(InFolder):
    def test_states_strictly_between(self):
        """The share by the program against values in fractions."""
        for module, sizes, question in (
            (die, (6,), ask("Pmax=?", "one")),
            (wind, (4, 1), ask("Pmax=?", "goal", coalition=("robot",))),
        ):
            model = module.model(*sizes)
            between = sum(0 < value < 1 for value in determinacy(model, question))
            name = "-".join([module.__name__.rpartition(".")[2], *map(str, sizes)])
            files = measure.Files(measure.Entry("", name, question.formula()), self.folder)
            share = f"{between / len(model):.3f}"
            self.assertEqual(measure.model_row(files, str(program()))["between"], share)
