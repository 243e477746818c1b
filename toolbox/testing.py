"""Tests share these folders, these ways to run a tool (as a command, or in this process) and these certificates."""

import contextlib
import importlib.util
import io
import os
import sys
import tempfile
import unittest
from functools import cached_property, lru_cache
from importlib.machinery import SourceFileLoader
from pathlib import Path
from unittest import mock

from gallery.families import instances
from toolbox.endings import Refusal, ended
from toolbox.programs import BUILT, ROOT, program, run

TOOLS, EXAMPLES, MODELS = ROOT / "tools", ROOT / "examples", ROOT / "gallery" / "models"
SAMPLES = TOOLS / "samples"
# Tests use what the trials draw and damage.
sys.path.append(str(ROOT / "gallery" / "trials"))
ROUNDS = "300"

# These are the files of the game of two players, the usual question about it, and the certificate for that question.
GAME = [str(EXAMPLES / f"two_players.{ending}") for ending in ("tra", "lab", "own")]
FORMULA = '<<p1>> P>=0.6 [ F "goal" ]'
CERTIFICATE = """certificate 2 4
0 0.650000000000000 1 1 0.650000000000000 -
1 0.200000000000000 - 1 0.200000000000000 1
2 1.000000000000000 - 0 1.000000000000000 -
3 0.000000000000000 - 0 0.000000000000000 -
"""

has_program = os.access(os.environ.get("STOGAME") or BUILT, os.X_OK)
needs_program = unittest.skipUnless(has_program, "no built program: build it, or name one by STOGAME")


def run_tool(name, *words):
    return run(sys.executable, TOOLS / name, *words)


@lru_cache(maxsize=None)
def load(name):
    """Loads a command as a module."""
    loader = SourceFileLoader(name, str(TOOLS / name))
    spec = importlib.util.spec_from_loader(name, loader)
    module = importlib.util.module_from_spec(spec)
    loader.exec_module(module)
    return module


def call_tool(name, *words):
    """Runs a tool in this process and returns its status, output and errors. The tool has to end by `ended`. A thousand
    such calls take seconds instead of minutes."""
    output, errors = io.StringIO(), io.StringIO()
    asked = mock.patch.object(sys, "argv", [name, *map(str, words)])
    with asked, contextlib.redirect_stdout(output), contextlib.redirect_stderr(errors):
        try:
            ended(name, load(name).main)
        except SystemExit as end:
            status = end.code
    return status or 0, output.getvalue(), errors.getvalue()


class InFolder(unittest.TestCase):
    """Each test has a folder of its own."""

    def setUp(self):
        folder = tempfile.TemporaryDirectory()
        self.addCleanup(folder.cleanup)
        self.folder = Path(folder.name)

    def start(self, patch):
        """Starts a patch, which lasts until the test ends."""
        patch.start()
        self.addCleanup(patch.stop)

    def write(self, name, text):
        path = self.folder / name
        path.write_text(text, encoding="ascii")
        return path

    def write_command(self, text):
        """Writes a made-up program and makes it executable."""
        path = self.write("program", text)
        path.chmod(0o755)
        return str(path)

    def written(self):
        """Returns the texts of all files in the folder, by name."""
        return {path.name: path.read_text(encoding="ascii") for path in self.folder.iterdir()}

    def answered(self, line, *words):
        """Requires that the program answers a question, and that its output begins with this line."""
        status, output, errors = run(program(), "check", *words)
        self.assertEqual((status, errors), (0, ""), output)
        self.assertTrue(output.startswith(line), output)

    def refused(self, line, cause, ask, *words):
        """Requires that a call is refused at this line with this cause."""
        with self.assertRaises(Refusal) as caught:
            ask(*words)
        self.assertEqual((caught.exception.line, caught.exception.cause), (line, cause))


class Certified:
    """This is a question about a model. Its certificate is made when it is first asked for; `entries` has the fields of
    each line."""

    def __init__(self, name, words, model, question):
        self.name, self.words, self.model, self.question = name, words, model, question

    @cached_property
    def text(self):
        return run(program(), "check", *self.words, "--plan", "--workers", "1", "--rounds", ROUNDS)[1]

    @cached_property
    def start(self):
        """Returns the number of lines before the certificate."""
        return next(number for number, line in enumerate(self.text.splitlines()) if line.startswith("certificate "))

    @property
    def entries(self):
        return [line.split() for line in self.text.splitlines()[self.start + 1 :]]

    @property
    def formula(self):
        return self.text.splitlines()[self.start - 1].split(" ", 1)[1]

    def files(self):
        """Returns the words for a tool that takes the files as options."""
        tra, lab, _, *own = self.words
        return ["--tra", tra, "--lab", lab, *own]

    def states(self):
        return len(self.model)


@lru_cache(maxsize=None)
def certified_questions():
    """Returns all questions of `check` that can have a certificate, in the order of the models."""
    return [one for one in plain_questions() if one.question.horizon() is None]


def stepped_questions():
    """Returns the model's name and the words of each question of `check` with bounded steps and no formula inside."""
    return [(one.name, one.words) for one in plain_questions() if one.question.horizon() is not None]


@lru_cache(maxsize=None)
def plain_questions():
    """Returns all questions of `check` with no formula inside, in the order of the models."""
    found = []
    for name, module, sizes in instances("small"):
        model, own = module.model(*sizes), MODELS / f"{name}.own"
        files, owners = [str(MODELS / f"{name}.{ending}") for ending in ("tra", "lab")], ["--own", str(own)]
        for question in module.questions(*sizes):
            if question.command == "check" and not question.inside():
                words = [*files, question.formula(), *(owners if own.exists() else [])]
                found.append(Certified(name, words, model, question))
    return found


def certified_models():
    """Returns the first question about each model that can have a certificate."""
    first = {}
    for one in certified_questions():
        first.setdefault(one.name, one)
    return list(first.values())
