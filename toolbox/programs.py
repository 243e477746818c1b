"""The built program: where it is, how it is run and asked, and what its lines say."""

import os
import re
import subprocess
from collections import namedtuple
from fractions import Fraction
from pathlib import Path

from toolbox.endings import REFUSED, UNREAD, Refusal, cause_of

ROOT = Path(__file__).resolve().parent.parent
BUILT = ROOT / "crates" / "stogame" / "out" / "stogame"

ANSWERED, WITHOUT_ANSWER = (0, 1, 2), range(3, 10)
UNIT = Fraction(1, 10**15)
TRUTHS = {"True": True, "False": False}

REPORT = re.compile(r"state ([0-9]+) lower (\S+) upper (\S+) .* (\w+)")

CERTIFICATE = re.compile("^(certificate|rewards) ", re.M)

Ended = namedtuple("Ended", "status output errors")


def program(named=None):
    """The program that is named by an argument, and without that the one that STOGAME names, else the one that was
    built here."""
    path = named or os.environ.get("STOGAME") or BUILT
    if not os.access(path, os.X_OK):
        raise Refusal(path, None, "no program: call ./stogame, which builds it, or name one by STOGAME", UNREAD)
    return os.path.abspath(path)


def run(*words, room=None, seconds=None):
    """Runs a command, where they are given in a folder and for so many seconds at most."""
    words = list(map(str, words))
    try:
        ended = subprocess.run(
            words, cwd=room, capture_output=True, text=True, stdin=subprocess.DEVNULL, timeout=seconds, check=False
        )
    except OSError as error:
        raise Refusal(words[0], None, f"it does not run: {cause_of(error)}", UNREAD) from error
    return Ended(ended.returncode, ended.stdout, ended.stderr)


# who answers a question, by name: a command and its options
ASKERS = {"check": ["check"], "traps": ["check", "--traps"], "solve": ["solve"]}


def certificate_by(asker, question):
    """The text of a certificate for a question, the words `TRA LAB FORMULA [--own FILE] [--rewards FILE]`; refused with
    the line of who made none."""
    command, *options = ASKERS[asker]
    workers = ["--workers", "1"] if command == "check" else []
    ended = run(program(), command, *question, "--plan", *options, *workers)
    if not CERTIFICATE.search(ended.output):
        raise Refusal(asker, None, first_line(ended), status_of(ended))
    return ended.output


def audited(question, name, shown=None):
    """The run of an audit that accepts a certificate file; a refusal calls it by the second name, if there is one."""
    ended = run(program(), "audit", *question[:3], name, *question[3:])
    if " audited " not in ended.output:
        raise Refusal(shown or name, None, first_line(ended), status_of(ended))
    return ended


def answered(command, question):
    """The run of a command that answers a question."""
    ended = run(program(), command, *question)
    if ended.status not in ANSWERED:
        raise Refusal(command, None, first_line(ended), status_of(ended))
    return ended


def status_of(ended):
    """The status of a run without an answer; one that was ended otherwise counts as refused."""
    return ended.status if ended.status in WITHOUT_ANSWER else REFUSED


def first_line(ended):
    """What a run said: its first line, whichever way it came."""
    lines = (ended.errors + ended.output).splitlines()
    return lines[0] if lines else f"ended with status {ended.status} and no word"


def answered_by(asker, question):
    """Who answers a question, and the run whose output is the report; `check` where another one does not take the
    formula."""
    command, *options = ASKERS[asker]
    ended = run(program(), command, *question, *options)
    if ended.output.endswith("WrongKind\n"):
        return "check", run(program(), "check", *question)
    return asker, ended


# Models of the gallery


def asked(command, path, model, question, *rest):
    """The ended run of a command about a model whose files have this path; its other words stand behind the formula."""
    own = ["--own", f"{path}.own"] if model.players else []
    return run(program(), command, f"{path}.tra", f"{path}.lab", question.formula(), *rest, *own)


def failures(ended):
    """A fault where a run ended without an answer, or wrote an error."""
    if ended.status in ANSWERED and not ended.errors:
        return []
    return [f"status {ended.status} {ended.errors.strip()}"]


def bracket_of(line):
    """The lower and the upper bound as a line of a report has them, or nothing where it has none."""
    words = line.split()
    return (words[3], words[5]) if words[:1] == ["state"] else ()


def width_of(line):
    """How far the bounds of a line of a report lie apart, or none where it has none."""
    bracket = bracket_of(line)
    return Fraction(bracket[1]) - Fraction(bracket[0]) if bracket else None


def verdict_of(line):
    """The verdict of a line of a report, or the whole line where it has none."""
    return line.split()[-1] if bracket_of(line) else line
