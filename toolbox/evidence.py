"""Evidence for the answer to a question: certificates that both audits accept, and steps that both make alike.

A formula with others inside is taken apart, innermost first. Each part has none inside and is asked over a label file
of its own, where the labels `inside_1`, `inside_2` and so on have the states at which the first part, the second one
and so on hold. All parts but the last, which is the formula itself, are asked at every state: each has the label
`init`.
"""

import re
import sys
from collections import namedtuple
from pathlib import Path

from toolbox import explicit, programs
from toolbox.endings import Ending, Refusal
from toolbox.formulas import Reader, labels_named
from toolbox.model import mark_text, states_by_mark
from toolbox.reward_formulas import rewards_asked

REAUDIT = programs.ROOT / "tools" / "reaudit"
UNDECIDED = 2

Part = namedtuple("Part", "number formula steps labels certificate asker report second true")
Part.__doc__ = """A part that was answered: its number and formula; its bound on the steps or None; the texts of its
label file and of its certificate, or None; who answered, with the run, and the run of the second audit; and the states
at which it holds, where it was asked at every state."""


class Names(namedtuple("Names", "suffix")):
    """The labels for the parts; their suffix makes each another one than those of the given label file."""

    def inside(self, number):
        return f"inside_{number}{self.suffix}"

    def init(self):
        """What the `init` of the given label file is called where every state has the label `init`."""
        return f"given_init{self.suffix}"


def names_beside(labels):
    suffix = ""
    while any(re.fullmatch(f"(inside_[0-9]+|given_init){suffix}", label.decode()) for label in labels):
        suffix += "_"
    return Names(suffix)


def taken_apart(text, names):
    """The formulas of a formula, innermost first and itself last, with labels in place of those inside."""
    found, around, part, is_begun = [], [], "", True
    for blanks, word in Reader(text).tokens():
        if not is_begun and word in ("<<", "P", "Pmax", "Pmin"):
            around.append(part + blanks)
            blanks, part, is_begun = "", "", True
        if around and word == '"init"':
            word = f'"{names.init()}"'
        part += blanks + word
        is_begun = is_begun and word != "["
        if word == "]" and around:
            found.append(part)
            part = f'{around.pop()}"{names.inside(len(found))}"'
    return [*found, part.strip()]


def formula_of(files, text):
    """The formula of a text, one of rewards where the files have some."""
    return rewards_asked(text) if "paid" in files else Reader(text).whole()


def is_nested(formula):
    return len(taken_apart(formula, Names(""))) > 1


def labels_of(formula):
    """The labels that a formula names, each once."""
    return list(dict.fromkeys(word[1:-1] for _, word in Reader(formula).tokens() if word.startswith('"')))


def label_text(marks):
    """The text of a label file; `marks` gives for each label a byte for each state."""
    labels = {label: [state for state, bit in enumerate(bits) if bit] for label, bits in marks.items()}
    return mark_text(labels, states_by_mark(labels))


class Argument:
    """The parts of an argument, answered in turn, with their files in a folder of its own.

    `certificate_of` gives the name of the file of a certificate of a part, by its number and the words of its question,
    and what the file is called where it is refused.
    """

    def __init__(self, files, formula, room, certificate_of):
        self.files, self.formula, self.room, self.certificate_of = files, formula, Path(room), certificate_of
        self.own = ["--own", files["own"]] if "own" in files else []
        self.paid = ["--rewards", files["paid"]] if "paid" in files else []
        self.names, self.whole, self.states = Names(""), None, None
        if not self.paid and is_nested(formula):
            self.whole = programs.answered("solve", self.question(files["lab"], formula))
            self.states = explicit.header_of(files["tra"]).states
            self.given = explicit.read_labels(files["lab"], self.states)
            self.names = names_beside(self.given)
        self.formulas = [formula] if self.paid else taken_apart(formula, self.names)
        self.parts = []
        for number, part in enumerate(self.formulas, 1):
            self.parts.append(self.answered(number, part))
        if self.whole:
            self.compare()

    def compare(self):
        """Refuses an argument whose bounds on a value are apart from those that the program finds by itself."""
        last = reported(self.parts[-1].report)
        for state, (low, high, _) in reported(self.whole).items():
            if low > last[state][1] or last[state][0] > high:
                raise Refusal("solve", None, f"its bounds at state {state} are apart from those of the steps")

    def question(self, labels, formula):
        return [self.files["tra"], str(labels), formula, *self.own, *self.paid]

    def answered(self, number, formula):
        """A part, with the evidence for it."""
        name, text = self.files["lab"], None
        if self.whole:
            name, text = self.room / f"labels_{number}", label_text(self.marks(number, formula))
            name.write_text(text, encoding="ascii")
        question, steps, certificate = self.question(name, formula), formula_of(self.files, formula).horizon(), None
        if steps is None:
            path, shown = self.certificate_of(number, question)
            report, second = programs.audited(question, path, shown), second_of(question, path)
            certificate = certificate_text(path, first_word(self.files))
        else:
            shown = formula
            report, second = programs.answered("check", question), second_of(question)
        if (report.status, report.output) != (second.status, second.output.replace(" reaudited ", " audited ")):
            raise Refusal(shown, None, f"the second audit says otherwise: {programs.first_line(second)}")
        asker = "check" if certificate is None else "audit"
        true = self.true_states(formula, report) if number < len(self.formulas) else None
        return Part(number, formula, steps, text, certificate, asker, report, second, true)

    def true_states(self, formula, report):
        """The states at which a formula holds, by a line about each state; refused where one of them is undecided."""
        verdicts = {state: verdict for state, (_, _, verdict) in reported(report).items()}
        undecided = [state for state in range(self.states) if verdicts.get(state) not in ("True", "False")]
        if undecided:
            more = f", and at {len(undecided) - 1} more" if undecided[1:] else ""
            raise Ending(UNDECIDED, f"the formula inside, {formula}, is undecided at state {undecided[0]}{more}")
        return {state for state, verdict in verdicts.items() if verdict == "True"}

    def marks(self, number, formula):
        """The labels of the label file of a part, of which each state has `init` but in the last part."""
        is_last = number == len(self.formulas)
        given = self.given.get(b"init", bytearray(self.states))
        marks = {"init": given if is_last else bytearray([1]) * self.states}
        inside = {self.names.inside(part.number): part.true for part in self.parts}
        for label in labels_of(formula):
            if label in inside:
                marks[label] = bytearray(state in inside[label] for state in range(self.states))
            elif label == self.names.init():
                marks[label] = given
            elif label != "init":
                marks[label] = labels_named(self.given, label)
        return marks


def second_of(question, *certificate):
    """The run of the second audit."""
    return programs.run(sys.executable, REAUDIT, *question[:3], *certificate, *question[3:])


def reported(run):
    """The lower bound, the upper bound and the verdict at each state that a run reports; bounds have one width."""
    found = filter(None, map(programs.REPORT.fullmatch, run.output.splitlines()))
    return {int(line[1]): line.groups()[1:] for line in found}


def first_word(files):
    """What a certificate begins with, which is of rewards where the files have some."""
    return "rewards" if "paid" in files else "certificate"


def certificate_text(name, word):
    """The text of the certificate in a file, behind whatever stands before it and before blank lines."""
    lines = lines_of(name)
    return "\n".join(lines[certificate_place(lines, name, word) :]).rstrip() + "\n"


def certificate_place(lines, name, word):
    """The place of the first line that begins with this word."""
    for place, line in enumerate(lines):
        if line.split()[:1] == [word]:
            return place
    raise Refusal(name, None, f"no line begins with '{word}'")


def lines_of(name):
    with explicit.open_bytes(name) as file:
        return file.read().decode("utf-8", "surrogateescape").split("\n")
