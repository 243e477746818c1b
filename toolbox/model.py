"""Models whose states are named by tuples: found from the first state, and written as PRISM's explicit files.

A family gives a rule: for the name of a state a list of choices, each a list of pairs of a probability and the name of
a next state. A state without a choice stays where it is for ever. Probabilities are exact fractions, and so are those
in the files. The first state has the number 0 and the label `init`; the others follow breadth first. A family also
has the questions that are asked of its models, each with what the answer has to be.
"""

import re
from dataclasses import dataclass, replace
from fractions import Fraction
from typing import Optional

from toolbox.explicit import header_line, write_files
from toolbox.formulas import TRUE, Formula, Spelt

MOST_DIGITS = 30
CLOSED = "closed form"
COMPUTED = "computed in fractions"
BACKWARD, BY_RULE = COMPUTED + ", backward", COMPUTED + ", by the rule"
HALF = Fraction(1, 2)


class Model:
    """A Markov chain, a Markov decision process or, where players are named, a turn-based stochastic game."""

    def __init__(self, first, rule, labels, players=(), owner=None):
        """Finds all states; `labels` has for each label the test of a state's name, `owner` gives a state's player."""
        self.names, self.choices = explored(first, rule)
        self.labels = {"init": [0]}
        for label, holds in labels.items():
            self.labels[label] = [number for number, name in enumerate(self.names) if holds(name)]
        self.players = list(players)
        self.owners = [self.players.index(owner(name)) for name in self.names] if players else []

    def __len__(self):
        return len(self.names)

    def counts(self):
        """How many states, choices and moves there are."""
        moves = sum(len(choice) for choices in self.choices for choice in choices)
        return len(self), sum(map(len, self.choices)), moves

    def is_chain(self):
        return not self.players and all(len(choices) == 1 for choices in self.choices)

    def texts(self):
        """The texts of the model's files, by the ending of their names."""
        texts = {"tra": transition_text(self), "lab": mark_text(self.labels, states_by_mark(self.labels))}
        if self.players:
            texts["own"] = mark_text(self.players, enumerate([owner] for owner in self.owners))
        return texts

    def write(self, path):
        write_files((f"{path}.{ending}", text) for ending, text in self.texts().items())


def explored(first, rule):
    """The names of all states that the rule leads to, and for each its choices, over numbers."""
    numbers, names, choices = {first: 0}, [first], []
    for name in names:
        choices.append([])
        for choice in rule(name) or [[(1, name)]]:
            merged = {}
            for probability, successor in choice:
                if probability == 0:
                    continue
                if successor not in numbers:
                    numbers[successor] = len(names)
                    names.append(successor)
                number = numbers[successor]
                merged[number] = merged.get(number, 0) + probability
            if sum(merged.values()) != 1:
                raise ValueError(f"the probabilities of a choice of {name} do not add up to 1")
            choices[-1].append(dict(sorted(merged.items())))
    return names, choices


def spelt(probability):
    """A probability as a decimal where it has one of few digits, and else as a fraction."""
    numerator, denominator = Fraction(probability).as_integer_ratio()
    for places in range(MOST_DIGITS):
        if 10**places % denominator == 0:
            digits = f"{numerator * 10**places // denominator:0{places + 1}}"
            return digits if places == 0 else f"{digits[:-places]}.{digits[-places:]}"
    return f"{numerator}/{denominator}"


def transition_text(model):
    """The transition file: that of a Markov chain where each state has one choice, else that of a decision process."""
    chain, spellings, lines = model.is_chain(), {}, []
    for state, choices in enumerate(model.choices):
        for number, choice in enumerate(choices):
            source = str(state) if chain else f"{state} {number}"
            for successor, part in choice.items():
                if part not in spellings:
                    spellings[part] = spelt(part)
                lines.append(f"{source} {successor} {spellings[part]}\n")
    counts = [len(model), len(lines)] if chain else [len(model), sum(map(len, model.choices)), len(lines)]
    return " ".join(map(str, counts)) + "\n" + "".join(lines)


def states_by_mark(labels):
    """Pairs of a state and the indices of its labels, by rising state."""
    marks = {}
    for index, states in enumerate(labels.values()):
        for state in states:
            marks.setdefault(state, []).append(index)
    return sorted(marks.items())


def mark_text(names, marks):
    """A label file or an owner file: a header of names, and for each state the indices of its names."""
    return header_line(names) + "".join(f"{state}: {' '.join(map(str, indices))}\n" for state, indices in marks)


# Questions


@dataclass(frozen=True)
class Question(Formula):
    """A formula with the independent value at the first state, or none where it is computed exactly.

    `published` is the value as it is published for this model, in decimals.
    """

    value: Optional[Fraction] = None
    source: str = COMPUTED
    options: tuple = ()
    command: str = "check"
    published: str = ""

    def title(self):
        """The question as a person would type it, without the files."""
        return " ".join([self.command, f"'{self.formula()}'", *self.options])

    def dual(self):
        return replace(super().dual(), value=None if self.value is None else 1 - self.value)


def ask(bound, goal, value=None, source=COMPUTED, safe=None, path="F", steps=None, coalition=None, **rest):
    """A question of a bound as it is written, such as `Pmax=?` or `P>=0.5`.

    `goal` and `safe` are labels, or `!label`, or state formulas; the formula is `path goal`, where `path` is `F`, `X`
    or `G`, or `safe U goal` where `safe` is given. `steps` bounds the steps of `F` and `U`.
    """
    found = re.fullmatch("P([<>]=?)(.*)", bound)
    sign, limit = (found[1], Spelt(found[2])) if found else (bound[: -len("=?")], None)
    path, left = "U" if path == "F" else path, TRUE if safe is None else side(safe)
    return Question(coalition, sign, limit, path, left, side(goal), steps, value, source, **rest)


def side(text):
    """The state formula of a label, or of `!label`."""
    if not isinstance(text, str):
        return text
    return ("!", ("label", text[1:])) if text.startswith("!") else ("label", text)


def sure(bound, goal, **rest):
    """Asks from which states the maximiser reaches the goal almost surely; `value` 1 says from all states."""
    return ask(bound, goal, command="sure", **rest)
