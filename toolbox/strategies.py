"""Strategies: a choice for a state, by number or by the name of its action; as users write them and as PRISM and Storm
export them; and the models that they induce, in which at each state of one side one choice is left."""

import json
import re

from toolbox.endings import Refusal
from toolbox.explicit import field_rows, header_of, open_bytes, shown, write_files
from toolbox.rewards import Refused, read_rewards, text_of

LINE = re.compile(r"(?:([0-9]+)|\(([^()]*)\))\s*[:=\s]\s*(\S+)\Z")


def read_strategy(name, names, valuations=None):
    """A map from each state that is named to its choice and the number of its line."""
    with open_bytes(name) as file:
        text = file.read().decode("ascii", "backslashreplace")
    rows = json_rows(name, text, names) if text.lstrip().startswith("[") else text_rows(name, text)
    places = {tuple(values): state for state, values in enumerate(valuations.values)} if valuations else {}
    found = {}
    for number, place, word in rows:
        state = state_of(name, number, place, places, names.model.states)
        if state in found:
            raise Refusal(name, number, f"state {state} stands a second time")
        try:
            found[state] = names.number_of(state, word), number
        except ValueError as fault:
            raise Refusal(name, number, str(fault)) from None
    return found


def state_of(name, number, place, places, states):
    """The state of this number, or of these values."""
    state = places.get(place) if isinstance(place, tuple) else place
    if state is None:
        raise Refusal(name, number, f"no state has the values ({','.join(place)}); --sta names the list of states")
    if state >= states:
        raise Refusal(name, number, f"{state} is no state")
    return state


def text_rows(name, text):
    """For each line its number, its state by number or by values, and the word of its choice."""
    for number, line in enumerate(text.split("\n"), 1):
        found = LINE.match(line.strip())
        if found:
            yield number, int(found[1]) if found[1] else tuple(part.strip() for part in found[2].split(",")), found[3]
        elif line.strip():
            raise Refusal(name, number, "no state and choice")


def json_rows(name, text, names):
    """The same of a scheduler in JSON. It names no lines, so the number is that of the object."""
    try:
        objects = json.loads(text)
    except json.JSONDecodeError as fault:
        raise Refusal(name, fault.lineno, f"no JSON: {fault.msg}") from None
    for number, one in enumerate(objects, 1):
        try:
            state, choices = one["s"], one["c"]
            place = tuple(map(written, state.values())) if isinstance(state, dict) else int(state)
            if choices == "undefined":
                continue
            (choice,) = [choice for choice in choices if choice["prob"] != 0]
            yield number, place, json_word(choice, place, names)
        except (KeyError, TypeError, ValueError, IndexError):
            raise Refusal(name, None, f"object {number}: no state with one choice") from None


def json_word(choice, place, names):
    """The number of a choice within its state, where the state is told by number; else its label."""
    if isinstance(place, int) and "index" in choice:
        return str(choice["index"] - names.model.choice_start[place])
    (label,) = choice["labels"]
    return label


def written(value):
    """A value as a list of states has it."""
    return str(value).lower() if isinstance(value, bool) else str(value)


# Names of choices


class ChoiceNames:
    """The names of the actions of a model's choices, or None for those that have none."""

    def __init__(self, model, names):
        self.model = model
        self.names = names

    def name(self, state, number):
        return self.names[self.model.choice_start[state] + number]

    def count(self, state):
        return len(self.model.choices_of(state))

    def number_of(self, state, word):
        """The choice that a word names: by the action that one choice alone has, else by number;
        ValueError says the fault."""
        numbers = [number for number in range(self.count(state)) if self.name(state, number) == word]
        if len(numbers) > 1:
            raise ValueError(f"state {state} has {len(numbers)} choices of the name {word}; give the number")
        if numbers:
            return numbers[0]
        if not (word.isascii() and word.isdigit()):
            raise ValueError(f"state {state} has no choice of the name {word}")
        return self.checked(state, int(word))

    def checked(self, state, number):
        """A number of a choice of a state; ValueError says the fault."""
        if number >= self.count(state):
            raise ValueError(f"state {state} has {self.count(state)} choices, counted from 0, and no choice {number}")
        return number

    def word_of(self, state, number):
        """What names a choice: its action, where it is the only one of this name at its state, else its number."""
        name = self.name(state, number)
        alone = name is not None and sum(self.name(state, other) == name for other in range(self.count(state))) == 1
        return name if alone else str(number)


def read_choice_names(name, model):
    """The names in a transition file that was read as this model.
    Of a Markov chain no name is kept, since it has no choices."""
    names, rows = [None] * len(model.weights), field_rows(name)
    is_chain = len(next(rows)[1]) == 2
    for number, row in () if is_chain else rows:
        add_name(name, number, row, names, model)
    return ChoiceNames(model, [action or None for action in names])


def add_name(name, number, row, names, model):
    """Keeps the action of a line, which all lines of its choice have; the empty text stands for none."""
    place = model.choice_start[int(row[0])] + int(row[1])
    action = row[4].decode("ascii", "backslashreplace") if len(row) == 5 else ""
    if names[place] not in (None, action):
        raise Refusal(
            name, number, f"state {int(row[0])} choice {int(row[1])} has a second action, {shown(action.encode())}"
        )
    names[place] = action


# Induced models


def total_choices(moves, members):
    """The choice of each state of a side, the first where none is named; None at the states of the other side."""
    return [(move or 0) if member else None for move, member in zip(moves, members)]


def check_choices(names, moves, where):
    """Refuses a choice that its state does not have; `where` gives the file and the line of a state."""
    for state, move in enumerate(moves):
        try:
            names.checked(state, move or 0)
        except ValueError as fault:
            raise Refusal(*where(state), str(fault)) from None


def write_induced(out, words, chosen, paid=None):
    """Writes the induced model as OUT.tra, the labels as OUT.lab, the owners, where there are, as OUT.own, and what is
    paid, where there is such a text, as OUT.rewards; gives their names."""
    texts = {f"{out}.tra": transition_text(words.tra, chosen), f"{out}.lab": copied(words.lab)}
    if words.own:
        texts[f"{out}.own"] = copied(words.own)
    if paid:
        texts[f"{out}.rewards"] = [paid]
    if set(texts) & {words.tra, words.lab, words.own, vars(words).get("rewards")}:
        raise Refusal(out, None, "this would write over a file of the model")
    write_files(list(texts.items()))
    return list(texts)


def induced_rewards(name, model, chosen):
    """The text of a file of rewards for the induced model, in which choices have other numbers."""
    counts = [len(model.choices_of(state)) for state in range(model.states)]
    with open_bytes(name) as file:
        try:
            rewards = read_rewards(file.read(), counts)
        except Refused as fault:
            raise Refusal(name, fault.args[0] or None, fault.args[1]) from None
    left = [paid if move is None else [paid[move]] for paid, move in zip(rewards.choices, chosen)]
    return text_of(rewards._replace(choices=left))


def copied(name):
    with open_bytes(name) as file:
        return [file.read().decode("ascii", "surrogateescape")]


def transition_text(name, chosen):
    """The lines of the choices that are left, spelt as they were;
    the one choice of a state of the side has the number 0."""
    lines, choices, last = 0, set(), None
    for row in kept_rows(name, chosen):
        lines += 1
        choices.add((row[0], row[1]))
    head = header_of(name)
    counts = [head.states, lines] if head.is_chain else [head.states, len(choices), lines]
    yield " ".join(map(str, counts)) + "\n"
    for row in kept_rows(name, chosen):
        yield b" ".join(row).decode("ascii", "surrogateescape") + "\n"


def kept_rows(name, chosen):
    """The lines of the choices that are left. In a Markov chain each state has one choice, so all are."""
    rows = field_rows(name)
    is_chain = len(next(rows)[1]) == 2
    for _, row in rows:
        move = None if is_chain else chosen[int(row[0])]
        if move is None:
            yield row
        elif int(row[1]) == move:
            yield [row[0], b"0", *row[2:]]
