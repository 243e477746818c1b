"""Transition, label and owner files, read as docs/FORMATS.md says them, apart from the program."""

import re
from math import lcm

from texts import FINEST, NumberFault, Refusal, fields_of, is_whole, lines_of, number_of

LIMITS = {2: (1_000_000, 8_000_000), 3: (1_000_000, 4_000_000, 8_000_000)}
GREATEST_CHOICE, MOST_CHOICES, NEARNESS = 3_999_999, 16_384, 100_000
GREATEST_INDEX = 999_999
MARKED = re.compile("[ \t]*([0-9]+)[ \t]*:[ \t]*((?:[0-9]+[ \t]+)*[0-9]*)[ \t]*")
LABEL = re.compile('([0-9]+)="([!#-~]{1,255})"')
PLAYER = re.compile('([0-9]+)="([A-Za-z_][A-Za-z0-9_]{0,254})"')


def refuse(is_fault, text, line, cause):
    if is_fault:
        raise Refusal(text, line, cause)


def read_game(text):
    """For each state its choices: the edges, pairs of a weight and a successor, and the sum of the weights."""
    lines = lines_of(text)
    counts = header_of(lines)
    is_chain, states, stated = len(counts) == 2, counts[0], counts[-1]
    parts, actions = [{} for _ in range(states)], {}
    for number, line in enumerate(lines[1:], 1):
        fields = fields_of(line)
        refuse(not fields, "tra", number + 1, "FieldCount")
        refuse(number > stated, "tra", number + 1, f"LineCount read {number} stated {stated}")
        state, choice, edge, action = transition_of(fields, is_chain, states, number + 1)
        clash = not is_chain and actions.setdefault((state, choice), action) != action
        refuse(clash, "tra", number + 1, f"ActionClash state {state} choice {choice}")
        parts[state].setdefault(choice, []).append(edge)
    refuse(len(lines) - 1 < stated, "tra", 0, f"LineCount read {len(lines) - 1} stated {stated}")
    judge_choices(parts, None if is_chain else counts[1])
    return [choices_of(state, found) for state, found in enumerate(parts)]


def header_of(lines):
    """The numbers of the header: two of a chain, else three."""
    fields = fields_of(lines[0]) if lines else []
    refuse(len(fields) not in LIMITS or not all(map(is_whole, fields)), "tra", 1, "NoHeader")
    counts = list(map(int, fields))
    refuse(any(count > most for count, most in zip(counts, LIMITS[len(counts)])), "tra", 1, "OverLimit")
    refuse(counts[0] == 0, "tra", 1, "NoStates")
    return counts


def transition_of(fields, is_chain, states, line):
    """State, choice, the pair of a probability and a successor, and the action, or none."""
    width = 3 if is_chain else 4
    refuse(len(fields) not in (width, width + 1), "tra", line, "FieldCount")
    refuse(not all(map(is_whole, fields[: width - 1])), "tra", line, "BadField")
    state, choice, successor = int(fields[0]), 0 if is_chain else int(fields[1]), int(fields[width - 2])
    refuse(state >= states, "tra", line, "StateOutOfRange")
    refuse(choice > GREATEST_CHOICE, "tra", line, "OverLimit")
    refuse(successor >= states, "tra", line, "StateOutOfRange")
    try:
        return state, choice, (number_of(fields[width - 1]), successor), fields[width:]
    except NumberFault as fault:
        raise Refusal("tra", line, f"Number {fault}") from fault


def judge_choices(parts, stated):
    """Refuses a gap among the choices of a state, too many of them, or another number of all than is stated."""
    for state, found in enumerate(parts):
        missing = [choice for choice in range(len(found)) if choice not in found]
        refuse(missing, "tra", 0, f"ChoiceGap state {state} choice {(missing + [0])[0]}")
    for state, found in enumerate(parts):
        refuse(len(found) > MOST_CHOICES, "tra", 0, f"TooManyChoices state {state}")
    count = sum(map(len, parts))
    refuse(stated not in (None, count), "tra", 0, f"ChoiceCount read {count} stated {stated}")


def choices_of(state, found):
    return [choice_of(state, choice, found[choice]) for choice in sorted(found)] or [([(1, state)], 1)]


def choice_of(state, choice, parts):
    """The edges of a choice by rising successor, and their total."""
    common = 1
    for share, _ in parts:
        following = lcm(common, share.denominator)
        cause = f"TooFine state {state} choice {choice} first {common} second {share.denominator}"
        refuse(following > FINEST, "tra", 0, cause)
        common = following
    weights = {}
    for share, successor in parts:
        weights[successor] = weights.get(successor, 0) + int(share * common)
    total = sum(weights.values())
    cause = f"BadSum state {state} choice {choice} sum {total} denominator {common}"
    refuse(abs(total - common) * NEARNESS > common, "tra", 0, cause)
    return [(weight, successor) for successor, weight in sorted(weights.items()) if weight], total


def read_labels(text, states):
    """The states of each label, by its name."""
    names, lines = items_of(text, "lab", LABEL, 1_000)
    labels = {name: set() for name in names.values()}
    for _, state, indices in marks_of(lines, "lab", names, states):
        for index in indices:
            labels[names[index]].add(state)
    return labels


def read_owners(text, states):
    """The names of the players, and the one of each state."""
    names, lines = items_of(text, "own", PLAYER, 64)
    owners = {}
    for line, state, indices in marks_of(lines, "own", names, states):
        for index in indices:
            refuse(owners.setdefault(state, names[index]) != names[index], "own", line, f"TwoOwners state {state}")
    first = next(iter(names.values()))
    return list(names.values()), [owners.get(state, first) for state in range(states)]


def items_of(text, which, form, most):
    """The names of a header by their indices, and the lines behind it."""
    lines, names = lines_of(text), {}
    refuse(not lines or not fields_of(lines[0]), which, 1, "NoHeader")
    for item in fields_of(lines[0]):
        found = form.fullmatch(item)
        refuse(not found, which, 1, "BadHeader")
        refuse(len(names) == most or int(found[1]) > GREATEST_INDEX, which, 1, "OverLimit")
        refuse(int(found[1]) in names, which, 1, "DoubleIndex")
        refuse(found[2] in names.values(), which, 1, "DoubleName")
        names[int(found[1])] = found[2]
    return names, lines[1:]


def marks_of(lines, which, names, states):
    """The number of each line, its state and its indices."""
    for number, line in enumerate(lines, 2):
        found = MARKED.fullmatch(line)
        refuse(not found, which, number, "BadField")
        refuse(int(found[1]) >= states, which, number, "StateOutOfRange")
        indices = list(map(int, found[2].split()))
        refuse(any(index not in names for index in indices), which, number, "UnknownIndex")
        yield number, int(found[1]), indices
