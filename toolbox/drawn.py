"""Games and files of values that are drawn at random, the same of one seed on every machine."""

import re
from fractions import Fraction

from toolbox.exact import determinacy
from toolbox.model import Model, ask

PLAYERS = ("a", "b")
LEAST_STATES, MOST_STATES = 3, 8
COUNTS_OF_CHOICES = (1, 1, 2, 2, 3)
SURE, FEW = 0.35, 4
PARTS = tuple(map(Fraction, ("1/2", "1/3", "3/10", "1/7", "0.01", "0.999")))
BOUNDS = ("Pmax=?", "Pmin=?", "P>=", "P>", "P<=", "P<")
COALITIONS = 3 * (("a",), ("b",)) + (("a", "b"), (), None)
NUMBERS = (
    *("0", "1", "0.5", ".25", "7.", "1/3", "2/7", "nan", "-NaN", "inf", "-Infinity", "-0.5", "-0", "1e-400", "1e999"),
    *("1E-3", "+0.125", "0/1", "1/0", "0/0", "99999999999999999999/3", "1e-99999999999", "0." + "3" * 400, "9" * 300),
)
NO_NUMBERS = ("", "x", "1,5", "--1", "1e", "e5", ".", "1/-2", "1/2/3", "0x1p3", "1 2", "1\0", "nano", "(0.5)", "½")
PLAIN_NUMBER = rb"[+-]?(?:(?:\d+\.?\d*|\.\d+)(?:e[+-]?\d+)?|inf|infinity|nan)|\d+/\d+"
IN_ORDER = re.compile(rb"[ \t]*(?:%b)[ \t]*" % PLAIN_NUMBER, re.IGNORECASE)
NAMED = re.compile(
    rb"[ \t]*(?:(\d+)|\((\d+)\))[ \t]*(?::[ \t]*\(.*\)[ \t]*)?[=:][ \t]*(?:%b)[ \t]*" % PLAIN_NUMBER, re.IGNORECASE
)


def drawn_game(draw):
    """A game of two players in which each state is initial.

    It has one goal and one end that is none. Sure moves join the other states, so that play can be kept there for ever.
    """
    count = draw.randint(LEAST_STATES, MOST_STATES)
    while True:
        rule = {}
        for name in range(count):
            rule[name] = [drawn_choice(draw, count) for _ in range(draw.choice(COUNTS_OF_CHOICES))]
        goal, end, unsafe = count - 1, count - 2, draw.randrange(1, count)
        rule[goal] = rule[end] = []
        owners = [draw.choice(PLAYERS) for _ in range(count)]
        labels = {"init": lambda name: True, "goal": goal.__eq__, "unsafe": unsafe.__eq__}
        model = Model(0, rule.get, labels, PLAYERS, owners.__getitem__)
        if len(model) == count:
            return model


def drawn_choice(draw, count):
    """A sure move to a state that is no end, or a random one to two of all states."""
    if draw.random() < SURE:
        return [(1, draw.randrange(count - 2))]
    first, second = draw.sample(range(count), 2)
    part = draw.choice(PARTS)
    return [(part, first), (1 - part, second)]


def drawn_question(draw, model):
    """A question about the game, and the value of each state.

    Of a few that are drawn it is the first one with a value that is neither 0 nor 1, if there is such a one.
    """
    for _ in range(FEW):
        question, values = any_question(draw, model)
        if any(0 < value < 1 for value in values):
            break
    return question, values


def any_question(draw, model):
    """A question for a value or with a threshold, which is the value of a state or is next to it, and the values."""
    bound, path = draw.choice(BOUNDS), draw.choice("FUG")
    goal, safe = ("!goal", None) if path == "G" else ("goal", "!unsafe" if path == "U" else None)
    said = {"safe": safe, "coalition": draw.choice(COALITIONS), "path": "G" if path == "G" else "F"}
    if bound.endswith("?"):
        question = ask(bound, goal, **said)
        return question, determinacy(model, question)
    values = determinacy(model, ask(f"{bound}0", goal, **said))
    return ask(bound + str(draw.choice(values).limit_denominator(10**9)), goal, **said), values


def stays_open(model, values):
    """Whether both sides together can stay for ever among states whose value is neither 0 nor 1."""
    kept, falls = {state for state, value in enumerate(values) if 0 < value < 1}, True
    while falls:
        left = {state for state in kept if any(kept.issuperset(choice) for choice in model.choices[state])}
        kept, falls = left, left != kept
    return bool(kept)


def drawn_values(draw, states):
    """The text of a file of values, in one of its two forms or in both at once, with some faults or none."""
    lines = []
    is_named, is_mixed, faulty = draw.random() < 0.5, draw.random() < 0.1, draw.random() < 0.5
    for state in drawn_states(draw, states, faulty):
        number = draw.choice(NO_NUMBERS if faulty and draw.random() < 0.15 else NUMBERS)
        lines.append(named(draw, state, number) if is_named != (is_mixed and draw.random() < 0.3) else number)
        if draw.random() < 0.1:
            lines.append(draw.choice(("", " \t")))
    ends = draw.choice(("\n", "\n", "\n", "\r\n", "\n\n"))
    return (ends.join(lines) + draw.choice(("", ends))).encode("utf-8")


def drawn_states(draw, states, faulty):
    """The states of the lines: all in some order, or with faults only some, others twice,
    and some that do not exist."""
    if not faulty:
        return draw.sample(range(states), states)
    some = draw.sample(range(states), draw.randint(0, states))
    for _ in range(draw.randint(0, 2)):
        some.insert(draw.randint(0, len(some)), draw.choice((0, states - 1, states, 10**30)))
    return some


def named(draw, state, number):
    """A line of a state and a number, as tools write it, or nearly so."""
    forms = ("{}={}", "{}:{}", " {} = {} ", "({})={}", "{}:(0,true)={}", "({}):(1,2)\t:\t{}", "{}:( )={}", "0{}={}")
    odd = ("{}=={}", "({}={}", "{}:0={}", "x{}={}", "-{}={}", "={}{}", "{}:(={}", "{},{}")
    return draw.choice(odd if draw.random() < 0.05 else forms).format(state, number)


def fault_of(text, states):
    """The line and the cause by which a file of values for so many states is refused, or none, by a plain reading."""
    lines = [(number, line) for number, line in enumerate(lines_of(text), 1) if line.strip(b" \t")]
    if lines and re.search(rb"[=:]", lines[0][1]):
        return fault_of_named(lines, states)
    bad = [(number, "BadField") for number, line in lines if not IN_ORDER.fullmatch(line)]
    return bad[0] if bad else (0, "LineCount") if len(lines) != states else None


def lines_of(text):
    """The lines of a text, each but an open last one without the CR before its end."""
    *whole, last = text.split(b"\n")
    return [line[:-1] if line.endswith(b"\r") else line for line in whole] + [last]


def fault_of_named(lines, states):
    seen = set()
    for number, line in lines:
        found = NAMED.fullmatch(line)
        if not found:
            return number, "BadField"
        state = int(found[1] or found[2])
        if state >= states:
            return number, "StateOutOfRange"
        if state in seen:
            return number, "DoubleState"
        seen.add(state)
    return None
