"""Rewards of the states and the choices of a model, and files of them, read by the rules of the program and written.

Rewards are exact. That of a turn is the reward of its state and that of the choice, in one sum.
"""

import math
import re
from collections import namedtuple
from fractions import Fraction

from toolbox.drawn import lines_of
from toolbox.explicit import MOST_DENOMINATOR, MOST_DIGITS, whole

MOST_REWARD, INFINITE = 10**15, math.inf
MOST_LINES = 8_000_000
FIELD = re.compile(rb"[^ \t]+")
NUMBER = re.compile(rb"([0-9]+)(?:/([0-9]+)|(?:\.([0-9]*))?(?:[eE]([+-]?)([0-9]+))?)")
MOST_EXPONENT = 99

Rewards = namedtuple("Rewards", "states choices")
Rewards.__doc__ = "The reward of each state, and for each state the list of those of its choices."


def no_rewards(counts):
    """Rewards of 0 for states with so many choices."""
    return Rewards([Fraction(0)] * len(counts), [[Fraction(0)] * count for count in counts])


# Written


def spelt(reward):
    """A reward as a decimal where it has one of few digits, else as a fraction; ValueError says why it has neither."""
    numerator, denominator = Fraction(reward).as_integer_ratio()
    if numerator > MOST_REWARD * denominator:
        raise ValueError("above 10^15")
    if denominator > MOST_DENOMINATOR:
        raise ValueError("finer than 10^-23")
    places = next((places for places in range(MOST_DIGITS) if 10**places % denominator == 0), MOST_DIGITS)
    digits = f"{numerator * 10**places // denominator:0{places + 1}}"
    if places < MOST_DIGITS and len(digits) <= MOST_DIGITS:
        return f"{digits[:-places]}.{digits[-places:]}" if places else digits
    if len(str(numerator)) > MOST_DIGITS:
        raise ValueError("too many digits")
    return f"{numerator}/{denominator}"


def reward_text(states, spellings):
    """The text of a file; `spellings` has those of rewards by a state, and of choices by a state and a choice."""
    lines = [f"{' '.join(map(str, place))} {spellings[place]}\n" for place in sorted(spellings)]
    return "".join([f"rewards {states} {len(lines)}\n", *lines])


def text_of(rewards):
    """The text of a file of these rewards."""
    spellings = {(state,): spelt(reward) for state, reward in enumerate(rewards.states) if reward}
    for state, paid in enumerate(rewards.choices):
        spellings.update({(state, number): spelt(reward) for number, reward in enumerate(paid) if reward})
    return reward_text(len(rewards.states), spellings)


# Read


class Refused(Exception):
    """The line and the cause by which the program refuses a file of rewards."""


def rows_of(text):
    """The fields of the lines of a text, without blank lines at its end; a text has one line at least."""
    rows = [FIELD.findall(line) for line in lines_of(text)]
    while rows[1:] and not rows[-1]:
        rows.pop()
    return rows


def read_rewards(text, counts):
    """The rewards of a text, for states that have so many choices."""
    rows = rows_of(text)
    stated, rewards, seen = read_header(rows[0], len(counts)), no_rewards(counts), set()
    for number, row in enumerate(rows[1:], 2):
        refuse(number - 1 > stated, number, f"LineCount read {number - 1} stated {stated}")
        state, *choice, reward = line_of(number, row, counts)
        refuse((state, *choice) in seen, number, "DoubleLine")
        seen.add((state, *choice))
        row, place = (rewards.choices[state], choice[0]) if choice else (rewards.states, state)
        row[place] = reward
    refuse(len(rows) - 1 < stated, 0, f"LineCount read {len(rows) - 1} stated {stated}")
    return rewards


def refuse(is_fault, line, cause):
    if is_fault:
        raise Refused(line, cause)


def read_header(row, states):
    """The number of lines that the first line states."""
    is_header = len(row) == 3 and row[0] == b"rewards" and row[1].isdigit() and row[2].isdigit()
    refuse(not is_header, 1, "NoHeader")
    refuse(whole(row[1]) != states, 1, "StateCount")
    refuse(whole(row[2]) > MOST_LINES, 1, "OverLimit")
    return whole(row[2])


def line_of(number, row, counts):
    """The state of a line, its choice if there is one, and the reward."""
    refuse(len(row) not in (2, 3), number, "FieldCount")
    refuse(not b"".join(row[:-1]).isdigit(), number, "BadField")
    state, *choice = map(whole, row[:-1])
    refuse(state >= len(counts), number, "StateOutOfRange")
    refuse(choice and choice[0] >= counts[state], number, "ChoiceOutOfRange")
    try:
        reward = number_of(row[-1])
    except ValueError as fault:
        raise Refused(number, f"Number {fault}") from None
    refuse(reward > MOST_REWARD, number, "TooLarge")
    return state, *choice, reward


def number_of(spelling):
    """The number of a decimal or a fraction; ValueError names the program's cause."""
    found = NUMBER.fullmatch(spelling)
    if not found:
        raise ValueError("NotANumber")
    digits, denominator, places, sign, exponent = (part.decode() for part in found.groups(b""))
    if max(len(digits + places), len(denominator)) > MOST_DIGITS or len(exponent) > 3:
        raise ValueError("TooManyDigits")
    if int(exponent or 0) > MOST_EXPONENT:
        raise ValueError("TooManyDigits")
    if denominator and not int(denominator):
        raise ValueError("ZeroDenominator")
    power = Fraction(10) ** (int(sign + (exponent or "0")) - len(places))
    number = Fraction(int(digits), int(denominator)) if denominator else int(digits + places) * power
    if number.denominator > MOST_DENOMINATOR:
        raise ValueError("TooFine")
    return number
