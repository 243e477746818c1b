"""Lines, fields, numbers and formulas, read as docs/FORMATS.md says them, apart from the program.

A text is read as one character a byte (Latin-1), so that a place in it counts bytes.
"""

import re
from fractions import Fraction

from toolbox.formulas import Reader

MOST_DIGITS, MOST_EXPONENT, FINEST, GREATEST = 30, 99, 10**23, 2
MOST_BYTES = 4_096
WHOLE = re.compile("[0-9]+")
DECIMAL = re.compile(r"([0-9]+)(?:\.([0-9]*))?(?:[eE]([+-]?)([0-9]+))?")
SHARE = re.compile("([0-9]+)/([0-9]+)")


class Refusal(Exception):
    """What a line of a refusal says behind `refused`: which text, which line or place, and the cause."""

    def __init__(self, text, line, cause):
        place = "place" if text == "formula" else "line"
        super().__init__(f"{text} {place} {line} {cause}")


class NumberFault(Exception):
    """The cause by which a number is refused."""


def lines_of(text):
    """The lines of a text as lists of their fields, without blank ones at its end."""
    *ended, last = text.split("\n")
    lines = [line[:-1] if line.endswith("\r") else line for line in ended] + [last]
    while lines and not fields_of(lines[-1]):
        lines.pop()
    return lines


def fields_of(line):
    return re.findall("[^ \t]+", line)


def is_whole(field):
    return WHOLE.fullmatch(field) is not None


def number_of(text):
    """The fraction that a text spells, at most 2."""
    share, decimal = SHARE.fullmatch(text), DECIMAL.fullmatch(text)
    if not share and not decimal:
        raise NumberFault("NotANumber")
    numerator, denominator = parts_of_share(*share.groups()) if share else parts_of_decimal(*decimal.groups(default=""))
    if denominator == 0:
        raise NumberFault("ZeroDenominator")
    number = Fraction(numerator, denominator)
    if number.denominator > FINEST:
        raise NumberFault("TooFine")
    if number > GREATEST:
        raise NumberFault("TooLarge")
    return number


def parts_of_share(numerator, denominator):
    if max(len(numerator), len(denominator)) > MOST_DIGITS:
        raise NumberFault("TooManyDigits")
    return int(numerator), int(denominator)


def parts_of_decimal(whole, places, sign, exponent):
    if len(whole + places) > MOST_DIGITS or len(exponent) > 3 or int(exponent or "0") > MOST_EXPONENT:
        raise NumberFault("TooManyDigits")
    power = int(sign + (exponent or "0")) - len(places)
    return int(whole + places) * 10 ** max(power, 0), 10 ** max(-power, 0)


class FormulaReader(Reader):
    """Reads a formula, and refuses it with the causes of the program."""

    def refuse(self, cause, words):
        raise Refusal("formula", len(self.text) if cause == "End" else self.place, cause)

    def limit_of(self, token):
        try:
            number = number_of(token)
        except NumberFault as fault:
            self.refuse("ThresholdOutOfRange" if str(fault) == "TooLarge" else f"BadNumber {fault}", "")
        return number if number <= 1 else self.refuse("ThresholdOutOfRange", "")


def read_formula(text):
    """The formula that a text spells."""
    if len(text) > MOST_BYTES:
        raise Refusal("formula", MOST_BYTES, "TooLong")
    return FormulaReader(text).whole()
