"""What tools round on request (`--round D`), and what they say of it."""

import argparse
import decimal

MOST_PLACES = 23

# two digits that are not below the number
UPWARD = decimal.Context(prec=2, rounding=decimal.ROUND_CEILING)


class Changes:
    """How many numbers have changed, and by how much at most."""

    def __init__(self):
        self.count = 0
        self.most = decimal.Decimal(0)

    def add(self, change):
        self.count += change != 0
        self.most = max(self.most, change)

    def said(self, noun, done):
        """What was done with so many, in words."""
        most = UPWARD.divide(*map(decimal.Decimal, self.most.as_integer_ratio()))
        return f"{self.count} {noun}{'' if self.count == 1 else 's'} {done}, by {most:.1e} at most"


def places_of(text):
    """The number of places in the words of a tool."""
    if not text.isdigit() or not 1 <= int(text) <= MOST_PLACES:
        raise argparse.ArgumentTypeError(f"'{text}' is no number of places from 1 to {MOST_PLACES}")
    return int(text)
