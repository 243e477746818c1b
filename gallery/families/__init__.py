"""The families of the gallery, their models of a size, and what a model is where the field knows it: in the benchmark
set or in PRISM's case studies."""

import importlib
from dataclasses import dataclass
from decimal import Decimal
from fractions import Fraction
from typing import Optional

FAMILIES = (
    "die",
    "ring",
    "coin",
    "philosophers",
    "zeroconf",
    "retransmission",
    "crowds",
    "nand",
    "contract",
    "firewire",
    "robot",
    "chain",
    "wind",
    "stall",
    "truel",
    "brp",
    "egl",
    "crowds_runs",
    "herman",
    "leader",
    "csma",
    "wlan",
    "zeroconf_reset",
    "firewire_abst",
    "dice",
    "observer",
    "hallway",
    "charlton",
    "microgrid",
    "teams",
    "investor",
)
SIZES = ("small", "large")


def instances(size):
    """The name of each model of a size, its family's module and its parameters."""
    for family in FAMILIES:
        module = importlib.import_module(f"gallery.families.{family}")
        for sizes in module.SIZES[size]:
            yield "-".join([family, *map(str, sizes)]).replace("/", "_"), module, sizes


# What a model is known as

SAME = "the same model"
SAME_RULES = "the same rules, size not compared"
ENCODING = "another encoding"
OTHER = "another model"
REBUILT = "rebuilt from its description"


@dataclass(frozen=True)
class Known:
    """The name and the instance there, in words, and how the model here stands to it.

    It is the same model where it has as many states, and as many moves, as are published; `states` and `moves` are
    these numbers. An empty name is that of a model that is in no such set.
    """

    name: str = ""
    states: Optional[int] = None
    moves: Optional[int] = None
    kind: str = SAME

    def words(self):
        """What the page of answers says of it: nothing of a model that is in no such set."""
        return f"{self.name}; {self.kind}" if self.name else ""

    def faults(self, states, moves):
        """What is wrong with these words for a model of so many states and moves."""
        if self.kind == SAME and self.name and self.states != states:
            return [f"{self.states} states are published, and it has {states}"]
        if self.kind == SAME and self.moves not in (None, moves):
            return [f"{self.moves} moves are published, and it has {moves}"]
        return []


def known_as(family, sizes):
    """What a model of a family is known as: by the rule of the family, or as all its models are, if they are."""
    return family.known_as(*sizes) if hasattr(family, "known_as") else getattr(family, "KNOWN", Known())


def same_or_size(name, sizes, counts, asked):
    """What is known of an instance: the same model where its states and moves are published, else one by its rules."""
    words = f"{name} {'-'.join(map(str, sizes))}: {asked}"
    return Known(words, *counts[sizes]) if sizes in counts else Known(words, kind=SAME_RULES)


def agrees(value, published):
    """Whether a value is the published one, whose last digit may be rounded or cut off."""
    unit = Fraction(10) ** Decimal(published).as_tuple().exponent
    return -unit / 2 <= value - Fraction(published) < unit


# What families share


def changed(row, place, item):
    """A row with another item at a place."""
    return row[:place] + (item,) + row[place + 1 :]
