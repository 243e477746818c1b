"""What models of the gallery pay, and what is expected of it until a goal, as the literature has it.

A family that pays has `rewards`: for its sizes, by the name of a structure, what is paid on the move from one state to
the next, by the names of both. `gallery/write` writes a file for each structure, and `gallery/run` asks the program for
each row of the tables. The values of `csma` are the benchmark set's `time_min` and `time_max`, computed here; they were
not compared with printed ones.
"""

import importlib
import re
from collections import namedtuple
from fractions import Fraction

from gallery.families import agrees
from gallery.families.truel import MOSTELLER
from toolbox.exact import Problem
from toolbox.expected import plain_expected, turns_paid, values_and_strategy, values_of_pair
from toolbox.formulas import TRUE, Spelt
from toolbox.model import CLOSED, COMPUTED, side
from toolbox.reward_formulas import RewardFormula
from toolbox.rewards import INFINITE, Rewards, text_of

DIFFERENCE = 1e-11
FIRST, WORST = "the first state", "the state of the greatest value"
CONSENSUS = "PRISM's case study of randomised consensus"
BOHNENKAMP, MCIVER, FELLER = "Bohnenkamp and others 2003", "McIver and Morgan 2005", "Feller 1950"

Expected = namedtuple(
    "Expected", "family sizes structure bound goal value source state coalition", defaults=(FIRST, None)
)
Expected.__doc__ = """A value, as a whole number, a fraction or in decimals, or infinite; of which state it is, and
who is the coalition."""
Worked = namedtuple("Worked", "state value turns is_right")
Worked.__doc__ = """The state whose value a row has, the value, how many turns the game is expected to last there, and
whether the value is the row's. In floating point the value is the source's, and each turn pays 1."""


def either(first, second):
    """The states with one of two labels."""
    return ("|", ("label", first), ("label", second))


CHASED, DRIVEN = either("caught", "out"), either("home", "accident")

EXPECTED = (
    Expected("die", (6,), "tosses", "Rmax=?", "done", "11/3", "Knuth and Yao 1976"),
    Expected("die", (6,), "tosses", "Rmin=?", "done", "11/3", "Knuth and Yao 1976"),
    Expected("die", (6,), "tosses", "R<=11/3", "done", "11/3", "Knuth and Yao 1976"),
    Expected("die", (6,), "tosses", "R<3.67", "done", "11/3", "Knuth and Yao 1976"),
    Expected("die", (6,), "tosses", "R>3.67", "done", "11/3", "Knuth and Yao 1976"),
    Expected("die", (6,), "tosses", "Rmin=?", "one", INFINITE, CLOSED),
    Expected("die", (6,), "tosses", "R>=1000000", "one", INFINITE, CLOSED),
    Expected("die", (8,), "tosses", "Rmin=?", "done", "3", CLOSED),
    Expected("die", (8,), "tosses", "R<=3", "done", "3", CLOSED),
    Expected("die", (8,), "tosses", "R<3", "done", "3", CLOSED),
    Expected("die", (11,), "tosses", "Rmax=?", "done", "160/33", CLOSED),
    Expected("ring", (3,), "steps", "Rmax=?", "stable", "3", CLOSED),
    Expected("ring", (7,), "steps", "Rmax=?", "stable", "21", CLOSED),
    Expected("ring", (7,), "steps", "Rmin=?", "stable", "21", CLOSED),
    Expected("ring", (7,), "steps", "R<22", "stable", "21", CLOSED),
    Expected("ring", (9,), "steps", "Rmax=?", "stable", "36", CLOSED),
    Expected("ring", (9,), "steps", "Rmin=?", "stable", "36", CLOSED),
    Expected("coin", (2, 2), "steps", "Rmax=?", "finished", "75", CONSENSUS),
    Expected("coin", (2, 2), "steps", "Rmin=?", "finished", "48", CONSENSUS),
    Expected("coin", (2, 2), "steps", "R<=75", "finished", "75", CONSENSUS),
    Expected("coin", (2, 2), "steps", "R<75", "finished", "75", CONSENSUS),
    Expected("coin", (2, 2), "steps", "R>=48", "finished", "48", CONSENSUS),
    Expected("coin", (2, 4), "steps", "Rmax=?", "finished", "243", COMPUTED),
    Expected("coin", (2, 4), "steps", "Rmin=?", "finished", "192", COMPUTED),
    Expected("philosophers", (3, 1), "moves", "Rmax=?", "eats", "27/2", COMPUTED),
    Expected("philosophers", (3, 1), "moves", "Rmin=?", "eats", "3", CLOSED),
    Expected("philosophers", (4, 1), "moves", "Rmax=?", "eats", "22", COMPUTED),
    Expected("philosophers", (3, 0), "moves", "Rmin=?", "eats", "3", CLOSED),
    Expected("philosophers", (3, 0), "moves", "Rmax=?", "eats", INFINITE, CLOSED),
    Expected("philosophers", (3, 0), "moves", "R<=1000000", "eats", INFINITE, CLOSED),
    Expected("zeroconf", (4, 1000), "cost", "Rmax=?", "settled", "23.657318", BOHNENKAMP),
    Expected("zeroconf", (4, 1000), "cost", "R<=24", "settled", "23.657318", BOHNENKAMP),
    Expected("zeroconf", (2, 32512), "cost", "Rmax=?", "settled", "1001705/101", BOHNENKAMP),
    Expected("zeroconf", (8, 60000), "cost", "Rmin=?", "settled", "2941613315/25120003", BOHNENKAMP),
    Expected("retransmission", (16, 2), "tries", "Rmax=?", either("done", "given_up"), "16.4877359592", CLOSED),
    Expected("retransmission", (64, 5), "tries", "Rmax=?", either("done", "given_up"), "65.9657787500", CLOSED),
    Expected("crowds", (5, 1, 0), "paths", "Rmax=?", "twice", "80/11", CLOSED),
    Expected("crowds", (6, 1, 0), "paths", "Rmin=?", "twice", "9", CLOSED),
    Expected("robot", (4, 1), "moves", "Rmin=?", "goal", "827335/6489", COMPUTED),
    Expected("robot", (4, 1), "moves", "Rmax=?", "goal", INFINITE, COMPUTED),
    Expected("robot", (6, 2), "moves", "Rmin=?", either("goal", "pit"), "3.6263222887", COMPUTED),
    Expected("chain", (3,), "steps", "Rmax=?", "end", "10", CLOSED),
    Expected("chain", (3,), "steps", "Rmax=?", "goal", INFINITE, CLOSED),
    Expected("chain", (10,), "steps", "Rmin=?", "end", "1534", CLOSED),
    Expected("chain", (20, "0.7"), "steps", "Rmax=?", "end", "1572862", CLOSED),
    Expected("chain", (20, "0.7"), "steps", "R<=1572861", "end", "1572862", CLOSED),
    Expected("wind", (4, 1), "moves", "Rmin=?", either("goal", "pit"), "640/243", COMPUTED, coalition=("robot",)),
    Expected("wind", (4, 1), "moves", "Rmax=?", either("goal", "pit"), "152", COMPUTED, coalition=("robot",)),
    Expected("stall", (1,), "tosses", "Rmax=?", either("won", "lost"), "1", FELLER, coalition=("max",)),
    Expected("stall", (8,), "tosses", "Rmax=?", either("won", "lost"), "64", FELLER, coalition=("max",)),
    Expected("stall", (8,), "tosses", "Rmin=?", either("won", "lost"), "64", FELLER, coalition=("max",)),
    Expected("stall", (8,), "tosses", "Rmin=?", either("won", "lost"), "0", CLOSED, coalition=("max", "min")),
    Expected("stall", (8,), "tosses", "Rmax=?", either("won", "lost"), INFINITE, CLOSED, coalition=("max", "min")),
    Expected("stall", (40,), "tosses", "R>=1600", either("won", "lost"), "1600", FELLER, coalition=("max",)),
    Expected("truel", MOSTELLER, "turns", "Rmin=?", "a_wins", "23/3", CLOSED, coalition=("a", "b")),
    Expected("truel", MOSTELLER, "turns", "Rmin=?", "a_or_c_wins", INFINITE, CLOSED, coalition=("a", "c")),
    Expected("brp", (16, 2), "tries", "Rmax=?", either("settled", "error"), "16.4877359592", CLOSED),
    Expected("herman", (3,), "steps", "Rmax=?", "stable", "4/3", MCIVER),
    Expected("herman", (5,), "steps", "Rmax=?", "stable", "16/5", MCIVER, WORST),
    Expected("herman", (5,), "steps", "R<=100/27", "stable", "16/5", MCIVER, WORST),
    Expected("herman", (5,), "steps", "Rmin=?", "stable", "44/15", COMPUTED),
    Expected("herman", (7,), "steps", "Rmax=?", "stable", "48/7", MCIVER, WORST),
    Expected("herman", (7,), "steps", "R<=196/27", "stable", "48/7", MCIVER, WORST),
    Expected("leader", (3, 2), "rounds", "Rmax=?", "elected", "4/3", CLOSED),
    Expected("leader", (3, 4), "rounds", "Rmax=?", "elected", "16/15", CLOSED),
    Expected("leader", (4, 2), "rounds", "Rmin=?", "elected", "2", CLOSED),
    Expected("csma", (2, 2), "time", "Rmin=?", "all_heard", "66.99932", COMPUTED),
    Expected("csma", (2, 2), "time", "Rmax=?", "all_heard", "70.66576", COMPUTED),
    Expected("csma", (2, 2), "time", "R<=70", "all_heard", "70.66576", COMPUTED),
    Expected("firewire_abst", (3, 0), "time", "Rmax=?", "elected", "299", CLOSED),
    Expected("firewire_abst", (3, 0), "time", "Rmin=?", "elected", "541/4", CLOSED),
    Expected("firewire_abst", (3, 0), "time", "R<300", "elected", "299", CLOSED),
    Expected("firewire_abst", (36, 0), "time", "Rmax=?", "elected", "365", CLOSED),
    Expected("firewire_abst", (36, 0), "time", "Rmin=?", "elected", "409/4", CLOSED),
    Expected("dice", (1,), "points", "Rmax=?", "over", "13/2", CLOSED, coalition=("a",)),
    Expected("dice", (4,), "points", "Rmax=?", "over", "26", CLOSED, coalition=("a",)),
    Expected("dice", (4,), "points", "Rmax=?", "over", "28", CLOSED, coalition=("a", "b")),
    Expected("dice", (4,), "points", "R>=26", "over", "26", CLOSED, coalition=("a",)),
    Expected("observer", (2, 1), "moves", "Rmax=?", CHASED, "380/119", COMPUTED, coalition=("intruder",)),
    Expected("observer", (3, 1), "moves", "Rmin=?", CHASED, "1054390/344619", COMPUTED, coalition=("intruder",)),
    Expected("hallway", (1, 4), "moves", "Rmin=?", "found", "2.7637257292", COMPUTED, coalition=("robot",)),
    Expected("charlton", (1,), "roads", "Rmin=?", DRIVEN, "4999/2500", COMPUTED, coalition=("car",)),
    Expected("charlton", (3,), "roads", "Rmax=?", DRIVEN, "1000", COMPUTED, coalition=("car",)),
)

LARGE = (
    Expected("ring", (14,), "steps", "Rmin=?", "stable", "91", CLOSED),
    Expected("coin", (2, 16), "steps", "Rmax=?", "finished", "3267", COMPUTED),
    Expected("coin", (2, 16), "steps", "Rmin=?", "finished", "3072", COMPUTED),
    Expected("robot", (16, 3), "moves", "Rmin=?", either("goal", "pit"), "4.8240960656", COMPUTED),
    Expected("chain", (17,), "steps", "Rmax=?", "end", "196606", CLOSED),
    Expected("wind", (12, 3), "moves", "Rmin=?", either("goal", "pit"), "27370/6561", COMPUTED, coalition=("robot",)),
    Expected("stall", (200,), "tosses", "Rmax=?", either("won", "lost"), "40000", FELLER, coalition=("max",)),
    Expected("brp", (64, 5), "tries", "Rmax=?", either("settled", "error"), "65.9657787500", CLOSED),
    Expected("leader", (4, 8), "rounds", "Rmax=?", "elected", "256/245", CLOSED),
    Expected("csma", (2, 4), "time", "Rmin=?", "all_heard", "75.65078", COMPUTED),
    Expected("csma", (2, 4), "time", "Rmax=?", "all_heard", "78.97127", COMPUTED),
    Expected("dice", (20,), "points", "Rmax=?", "over", "130", CLOSED, coalition=("a",)),
    Expected("observer", (4, 2), "moves", "Rmin=?", CHASED, "20/3", COMPUTED, coalition=("intruder",)),
    Expected("hallway", (3, 4), "moves", "Rmin=?", "found", "7.1721852000", COMPUTED, coalition=("robot",)),
    Expected("charlton", (12,), "roads", "Rmin=?", DRIVEN, "12.9688457142", COMPUTED, coalition=("car",)),
)
# too large for fractions
DENSE = (
    Expected("herman", (9,), "steps", "Rmax=?", "stable", "12.0000", MCIVER, WORST),
    Expected("herman", (11,), "steps", "Rmax=?", "stable", "17.4545", MCIVER, WORST),
)
ROWS = {"small": EXPECTED, "large": LARGE + DENSE}


def name_of(row):
    return "-".join(map(str, (row.family, *row.sizes))).replace("/", "_")


def question_of(row):
    """The formula of a row, which names the structure."""
    found = re.fullmatch("R([<>]=?)(.*)", row.bound)
    sign, limit = (found[1], Spelt(found[2])) if found else (row.bound[: -len("=?")], None)
    return RewardFormula(row.coalition, sign, limit, "U", TRUE, side(row.goal), name=row.structure)


def paying(row):
    """The model, the problem and the rewards of a row of the table."""
    family = importlib.import_module(f"gallery.families.{row.family}")
    model = family.model(*row.sizes)
    return model, Problem(model, question_of(row)), rewards_of(model, family.rewards(*row.sizes)[row.structure])


def known_of(row, problem, rewards):
    """What is known of a row, worked out anew: in fractions, or in floating point where the model is too large."""
    paid = turns_paid(rewards)
    if row in DENSE:
        values = plain_expected(problem, paid, DIFFERENCE)
        state = values.index(max(values))
        return Worked(state, Fraction(row.value), values[state], is_right(row, values))
    values, strategy = values_and_strategy(problem, paid)
    state = 0 if row.state == FIRST else values.index(max(values))
    turns = values_of_pair(problem, [[1] * len(choices) for choices in paid], strategy)[state]
    return Worked(state, values[state], turns, is_right(row, values))


def is_right(row, values):
    """Whether these are the values of a model of which a row has one, to its last digit."""
    found = values[0] if row.state == FIRST else max(values)
    if INFINITE in (found, row.value):
        return found == row.value
    return agrees(found, row.value) if "." in row.value else found == Fraction(row.value)


def rewards_of(model, pays):
    """The rewards of a model: those of the moves of a choice averaged over it, and of a state where its choices all pay
    the same."""
    states, choices = [], []
    for name, moves in zip(model.names, model.choices):
        paid = [sum(part * Fraction(pays(name, model.names[after])) for after, part in one.items()) for one in moves]
        is_even = len(set(paid)) == 1
        states.append(Fraction(paid[0] if is_even else 0))
        choices.append([Fraction(0)] * len(paid) if is_even else paid)
    return Rewards(states, choices)


def texts(model, family, sizes):
    """The text for each structure of a model, by its name."""
    found = family.rewards(*sizes) if hasattr(family, "rewards") else {}
    return {structure: text_of(rewards_of(model, pays)) for structure, pays in found.items()}
