"""What all kinds of trials share: how the program is run, games and formulas that are drawn, and what a trial found."""

from collections import Counter
from dataclasses import dataclass, field
from fractions import Fraction

from answers import read_files
from gallery.solved import faults_of_bounds
from toolbox import programs
from toolbox.formulas import TRUE, Formula
from toolbox.model import Model

PLAYERS, LABELS = ("a", "b"), ("one", "two")
SIGNS, ASKED, COALITIONS = (">=", ">", "<=", "<"), ("Pmax", "Pmin"), (None, ("a",), ("b",), ("a", "b"), ())
LIMITS = tuple(map(Fraction, ("0", "1", "1/2", "1/3", "2/3", "3/7", "5/11", "3/10", "3/5", "17/20")))
ALL_PATHS, ENDLESS, STEPPED = ("F", "U", "F<=", "U<=", "X", "G", "G"), ("F", "U"), ("F<=", "U<=", "X")
CONNECTIVES = ("!", "&", "&", "|", "|", "=>")
SECONDS = 600


@dataclass
class Found:
    """The faults of a trial, and what is counted of it."""

    faults: list = field(default_factory=list)
    counts: Counter = field(default_factory=Counter)

    def note(self, words, faults):
        """Notes the faults of a run."""
        self.faults += [f"{' '.join(map(repr, words))}: {fault}" for fault in faults]

    def compare(self, words, expected, ran):
        """Notes a fault where a run did not end with the expected status, output and errors."""
        self.counts["runs"] += 1
        if ran != expected:
            self.note(words, [f"{expected} was expected, and {ran} came"])


def run(room, *words):
    """The status, the output and the errors of the program, which is run in a folder."""
    return programs.run(programs.program(), *words, room=room, seconds=SECONDS)


def words_of(command, formula, *rest):
    """The words of a command about the files that `write` leaves in a folder."""
    return [command, "m.tra", "m.lab", formula, *map(str, rest), "--own", "m.own"]


def written(room, model):
    """Writes the files of a model into a folder, and gives them as they are read apart from the program."""
    model.write(room / "m")
    texts = model.texts()
    return read_files(texts["tra"], texts["lab"], texts.get("own"))


def drawn_game(draw, least=2, most=5, all_initial=True):
    """A game of two players and two labels, whose states have up to three choices or stay where they are."""
    count = draw.randint(least, most)
    rule = {state: drawn_choices(draw, count) for state in range(count)}
    rule[0].append([(Fraction(1, count), to) for to in range(count)])
    marks = {label: [draw.random() < 0.35 for _ in range(count)] for label in LABELS}
    marks["init"] = [all_initial or state == 0 or draw.random() < 0.3 for state in range(count)]
    owners = [draw.choice(PLAYERS) for _ in range(count)]
    return Model(0, rule.get, {label: held.__getitem__ for label, held in marks.items()}, PLAYERS, owners.__getitem__)


def drawn_choices(draw, count):
    """Up to three choices of one to three parts of some weights; mostly there is one."""
    choices = []
    for _ in range(draw.choice((0, 1, 1, 2, 2, 3))):
        weights = [draw.randint(1, 4) for _ in range(draw.choice((1, 1, 2, 3)))]
        choices.append([(Fraction(weight, sum(weights)), draw.randrange(count)) for weight in weights])
    return choices


def looped_game(draw, least=4, most=7):
    """A game of the same players and labels in which play can stay: the last state is `one`, the last but one `two`."""
    count, inner = draw.randint(least, most), []
    for _ in range(count - 2):
        inner.append([looped_choice(draw, count) for _ in range(draw.randint(1, 4))])
    inner[0].append([(Fraction(1, count), to) for to in range(count)])
    rule = dict(enumerate([*inner, [], []]))
    owners = [draw.choice("aab") for _ in range(count)]
    labels = {"init": lambda _: True, "one": (count - 1).__eq__, "two": (count - 2).__eq__}
    return Model(0, rule.get, labels, PLAYERS, owners.__getitem__)


def looped_choice(draw, count):
    """A sure move to a state that is no end, or a random one to two of all states."""
    if draw.random() < 0.5:
        return [(1, draw.randrange(count - 2))]
    weights = [draw.randint(1, 4) for _ in range(2)]
    return [(Fraction(weight, sum(weights)), draw.randrange(count)) for weight in weights]


def looped_formula(draw):
    """A formula about such a game, mostly of one player against the other."""
    path, goal, safe = draw.choice("FFUG"), ("label", "one"), ("!", ("label", "two"))
    bound, limit = (draw.choice(ASKED), None) if draw.random() < 0.5 else (draw.choice(SIGNS), draw.choice(LIMITS))
    coalition = draw.choice((("a",), ("a",), ("b",), *COALITIONS))
    if path == "G":
        return Formula(coalition, bound, limit, "G", TRUE, ("!", goal))
    return Formula(coalition, bound, limit, "U", safe if path == "U" else TRUE, goal)


def drawn_formula(draw, paths, depth=0, asks=0.3, inner=ALL_PATHS):
    """A formula with one of these paths, and with formulas inside to a depth; some ask for a value."""
    path = draw.choice(paths)
    bound, limit = (draw.choice(ASKED), None) if draw.random() < asks else (draw.choice(SIGNS), draw.choice(LIMITS))
    left = drawn_state(draw, depth, inner) if path[0] == "U" else TRUE
    steps = draw.randint(0, 5) if path.endswith("<=") else None
    sign = path if path in "XG" else "U"
    return Formula(draw.choice(COALITIONS), bound, limit, sign, left, drawn_state(draw, depth, inner), steps)


def drawn_state(draw, depth, inner):
    """A state formula over the labels, and over formulas with thresholds inside where the depth allows them."""
    kind = draw.random()
    if kind < (0.35 if depth else 0.75):
        return ("label", draw.choice(LABELS)) if draw.random() < 0.85 else (draw.choice(("true", "false")),)
    if kind < 0.6 or depth == 0:
        sign = draw.choice(CONNECTIVES)
        return (sign, *(drawn_state(draw, max(depth - 1, 0), inner) for _ in range(1 if sign == "!" else 2)))
    return drawn_formula(draw, inner, depth - 1, 0, inner)


def faults_of_report(output, formula, values):
    """What is wrong with the lines of a report on all states, which have these values."""
    lines = [line for line in output.splitlines() if not line.startswith("inner ")]
    if [line.split()[:2] for line in lines] != [["state", str(state)] for state in range(len(values))]:
        return [f"there is not one line for each state: {output}"]
    told = [(line, value, faults_of_bounds(line, formula, value)) for line, value in zip(lines, values)]
    return [f"{line}, value {value}: {fault}" for line, value, faults in told for fault in faults]
