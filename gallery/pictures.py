#!/usr/bin/env python3
"""Draws proved bounds beside plain value iteration for three models, and for many what `tools/measure` measured.

    gallery/pictures.py [bounds | times]

writes `gallery/pictures/NAME.svg`. With `bounds`, or with no word, the first three: bounds are those of the program
that `gallery/run` runs too, with `--rounds R` for rising R; plain value iteration is `exact.plain_value_iteration`,
which stops where no value changes by 10^-6. With `times` the other two, out of the rows of `docs/measured.tsv`, which
`tools/measure` writes.

Work is counted in updates of states, as many as there can be: a round of the program updates two tables in place, so
twice as many as the model has states, and one of plain value iteration makes one table anew. A round of the program
passes over states that nothing can have changed; these are counted, too.
"""

import csv
import sys
import tempfile
from dataclasses import replace
from fractions import Fraction
from pathlib import Path

sys.path.insert(0, str(Path(__file__).resolve().parents[1]))

from gallery.answer import answers
from gallery.families import chain, coin, stall
from gallery.picture import Picture, linear, logarithmic, spelt_power
from toolbox.endings import UNREAD, Refusal, Words, ended
from toolbox.exact import determinacy, plain_value_iteration
from toolbox.model import ask

FOLDER = Path(__file__).resolve().parent / "pictures"
MEASURED = FOLDER.parent.parent / "docs" / "measured.tsv"
DIFFERENCE = 1e-6
STEPS_OF_A_DECADE = (1, 1.25, 1.5, 2, 2.5, 3, 4, 5, 6, 8)
TABLES = 2
LEAST_WIDTH, LEAST_SECONDS = Fraction(1, 10**15), 0.001
WORK = "number of updates of states"
VALUE = "probability"
SECONDS = "processor time, seconds"
# axes of measured points go on beyond their last marks, so that no point stands on the frame
MARGIN = 3
TIMED = {"check": "blue", "solve": "green"}
COMMANDS = {"check": ("blue", ""), "check --traps": ("red", "7 4"), "solve": ("green", "2 3")}
SHAPES = {"DTMC": "circle", "MDP": "square", "game": "triangle"}


def bounds(model, question, decades, options=()):
    """The brackets that the program prints for rising rounds: triples of updates, a lower and an upper bound."""
    rounds = sorted({int(step * 10**decade) for decade in range(decades) for step in STEPS_OF_A_DECADE})
    rounds.append(10**decades)
    asked = [replace(question, value=0, options=("--rounds", str(count), *options)) for count in rounds]
    with tempfile.TemporaryDirectory() as room:
        path = Path(room) / "model"
        model.write(path)
        brackets = [answer.bracket() for answer in answers("model", model, path, asked)]
    work = TABLES * len(model)
    return [(count * work, *map(Fraction, bracket)) for count, bracket in zip(rounds, brackets)]


def plain(model, question):
    """Plain value iteration: pairs of updates and the value of the first state, at as many places as can be seen."""
    values = plain_value_iteration(model, question, DIFFERENCE)
    last = len(values) - 1
    counts = sorted({round(last ** (place / 200)) for place in range(201)})
    return [(count * len(model), values[count]) for count in counts], last


def draw_sides(picture, brackets):
    picture.curve("upper bound, proved", [(work, upper) for work, _, upper in brackets], "red")
    picture.curve("lower bound, proved", [(work, lower) for work, lower, _ in brackets], "blue")


def draw_chain():
    model, question = chain.model(17), ask("Pmax=?", "goal")
    picture = Picture(
        "The chain of Haddad and Monmege, n = 17; the value is 0.5", logarithmic(WORK, 4, 8), quarters()
    )
    draw_sides(picture, bounds(model, question, 6))
    pairs, rounds = plain(model, question)
    picture.curve("plain value iteration, until 10⁻⁶", pairs, "ink", "2 3")
    picture.dot(*pairs[-1], f"stops at {pairs[-1][1]:.6f} after {rounds:,} rounds", anchor="end")
    finish(picture, "chain")


def quarters():
    return linear(VALUE, 0, 1, 4, 2)


def draw_coin():
    model, question = coin.model(2, 8), ask("Pmin=?", "heads")
    exact = determinacy(model, question)[0]
    title = f"The shared coin, 2 processes, K = 8; the value is {exact}"
    picture = Picture(title, logarithmic(WORK, 5, 8), logarithmic("width or distance, a probability", -15, 0, 3))
    widths = [(work, max(upper - lower, LEAST_WIDTH)) for work, lower, upper in bounds(model, question, 5)]
    picture.curve("width of the proved bracket", widths, "blue")
    pairs, rounds = plain(model, question)
    distances = [(work, abs(Fraction(value) - exact)) for work, value in pairs]
    picture.curve("plain value iteration, its distance", distances, "ink", "2 3")
    picture.dot(*distances[-1], f"stops after {rounds:,} rounds", anchor="end", below=True)
    finish(picture, "coin")


def draw_stall():
    model, question = stall.model(40), ask("Pmax=?", "won", coalition=("max",))
    title = "The game in which both players may stall, stake 40; the value is 0.5"
    picture = Picture(title, logarithmic(WORK, 4, 7), quarters())
    draw_sides(picture, bounds(model, question, 5))
    lowered = [(work, upper) for work, _, upper in bounds(model, question, 5, ("--traps",))]
    picture.curve("upper bound with --traps, proved", lowered, "orange", "7 4")
    pairs, _ = plain(model, question)
    picture.curve("plain value iteration, until 10⁻⁶", pairs, "ink", "2 3")
    picture.dot(*pairs[-1], f"stops at {pairs[-1][1]:.6f}", below=True)
    finish(picture, "stall")


def rows_of(part):
    """The rows of a part of what was measured."""
    if not MEASURED.exists():
        raise Refusal(MEASURED, None, "it is not there: tools/measure writes it", UNREAD)
    with open(MEASURED, newline="", encoding="ascii") as rows:
        return [row for row in csv.DictReader(rows, delimiter="\t") if row["part"] == part]


def draw_times():
    """The time of `check` by the number of states, and that of `solve`, with a line that joins the two of one model.
    Models are named where there is room, slow ones first."""
    rows = [row for row in rows_of("runs") if row["seconds"] and row["command"] in TIMED]
    highest = max(float(row["seconds"]) for row in rows)
    seconds = logarithmic(SECONDS, -3, 3 if highest > 100 else 2, margin=MARGIN)
    states = logarithmic("number of states", 1, 6, margin=MARGIN)
    picture = Picture("Time by number of states", states, seconds, 6)
    for joined in pairs_of_models(rows):
        picture.link(*map(measured, joined))
    for kind, shape in SHAPES.items():
        for command, colour in TIMED.items():
            pairs = [measured(row) for row in rows if (row["command"], row["kind"]) == (command, kind)]
            if pairs:
                picture.points(f"{command}, {kind}", pairs, colour, shape, hollow=command == "solve")
    checked = (row for row in rows if row["command"] == "check")
    for row in sorted(checked, key=lambda row: -float(row["seconds"])):
        picture.words(*measured(row), row["model"])
    finish(picture, "times")


def pairs_of_models(rows):
    """The two rows of each model that both commands answered."""
    models = {}
    for row in rows:
        models.setdefault(row["model"], []).append(row)
    return [joined for joined in models.values() if len(joined) == len(TIMED)]


def measured(row):
    return float(row["states"]), timed(row)


def timed(row):
    return max(float(row["seconds"]), LEAST_SECONDS)


def draw_widths():
    """The width of the bracket by time, of each command that was measured on this model."""
    rows = rows_of("widths")
    picture = Picture(
        f"Width of the bracket by time: {rows[0]['model']}, {int(rows[0]['states']):,} states",
        logarithmic(SECONDS, -3, 3),
        logarithmic("width of the bracket, a probability", -15, 0, 3, margin=MARGIN),
    )
    for command, (colour, dashes) in COMMANDS.items():
        found = [(timed(row), row["width"]) for row in rows if row["command"] == command]
        found.sort(key=lambda pair: (pair[0], -float(pair[1])))
        pairs = [(seconds, max(float(width), float(LEAST_WIDTH))) for seconds, width in found]
        if len(pairs) == 1:
            picture.points(command, pairs, colour, "circle")
        elif pairs:
            picture.curve(command, pairs, colour, dashes)
        if pairs:
            picture.words(*pairs[-1], f"{command}: {spelt_width(found[-1][1])}")
    finish(picture, "widths")


def spelt_width(width):
    """A width such as `2.0e-15` as a person writes it."""
    digits, power = width.split("e")
    return f"{digits} · {spelt_power(int(power))}" if float(width) else "0"


def finish(picture, name):
    picture.write(FOLDER / f"{name}.svg")
    print(f"{name}.svg")


DRAWN = {"bounds": (draw_chain, draw_coin, draw_stall), "times": (draw_times, draw_widths)}


def main():
    parser = Words("pictures.py", __doc__)
    parser.add_argument("part", nargs="?", choices=list(DRAWN), default="bounds", help="which pictures")
    asked = parser.parse_args().part
    FOLDER.mkdir(exist_ok=True)
    for draw in DRAWN[asked]:
        draw()


if __name__ == "__main__":
    ended("pictures.py", main)
