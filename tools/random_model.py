#!/usr/bin/env python3
"""Writes a random MDP or game as PRISM's explicit files, to measure with.

    random_model.py STATES CHOICES SEED NAME [PLACES] [--game]

writes NAME.tra and NAME.lab. Each state has so many choices of two moves each, to states drawn at random, with
probabilities of so many decimal places, by default 2. Each thousandth state is a goal, the first of them state 999, and
one state in a hundred is a trap; both keep to themselves, with one move a choice. The label `init` is at state 0. With
`--game` it writes NAME.own, too: each state is drawn for one of the players `max` and `min`. The same arguments give
the same files, and NAME.tra and NAME.lab are those of the MDP.

With one choice a state, as with two and `--game`, nearly all values lie strictly between 0 and 1. With many choices of
one player nearly all are 0 or 1: there is a way to a goal, or none.
"""

import random
import sys
from pathlib import Path

sys.path.insert(0, str(Path(__file__).resolve().parents[1]))

from toolbox.endings import Words, ended
from toolbox.explicit import header_line

MOVES = 2
GOAL_EVERY = 1000
TRAP_EVERY = 100
PLACES = 2
MOST_PLACES = 24
PLAYERS = ("max", "min")


def is_goal(state):
    return state % GOAL_EVERY == GOAL_EVERY - 1


def is_trap(state):
    return state % TRAP_EVERY == TRAP_EVERY // 2


def choice_lines(draw, states, state, choice, places):
    """The lines of one choice: two moves to different states, the lower first."""
    if is_goal(state) or is_trap(state):
        return f"{state} {choice} {state} 1\n"
    first, second = sorted(draw.sample(range(states), MOVES))
    whole = 10**places
    part = draw.randint(1, whole - 1)
    return f"{state} {choice} {first} 0.{part:0{places}}\n{state} {choice} {second} 0.{whole - part:0{places}}\n"


def write_transitions(path, states, choices, seed, places):
    draw = random.Random(seed)
    fixed = sum(is_goal(state) or is_trap(state) for state in range(states))
    lines = choices * (MOVES * (states - fixed) + fixed)
    with open(path, "w", encoding="ascii") as out:
        out.write(f"{states} {states * choices} {lines}\n")
        for state in range(states):
            for choice in range(choices):
                out.write(choice_lines(draw, states, state, choice, places))


def write_labels(path, states):
    with open(path, "w", encoding="ascii") as out:
        out.write(header_line(("init", "goal")) + "0: 0\n")
        for state in range(states):
            if is_goal(state):
                out.write(f"{state}: 1\n")


def write_owners(path, states, seed):
    draw = random.Random(f"{seed} owners")
    with open(path, "w", encoding="ascii") as out:
        out.write(header_line(PLAYERS))
        for state in range(states):
            out.write(f"{state}: {draw.randrange(len(PLAYERS))}\n")


def read_words():
    parser = Words("random_model.py", __doc__)
    parser.add_argument("states", metavar="STATES", type=int, help=f"{GOAL_EVERY:,} or more")
    parser.add_argument("choices", metavar="CHOICES", type=int, help="the number of choices of each state")
    parser.add_argument("seed", metavar="SEED", type=int, help="what the model is drawn from")
    parser.add_argument("name", metavar="NAME", help="the name of the files, without an ending")
    parser.add_argument("places", metavar="PLACES", type=int, nargs="?", default=PLACES, help="decimal places")
    parser.add_argument("--game", action="store_true", help="draw an owner for each state")
    words = parser.parse_args()
    if words.states < GOAL_EVERY or words.choices < 1 or not 1 <= words.places <= MOST_PLACES:
        parser.error(f"a model has 1,000 states or more, a choice or more, and 1 to {MOST_PLACES} places")
    return words


def main():
    words = read_words()
    write_transitions(f"{words.name}.tra", words.states, words.choices, words.seed, words.places)
    write_labels(f"{words.name}.lab", words.states)
    if words.game:
        write_owners(f"{words.name}.own", words.states, words.seed)


if __name__ == "__main__":
    ended("random_model.py", main)
