"""What no schedule may change, with 1, 4 and 64 workers.

Where a formula asks for a value and the tables settle, these are the bounds, the replies and the sums of `make`; with a
bound on the steps, inside and outside, it is all that is written. All of it is worked out. Choices and ranks may be
others: an audit has to accept them.
"""

from answers import checked
from audits import audited
from core import ENDLESS, STEPPED, Found, drawn_formula, drawn_game, run, words_of, written
from rounds import bracket
from texts import Refusal
from whole import Asked, zero_states

COUNT = 60
WORKERS, MANY = (1, 4, 64), 3_000
FACTOR, MODULUS = 48_271, 2_147_483_647


def trial(draw, room):
    """One game with two questions, and a game of `make`, each with every number of workers."""
    model = drawn_game(draw, 3, 8)
    found, files = Found(), written(room, model)
    value = drawn_formula(draw, (*ENDLESS, "G"), 0, 1).formula()
    stepped = drawn_formula(draw, STEPPED, 2, 0.3, STEPPED).formula()
    seed, states = draw.randint(1, MODULUS - 1), draw.randint(3, 12)
    settled, exact = checked(files, value, MANY, True), checked(files, stepped)
    for workers in WORKERS:
        words = words_of("check", value, "--rounds", MANY, "--workers", workers, "--plan")
        compare_settled(found, room, files, words, settled)
        words = words_of("check", stepped, "--workers", workers)
        found.compare(words, (*exact, ""), run(room, *words))
        words = ["make", seed, states, "--rounds", MANY, "--workers", workers]
        found.compare(words, (*made(seed, states, MANY), ""), run(room, *words))
    return found


def compare_settled(found, room, files, words, settled):
    """Compares all that no schedule changes, and audits the certificate."""
    status, output, errors = run(room, *words)
    found.compare(words, (settled[0], kept(settled[1]), ""), (status, kept(output), errors))
    (room / "certificate").write_text(output, encoding="ascii")
    try:
        audited(files, words[3], room / "certificate")
    except Refusal as refusal:
        found.note(words, [f"the second audit says {refusal}"])


def kept(output):
    """The output without the number of rounds, and without choices and ranks."""
    return [kept_fields(line.split()) for line in output.splitlines()]


def kept_fields(fields):
    if fields[0] == "state":
        return fields[:6] + fields[8:]
    return fields[:2] + fields[4:] if fields[0].isdigit() else fields


def made(seed, states, rounds):
    """The status of `make` and what it writes, by one worker or where the tables settle."""
    asked = game_of(seed, states)
    found, head = bracket(asked, rounds), f"model seed {seed} states {states} zero {len(zero_states(asked))}"
    if bracket(asked, rounds + 2).rounds > rounds + 1:
        return 2, f"{head} unsettled\n"
    return 0, f"{head} lower {sum(found.lower)} upper {sum(found.upper)} settled\n"


def game_of(seed, states):
    """The game that a seed draws, whose maximiser wants the last state but one."""
    draws, goal, sink = numbers_of(seed), states - 2, states - 1
    maximises, choices = [], []
    for _ in range(goal):
        maximises.append(next(draws) % 2 == 0)
        choices.append([parts_of(draws, states) for _ in range(1 + next(draws) % 3)])
    stays = [[([(1, state)], 1)] for state in (goal, sink)]
    return Asked(choices + stays, (*maximises, True, True), frozenset([goal]), frozenset())


def numbers_of(seed):
    while True:
        seed = seed * FACTOR % MODULUS
        yield seed


def parts_of(draws, states):
    """A choice of two to four parts, of which the first leads to the goal or the sink; equal destinations add up."""
    weights = {}
    for part in range(2 + next(draws) % 3):
        drawn = next(draws)
        to = drawn % states if part else states - 1 - drawn % 2
        weights[to] = weights.get(to, 0) + 1 + next(draws) % 9
    return [(weight, to) for to, weight in sorted(weights.items())], sum(weights.values())
