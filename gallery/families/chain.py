"""The chain on which plain value iteration stops at a wrong number.

    gallery/write chain LENGTH [CHANCE] NAME

Source: S. Haddad and B. Monmege, Reachability in MDPs: refining convergence of value iteration, RP 2014; Interval
iteration algorithm for MDPs and IMDPs, Theoretical Computer Science 735, 2018.

State: a number from 0 to 2 LENGTH; it begins in the middle. From there it goes one step down with CHANCE, by default
1/2, or else up; from each other state one step on to the same side, or back to the middle, each with 1/2. The ends keep
to themselves; the goal is the end at 0. The benchmark set has it as `haddad-monmege`, with 0.7.

Value: CHANCE, since both sides are as long, and an end is reached almost surely. With 1/2 the middle gains about 2 ^
-(LENGTH + 1) in a round at most, so value iteration that stops where no value changes by 10^-6 stops at 0 nearly for
LENGTH 20, and below 1/2 for each smaller one. What it has reached by then is the value within so many steps. An end is
reached within k steps with f(k), by symmetry twice that value: f(k) = f(k - 2) / 2 + .. + f(k - LENGTH) / 2 ^ (LENGTH -
1) + 1 / 2 ^ (LENGTH - 1) for k >= LENGTH, else 0, since the first step back to the middle is step 2, or 3, .. or
LENGTH, or there is none.

Expected steps: 3 * 2 ^ (LENGTH - 1) - 2 to an end, with any CHANCE. A try from the middle gets there with 1 / 2 ^
(LENGTH - 1), and has 1 + 1 + 1/2 + .. + 1 / 2 ^ (LENGTH - 2) steps on average.
"""

from fractions import Fraction

from gallery.families import ENCODING, Known
from toolbox.model import BY_RULE, CLOSED, HALF, Model, ask, sure

SIZES = {"small": [(3,), (10,), (20,), (8, "0.7"), (20, "0.7")], "large": [(17,)]}
MANY_ROUNDS = ("--rounds", "1000000")
STOPS = {3: 92, 10: 8846, 20: 20}


def model(length, chance=HALF):
    down = Fraction(chance)

    def rule(state):
        if state in (0, 2 * length):
            return []
        if state == length:
            return [[(down, state - 1), (1 - down, state + 1)]]
        return [[(HALF, length), (HALF, state - 1 if state < length else state + 1)]]

    return Model(length, rule, {"goal": lambda state: state == 0, "end": lambda state: state in (0, 2 * length)})


def reached_within(length, steps):
    """The value within so many steps; the last values of f(k) are kept, in units of 1 / 2 ^ k."""
    last = [0] * length
    for step in range(length, steps + 1):
        last = last[1:] + [2 * sum(last[:-1]) + 2 ** (step - length + 1)]
    return Fraction(last[-1], 2 ** (steps + 1))


def questions(length, chance=HALF):
    if chance != HALF:
        yield from questions_of_chance(length, Fraction(chance))
        return
    options = MANY_ROUNDS if length in (10, 17) else ()
    yield ask("Pmax=?", "goal", HALF, CLOSED, options=options)
    yield ask("P>=0.5", "goal", HALF, CLOSED, options=options)
    yield ask("P>=0.499", "goal", HALF, CLOSED, options=options)
    yield ask("P<0.501", "goal", HALF, CLOSED, options=options)
    yield sure("P>=1", "end", value=1, source=CLOSED)
    if length in STOPS:
        stopped = reached_within(length, STOPS[length])
        yield ask("Pmax=?", "goal", stopped, BY_RULE, steps=STOPS[length])
        yield ask("P>=0.499", "goal", stopped, BY_RULE, steps=STOPS[length])


def questions_of_chance(length, chance):
    """What is asked where the sides differ."""
    yield ask("Pmax=?", "goal", chance, CLOSED)
    yield ask("P>=0.5", "goal", chance, CLOSED)
    yield ask("P<0.75", "goal", chance, CLOSED)
    yield sure("P>=1", "end", value=1, source=CLOSED)


def rewards(length, *_):
    return {"steps": lambda state, after: state not in (0, 2 * length)}


def known_as(length, chance=HALF):
    instance = f" {length}-{chance}" if (length, chance) == (20, "0.7") else ""
    return Known(f"`haddad-monmege`{instance}: `target`", kind=ENCODING)
