"""The shared coin of a randomised consensus protocol.

    gallery/write coin PROCESSES RANGE NAME

Source: J. Aspnes and M. Herlihy, Fast randomized consensus using shared memory, Journal of Algorithms 11, 1990; as a
decision process: M. Kwiatkowska, G. Norman and R. Segala, Automated verification of a randomized distributed consensus
protocol using Cadence SMV and PRISM, CAV 2001.

State: the shared counter, and for each process what it does next and the side of its coin. A process tosses, adds 1 or
takes 1 away, then looks: at RANGE * PROCESSES or more it ends with heads, at the negative of that or less with tails,
else it tosses again. The scheduler chooses which process moves. The counter is kept within PROCESSES beyond these
bounds.

Value: the source has that all processes end with heads with at least (RANGE - 1) / (2 RANGE), whatever the scheduler
does, and that they all end with 1. How low a scheduler can bring the heads is computed in fractions. For four processes
these are the fractions of one scheduler, found by value iteration, whose values in floating point they are up to
10^-15.
"""

from fractions import Fraction

from gallery.families import Known, changed
from toolbox.model import COMPUTED, HALF, Model, ask, sure

SOURCE = "Aspnes and Herlihy 1990"
SIZES = {"small": [(2, 2), (2, 4)], "large": [(2, 16), (4, 2), (4, 4)]}
COUNTS = {
    (2, 2): (272, 492),
    (2, 4): (528, 972),
    (2, 16): (2064, 3852),
    (4, 2): (22656, 75232),
    (4, 4): (43136, 144352),
}
VALUES = {
    (4, 2): ("325/1024", "170112531/577765376"),
    (4, 4): ("852021/2097152", "45666330762076479/292595849630842880"),
}
SCHEDULER = COMPUTED + ", of one scheduler"
PUBLISHED = {(2, 2): ("0.3828125", "0.10833333"), (4, 2): ("0.3173828125", "0.2944318")}
TAILS, HEADS = 0, 1
FEW, MANY_ROUNDS = 4, ("--rounds", "100000")


def model(processes, bound):
    def rule(state):
        counter, doing = state
        moves = [moved(counter, *doing[process], bound * processes) for process in range(processes)]
        return [
            [(part, (after, changed(doing, process, told))) for part, after, told in moves[process]]
            for process in range(processes)
            if moves[process]
        ]

    labels = {
        "finished": has_finished,
        "heads": lambda state: has_finished(state) and sides(state) == {HEADS},
        "disagreement": lambda state: has_finished(state) and len(sides(state)) == 2,
    }
    return Model((0, (("toss", TAILS),) * processes), rule, labels)


def moved(counter, doing, side, edge):
    """What one process may do: parts of a probability, the counter, and what the process does then."""
    if doing == "toss":
        return [(HALF, counter, ("write", TAILS)), (HALF, counter, ("write", HEADS))]
    if doing == "write":
        return [(1, counter + 1 if side == HEADS else counter - 1, ("look", TAILS))]
    if doing == "look" and counter >= edge:
        return [(1, counter, ("end", HEADS))]
    if doing == "look" and counter <= -edge:
        return [(1, counter, ("end", TAILS))]
    return [(1, counter, ("toss", TAILS))] if doing == "look" else []


def has_finished(state):
    return all(doing == "end" for doing, _ in state[1])


def sides(state):
    return {side for _, side in state[1]}


def answers_to(processes, bound):
    """The values of both questions with their source, or none where they are computed anew."""
    if (processes, bound) in VALUES:
        return [(Fraction(value), SCHEDULER) for value in VALUES[processes, bound]]
    return [(None, COMPUTED)] * 2


def questions(processes, bound):
    options = MANY_ROUNDS if bound > FEW else ()
    heads, disagreement = answers_to(processes, bound)
    published = PUBLISHED.get((processes, bound), ("", ""))
    yield ask("Pmin=?", "heads", *heads, options=options, published=published[0])
    yield ask("Pmax=?", "disagreement", *disagreement, options=options, published=published[1])
    yield ask(f"P>={Fraction(bound - 1, 2 * bound)}", "heads", *heads)
    yield ask("P>0.4", "heads", *heads)
    yield sure("Pmin=?", "finished", value=1, source=SOURCE)


def rewards(*_):
    return {"steps": lambda state, after: not has_finished(state)}


def known_as(processes, bound):
    return Known(f"`consensus` {processes}-{bound}: `c2`, `disagree`", *COUNTS[processes, bound])
