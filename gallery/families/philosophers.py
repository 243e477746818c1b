"""Dining philosophers who toss a coin which fork to take first.

    gallery/write philosophers PHILOSOPHERS COINS NAME

Source: D. Lehmann and M. O. Rabin, On the advantages of free choice: a symmetric and fully distributed solution to the
dining philosophers problem, POPL 1981; without fairness: M. Duflot, L. Fribourg and C. Picaronny, Randomized dining
philosophers without fairness assumption, Distributed Computing 17, 2004.

State: what each philosopher does: hungry, waiting for one of the forks, or holding it. The scheduler chooses one who
can move: a hungry one decides for a fork, with COINS 1 by a coin, with COINS 0 always for the left one; one who waits
takes the fork where it lies there; one who holds a fork takes the other one and eats, or puts the first one down where
the other one is taken. It ends as soon as somebody eats.

Value: with coins 1 under every scheduler. Else play could stay in a set of states where everybody moves again and
again, and each toss falls either way. There nobody tosses but between a left neighbour who drew right and a right one
who drew left, since else a draw leaves two neighbours of whom the first to reach for the fork between them eats. But
then, going round, somewhere one who drew left sits beside one who drew right, with the same end. Without coins 0: all
hold their left forks, and one after the other fails and takes it again.

Expected moves: 3 at least, where one philosopher moves alone. At most infinitely many without coins.
"""


from gallery.families import OTHER, Known, changed
from toolbox.model import CLOSED, HALF, Model, ask, sure

SIZES = {"small": [(3, 1), (4, 1), (3, 0)], "large": [(7, 1)]}
LEFT, RIGHT = 0, 1


def model(philosophers, coins):
    def rule(state):
        if state == "eats":
            return []
        taken = {fork_of(place, side, philosophers) for place, (doing, side) in enumerate(state) if doing == "holds"}
        moves = [moved(state, place, taken, coins) for place in range(philosophers)]
        return [move for move in moves if move]

    return Model((("hungry", LEFT),) * philosophers, rule, {"eats": lambda state: state == "eats"})


def fork_of(place, side, philosophers):
    return (place + side) % philosophers


def moved(state, place, taken, coins):
    """What one philosopher may do: parts of a probability and the state behind it; none where the fork is taken."""
    doing, side = state[place]
    if doing == "hungry":
        sides = [(HALF, LEFT), (HALF, RIGHT)] if coins else [(1, LEFT)]
        return [(part, changed(state, place, ("waits", drawn))) for part, drawn in sides]
    if doing == "waits":
        free = fork_of(place, side, len(state)) not in taken
        return [(1, changed(state, place, ("holds", side)))] if free else []
    other = fork_of(place, 1 - side, len(state))
    return [(1, changed(state, place, ("hungry", LEFT)) if other in taken else "eats")]


def questions(philosophers, coins):
    yield ask("Pmin=?", "eats", coins, CLOSED)
    yield ask("P>=1", "eats", coins, CLOSED)
    yield sure("Pmin=?", "eats", value=coins, source=CLOSED)


def rewards(*_):
    return {"moves": lambda state, after: state != "eats"}


def known_as(philosophers, coins):
    return Known(f"`philosophers-mdp` {philosophers}", kind=OTHER) if coins else Known()
