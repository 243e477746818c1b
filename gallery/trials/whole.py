"""Games in whole numbers: steps rounded down and up, sweeps, the states of value 0 and the swapped question.

A value counts units of which 10^15 are probability 1. What is meant is defined in crates/game_model/specs.
"""

from dataclasses import dataclass

UNIT = 10**15


@dataclass(frozen=True)
class Asked:
    """A game, whose states have choices, pairs of edges and their total; who maximises; goals and dead states."""

    choices: list
    maximises: tuple
    goals: frozenset
    dead: frozenset

    def states(self):
        return range(len(self.choices))

    def open_states(self):
        return [state for state in self.states() if state not in self.goals and state not in self.dead]

    def opening(self):
        return [UNIT if state in self.goals else 0 for state in self.states()]


def weighted(choice, table):
    return sum(weight * table[successor] for weight, successor in choice[0])


def down(choice, table):
    return weighted(choice, table) // choice[1]


def up(choice, table):
    return -(-weighted(choice, table) // choice[1])


def best_of(asked, state, table, rounded):
    """The value of the choice that the side of a state prefers, and the first choice that has it."""
    values = [rounded(choice, table) for choice in asked.choices[state]]
    best = max(values) if asked.maximises[state] else min(values)
    return best, values.index(best)


def stepped(asked, table, rounded, states=None):
    """The table of one step: the unit at goals, 0 at dead states, elsewhere what the best choice makes of the table."""
    after = asked.opening()
    for state in asked.open_states() if states is None else states:
        after[state] = best_of(asked, state, table, rounded)[0]
    return after


def sweep(asked, table, chosen):
    """Raises the entries of a table in their order, and notes by which choice; whether any was raised."""
    rose = False
    for state in asked.open_states():
        value, choice = best_of(asked, state, table, down)
        if value > table[state]:
            table[state], chosen[state], rose = value, choice, True
    return rose


def zero_states(asked):
    """The states whose value is 0 within any number of steps."""
    positive, grows = set(asked.goals), True
    while grows:
        found = [state for state in asked.open_states() if state not in positive and leads(asked, state, positive)]
        positive.update(found)
        grows = bool(found)
    return frozenset(asked.states()) - positive


def leads(asked, state, target):
    """Whether a choice of the maximiser's, or every choice of the minimiser's, may lead to such a state."""
    hits = [any(successor in target for _, successor in edges) for edges, _ in asked.choices[state]]
    return any(hits) if asked.maximises[state] else all(hits)


def swapped(asked, zero):
    """The question in which the other side wants the states of value 0."""
    return Asked(asked.choices, tuple(not side for side in asked.maximises), zero, asked.goals)
