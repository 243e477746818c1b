"""Exact values of small models in fractions, and plain value iteration in floating point beside them.

The maximiser's choices are improved against the minimiser's best answer, and the answer likewise (strategy iteration:
Howard 1960 for one player, Hoffman and Karp 1966 for two). Each pair of strategies is valued by elimination of one
state after another from its linear equations. The last table is what a strategy of the maximiser is worth, so at most
the values of the game; and a step changes nothing in it, so it is at least the least such table, which the values are.

Values within so many steps are found backward, from the goals alone, by the best choice of each step (dynamic
programming: Bellman 1957). Both sides know how many steps are left.

A formula inside holds where its own exact values keep its threshold.
"""

from fractions import Fraction
from functools import lru_cache

from toolbox.explicit import ONLY_PLAYER
from toolbox.formulas import Formula, met

ROUNDS_OF_A_FIRST_GUESS = 2000


class Plain:
    """A model of files that were read apart from the program: its probabilities are fractions of whole weights."""

    def __init__(self, choices, labels, players, owners):
        """The choices of each state are pairs of edges, each a weight and a successor, and their total."""
        self.choices = [
            [{successor: Fraction(weight, total) for weight, successor in edges} for edges, total in found]
            for found in choices
        ]
        self.labels, self.players, self.owners = labels, players, list(map(players.index, owners))

    def __len__(self):
        return len(self.choices)


class Problem:
    """The choices of a model as lists of pairs, who maximises, the goals, and the states that are lost at once."""

    def __init__(self, model, question):
        self.choices = [[list(choice.items()) for choice in choices] for choices in model.choices]
        owners = [model.players[owner] for owner in model.owners] or [ONLY_PLAYER] * len(model)
        self.maximises = [question.maximises(owner) for owner in owners]
        self.goals = states_of(model, question.right)
        self.dead = set(range(len(model))) - states_of(model, question.left) - self.goals

    def __len__(self):
        return len(self.choices)

    def is_open(self, state):
        return state not in self.goals and state not in self.dead


def states_of(model, tree):
    """The states where a state formula holds, of which those with formulas inside are evaluated first."""
    if isinstance(tree, Formula):
        return states_of_truth(model, tree)
    everywhere = frozenset(range(len(model)))
    if tree[0] in ("label", "true", "false"):
        return everywhere if tree[0] == "true" else frozenset(model.labels[tree[1]] if tree[1:] else ())
    return met(tree[0], everywhere, [states_of(model, part) for part in tree[1:]])


@lru_cache(maxsize=4)
def states_of_truth(model, question):
    values = determinacy(model, question)
    return frozenset(state for state, value in enumerate(values) if question.is_true_of(value))


def weighted_sum(choice, values):
    return sum(part * values[successor] for successor, part in choice)


def determinacy(model, question):
    """The value of each state of the model."""
    if question.path == "G":
        return [1 - value for value in determinacy(model, question.dual())]
    problem = Problem(model, question)
    if question.path == "X":
        return stepped(problem, problem.choices, goals_alone(problem), range(len(problem)))
    return values_in_the_end(problem) if question.steps is None else values_within(problem, question.steps)


def goals_alone(problem):
    return [Fraction(state in problem.goals) for state in range(len(problem))]


def values_within(problem, steps):
    """The values where a goal has to be reached within so many steps."""
    values = goals_alone(problem)
    for _ in range(steps):
        values = stepped(problem, problem.choices, values, filter(problem.is_open, range(len(problem))))
    return values


def stepped(problem, choices, values, states):
    """The table of one step more: at these states what the best choice makes of the table, elsewhere the same."""
    after = list(values)
    for state in states:
        best = max if problem.maximises[state] else min
        after[state] = best(weighted_sum(choice, values) for choice in choices[state])
    return after


def values_in_the_end(problem):
    """The values where a goal may be reached at any time."""
    strategy = first_strategy(problem)
    while True:
        values = answered(problem, strategy)
        if not improve(problem, strategy, values, max):
            return values


def answered(problem, strategy):
    """The least values that the minimiser can bring about against a strategy of the maximiser."""
    lost = lost_states(problem, strategy)
    replies = dict(strategy)
    for state in range(len(problem)):
        if not problem.maximises[state]:
            replies[state] = 0
    while True:
        values = values_under(problem, replies, lost)
        if not improve(problem, replies, values, min):
            return values


def improve(problem, strategy, values, best):
    """Changes the strategy of one side where another choice is strictly better; says whether there was one."""
    changed = False
    for state, choices in enumerate(problem.choices):
        if problem.is_open(state) and problem.maximises[state] == (best is max):
            sums = [weighted_sum(choice, values) for choice in choices]
            if sums[strategy[state]] != best(sums) and values[state] != best(sums):
                strategy[state] = sums.index(best(sums))
                changed = True
    return changed


def lost_states(problem, strategy):
    """The states from which the minimiser can keep away from the goals, against a strategy of the maximiser."""
    reached, grows = set(problem.goals), True
    while grows:
        grows = False
        for state in reversed(range(len(problem))):
            if state in reached or state in problem.dead:
                continue
            choices = problem.choices[state]
            asked = [choices[strategy[state]]] if problem.maximises[state] else choices
            if all(any(successor in reached for successor, _ in choice) for choice in asked):
                reached.add(state)
                grows = True
    return set(range(len(problem))) - reached


def values_under(problem, strategy, lost):
    """The value of each state where both sides play as given; from a state that is not lost play comes to an end."""
    known = {state: Fraction(0) for state in lost}
    known.update({state: Fraction(1) for state in problem.goals})
    rows = {}
    for state, choices in enumerate(problem.choices):
        if state not in known:
            rows[state] = [{}, Fraction(0)]
            for successor, part in choices[strategy[state]]:
                if successor in known:
                    rows[state][1] += part * known[successor]
                else:
                    rows[state][0][successor] = Fraction(part)
    known.update(solved(rows))
    return [known[state] for state in range(len(problem))]


def solved(rows):
    """Solves `x = coefficients times unknowns + constant`, a row for each unknown; the last unknowns go first."""
    users = {unknown: set() for unknown in rows}
    for unknown, (coefficients, _) in rows.items():
        for used in coefficients:
            users[used].add(unknown)
    order = sorted(rows, reverse=True)
    for unknown in order:
        eliminate(rows, users, unknown)
    answers = {}
    for unknown in reversed(order):
        coefficients, constant = rows[unknown]
        answers[unknown] = constant + sum(part * answers[used] for used, part in coefficients.items())
    return answers


def eliminate(rows, users, unknown):
    """Puts the row of an unknown in its place in all rows that use it, where those come later."""
    row = rows[unknown]
    loop = row[0].pop(unknown, 0)
    users[unknown].discard(unknown)
    if loop:
        row[0] = {used: part / (1 - loop) for used, part in row[0].items()}
        row[1] /= 1 - loop
    for used in row[0]:
        users[used].discard(unknown)
    for user in users[unknown]:
        coefficients = rows[user][0]
        factor = coefficients.pop(unknown)
        rows[user][1] += factor * row[1]
        for used, part in row[0].items():
            coefficients[used] = coefficients.get(used, 0) + factor * part
            users[used].add(user)


def first_strategy(problem):
    """For each state the maximiser's choice by which its value in floating point rose last."""
    values = [1.0 if state in problem.goals else 0.0 for state in range(len(problem))]
    strategy = {state: 0 for state in range(len(problem)) if problem.maximises[state]}
    choices = floating(problem)
    for _ in range(ROUNDS_OF_A_FIRST_GUESS):
        rose = False
        for state in filter(problem.is_open, range(len(problem))):
            sums = [weighted_sum(choice, values) for choice in choices[state]]
            value = max(sums) if problem.maximises[state] else min(sums)
            if value > values[state] + 1e-12:
                values[state], rose = value, True
                if problem.maximises[state]:
                    strategy[state] = sums.index(value)
        if not rose:
            break
    return strategy


def floating(problem):
    def floats(choice):
        return [(successor, float(part)) for successor, part in choice]

    return [[floats(choice) for choice in choices] for choices in problem.choices]


def plain_value_iteration(model, question, difference):
    """Value iteration in floating point, until no value changes by the difference: the values of the first state.

    It begins at 1 for goals and 0 elsewhere, and each round is made from the whole table of the round before.
    """
    problem = Problem(model, question)
    choices = floating(problem)
    values = [1.0 if state in problem.goals else 0.0 for state in range(len(problem))]
    of_first, change = [values[0]], difference
    while change >= difference:
        after = stepped(problem, choices, values, filter(problem.is_open, range(len(problem))))
        change = max(abs(new - old) for new, old in zip(after, values))
        values = after
        of_first.append(values[0])
    return of_first
