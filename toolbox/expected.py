"""Expected rewards until a goal, exactly; and in floating point beside them, for models that are too large.

A turn at a state pays the reward of the state and that of the choice; at a goal nothing more is paid. Where a goal is
not reached almost surely, what is expected is infinite. A state is finite where the minimiser can reach a goal almost
surely whatever the maximiser does. There the replies of the minimiser are improved, and for each the maximiser's best
answer, from replies that reach (strategy iteration, as `toolbox/exact.py` has it for probabilities): an exchange for
less keeps them reaching, since who stays away for ever on finite rewards gains nothing by it.
"""

from collections import namedtuple

from toolbox.exact import floating, solved, weighted_sum
from toolbox.rewards import INFINITE


def turns_paid(rewards):
    """What a turn pays: for each state the list of its choices."""
    return [[paid + one for one in choices] for paid, choices in zip(rewards.states, rewards.choices)]


# Which states are finite

Split = namedtuple("Split", "finite ranks replies away choices")
Split.__doc__ = """The finite states, and their ranks, by which the replies of the minimiser lead to a goal; and ranks
of the other states, by which the choices of the maximiser keep away from the goals."""


def split(problem):
    """The states are lost that the minimiser can't lead to a goal by choices among those that are left, and then those
    from which the maximiser, or each choice of the minimiser, leads to lost ones; and so on with what is left."""
    inside, away, choices, rank = set(range(len(problem))), {}, {}, 0
    while True:
        ranks, replies = attracted(problem, inside)
        lost = inside - set(ranks)
        if not lost:
            return Split(inside, ranks, replies, away, choices)
        found = {state: choice_among(problem, state, lost) for state in lost}
        while found:
            rank += 1
            away.update(dict.fromkeys(found, rank))
            choices.update(found)
            inside -= set(found)
            found = sinking(problem, inside, away)


def attracted(problem, inside):
    """The states from which the minimiser is led to a goal by choices that stay inside: ranks, and its choices."""
    ranks, replies, rank, found = dict.fromkeys(problem.goals, 0), {}, 0, True
    while found:
        rank, found = rank + 1, {}
        for state in inside - set(ranks):
            fit = [
                any(successor in ranks for successor, _ in choice) and all(other in inside for other, _ in choice)
                for choice in problem.choices[state]
            ]
            if all(fit) if problem.maximises[state] else any(fit):
                found[state] = fit.index(True)
        ranks.update(dict.fromkeys(found, rank))
        replies.update(found)
    return ranks, replies


def sinking(problem, inside, away):
    """The states inside from which it leads away with some probability whatever the minimiser does, with a choice."""
    found = {}
    for state in inside - problem.goals:
        leads = [any(successor in away for successor, _ in choice) for choice in problem.choices[state]]
        if any(leads) if problem.maximises[state] else all(leads):
            found[state] = leads.index(True)
    return found


def choice_among(problem, state, states):
    """The first choice whose successors are all among these states, if there is one."""
    kept = (all(successor in states for successor, _ in choice) for choice in problem.choices[state])
    return next((number for number, is_kept in enumerate(kept) if is_kept), None)


# Values


def values_of_pair(problem, paid, strategy):
    """What is expected of each state where both sides play as given."""
    moves = [choices[number] for choices, number in zip(problem.choices, strategy)]
    astray = set(range(len(problem))) - may_reach(problem, moves, problem.goals)
    doomed = may_reach(problem, moves, astray)
    rows = {}
    for state, edges in enumerate(moves):
        if state not in problem.goals and state not in doomed:
            onward = {successor: part for successor, part in edges if successor not in problem.goals}
            rows[state] = [onward, paid[state][strategy[state]]]
    values = dict.fromkeys(problem.goals, 0)
    values.update(solved(rows))
    return [values.get(state, INFINITE) for state in range(len(problem))]


def may_reach(problem, moves, targets):
    """The states from which one of these is reached with some probability, before a goal."""
    before = {}
    for state, edges in enumerate(moves):
        for successor, _ in edges if state not in problem.goals else ():
            before.setdefault(successor, []).append(state)
    found = list(targets)
    seen = set(found)
    for state in found:
        fresh = set(before.get(state, ())) - seen
        seen |= fresh
        found += fresh
    return seen


def expected_values(problem, paid):
    """The value of each state of the game."""
    return values_and_strategy(problem, paid)[0]


def values_and_strategy(problem, paid):
    """The value of each state of the game, and the choice of who moves there."""
    sides = split(problem)
    strategy = [{**sides.choices, **sides.replies}.get(state) or 0 for state in range(len(problem))]
    while True:
        values = values_of_pair(problem, paid, strategy)
        if not improve(problem, paid, strategy, values, max) and not improve(problem, paid, strategy, values, min):
            return values, strategy


def improve(problem, paid, strategy, values, best):
    """Changes the strategy of one side where another choice is strictly better; says whether there was one."""
    changed = False
    for state, choices in enumerate(problem.choices):
        if values[state] < INFINITE and state not in problem.goals and problem.maximises[state] == (best is max):
            sums = [pay + weighted_sum(choice, values) for pay, choice in zip(paid[state], choices)]
            if best(sums) != values[state]:
                strategy[state] = sums.index(best(sums))
                changed = True
    return changed


def plain_expected(problem, paid, difference):
    """Value iteration in floating point from 0 on, until no value changes by the difference, for models in which each
    turn that does not reach a goal pays in the end."""
    choices, values, change = floating(problem), [0.0] * len(problem), difference
    states = [state for state in range(len(problem)) if state not in problem.goals]
    paid = [list(map(float, one)) for one in paid]
    while change >= difference:
        change = 0.0
        for state in states:
            best = max if problem.maximises[state] else min
            value = best(pay + weighted_sum(choice, values) for pay, choice in zip(paid[state], choices[state]))
            change, values[state] = max(change, abs(value - values[state])), value
    return values
