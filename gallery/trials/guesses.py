"""The guess over a table, the lower guess with its choices and ranks, replies, and traps, each by its definition.

They are searched for in the plainest way: all guesses one after another, all sets of states.
"""

from itertools import combinations

from whole import UNIT, down, stepped, up, weighted

EXCESSES = [0] + [2**power for power in range(51)]
LOWER_EXCESSES, SMOOTHINGS = (4, 2, 1), 5


def raised(asked, zero, table, excess):
    """The table of which a guess begins: so much above another, and never above the unit."""
    return [
        UNIT if state in asked.goals else 0 if state in zero else min(UNIT, table[state] + excess)
        for state in asked.states()
    ]


def upper_guess(asked, zero, table):
    """The first of all guesses whose own up step is nowhere above it."""
    for excess in EXCESSES:
        guess = raised(asked, zero, table, excess)
        for _ in range(SMOOTHINGS):
            after = stepped(asked, guess, up)
            if all(new <= old for new, old in zip(after, guess)):
                return guess
            guess = after
    raise AssertionError("the last guess is the unit")


def lower_guess(asked, zero, base, chosen):
    """The table, the choices and the ranks of the first lower guess that has ranks, or of the base."""
    for excess in LOWER_EXCESSES:
        guess = raised(asked, zero, base, excess)
        for _ in range(SMOOTHINGS):
            found = ranked(asked, guess, lambda state: range(len(asked.choices[state])))
            if found:
                return guess, *found
            guess = list(map(min, guess, stepped(asked, guess, down)))
    return base, *ranked(asked, base, lambda state: [chosen[state]])


def ranked(asked, table, allowed):
    """The maximiser's choices, of those allowed, and the ranks of a table, layer by layer; none if a state has none."""
    ranks = {state: 0 for state in asked.states() if not has_rank(asked, table, state)}
    choices = [None] * len(table)
    waiting = [state for state in asked.states() if state not in ranks]
    for rank in range(1, len(table) + 1):
        paid = {state: paid_choices(asked, table, state, ranks) for state in waiting}
        for state in waiting:
            if asked.maximises[state]:
                choices[state] = next((choice for choice in allowed(state) if choice in paid[state]), None)
            if choices[state] is not None or len(paid[state]) == len(asked.choices[state]):
                ranks[state] = rank
        waiting = [state for state in waiting if state not in ranks]
    return None if waiting else (choices, [ranks[state] for state in asked.states()])


def has_rank(asked, table, state):
    """Whether a state has to be paid for: it is neither goal nor dead, and its entry is not 0."""
    return state not in asked.goals and state not in asked.dead and table[state] > 0


def paid_choices(asked, table, state, ranks):
    """The choices that make at least the entry, and lead to a greater entry or to an equal one that has a rank."""
    found, here = [], table[state]
    for number, (edges, total) in enumerate(asked.choices[state]):
        onward = (table[other] > here or (table[other] == here and other in ranks) for _, other in edges)
        if weighted((edges, total), table) >= here * total and any(onward):
            found.append(number)
    return found


def replies(asked, upper):
    """The minimiser's first choice that holds the upper table, at its states that are neither goal nor dead."""
    found = [None] * len(upper)
    for state in asked.open_states():
        if not asked.maximises[state]:
            held = [up(choice, upper) <= upper[state] for choice in asked.choices[state]]
            found[state] = held.index(True)
    return found


def lowered(asked, upper, given):
    """The upper table, in each trap under the replies at most its best exit; a search over all sets of states."""
    table, kept, seen = list(upper), {}, set()
    for state in asked.open_states():
        numbers = range(len(asked.choices[state])) if asked.maximises[state] else [given[state]]
        kept[state] = [asked.choices[state][number] for number in numbers]
    for size in range(len(kept), 0, -1):
        for states in map(set, combinations(kept, size)):
            if not states & seen and is_trap(kept, states):
                seen |= states
                exits = best_exit(asked, kept, states, upper)
                for state in states:
                    table[state] = min(table[state], exits)
    return table


def inner_moves(kept, states, state):
    """The successors by choices that stay in a set."""
    stays = [edges for edges, _ in kept[state] if all(other in states for _, other in edges)]
    return {other for edges in stays for _, other in edges}


def is_trap(kept, states):
    """Whether play can stay in a set, and come from each of its states to each other; it is then no part of another."""
    moves = {state: inner_moves(kept, states, state) for state in states}
    return all(moves.values()) and all(reached(moves, state) == states for state in states)


def reached(moves, start):
    found, open_states = set(), [start]
    while open_states:
        for other in moves[open_states.pop()] - found:
            found.add(other)
            open_states.append(other)
    return found


def best_exit(asked, kept, states, upper):
    leaving = [
        up(choice, upper)
        for state in states
        if asked.maximises[state]
        for choice in kept[state]
        if not all(other in states for _, other in choice[0])
    ]
    return max(leaving, default=0)
