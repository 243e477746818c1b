"""Certificates of expected rewards: read, written, made of exact values, and judged in whole numbers.

A value is a number of units of 10^-d, with one d for a certificate. Each reward that is no whole number of units is
rounded by itself, down for the lower values and up for the upper ones.
"""

import math
import re
from collections import namedtuple
from copy import copy

from toolbox.certificates import GREATEST_CHOICE, GREATEST_RANK, decimal
from toolbox.exact import weighted_sum
from toolbox.expected import attracted, split, turns_paid, values_and_strategy
from toolbox.explicit import whole
from toolbox.rewards import INFINITE, rows_of

MOST_UNITS, MOST_PLACES = 10**15, 15

Certificate = namedtuple("Certificate", "places lower choices ranks upper replies")
Certificate.__doc__ = """The places of a unit, and tables in the order of the states; a value is a number of units, or
INFINITE, which as an upper value says that none is claimed; a choice that is not named is None."""


class Refused(Exception):
    """The line and the cause by which an audit refuses a certificate."""

    def __str__(self):
        return "refused cert line {} {}".format(*self.args)


def refuse(is_fault, cause, line=0):
    if is_fault:
        raise Refused(line, cause)


def certificate_text(certificate):
    places, *tables = certificate
    lines = [f"rewards 1 {places} {len(certificate.lower)}\n"]
    for state, (lower, choice, rank, upper, reply) in enumerate(zip(*tables)):
        named = ["-" if number is None else str(number) for number in (choice, reply)]
        low, high = decimal(lower, places), decimal(upper, places)
        lines.append(f"{state} {low} {named[0]} {rank} {high} {named[1]}\n")
    return "".join(lines)


def read_certificate(text, states):
    """The certificate of a text, behind whatever stands before it."""
    rows = rows_of(text.encode())
    start = next((place for place, row in enumerate(rows) if row[:1] == [b"rewards"]), -1)
    refuse(start < 0, "NoCertificate")
    head, first = rows[start], start + 1
    refuse(len(head) != 4 or not head[2].isdigit() or not head[3].isdigit(), "BadLine", first)
    refuse(head[1] != b"1", "Version", first)
    refuse(whole(head[2]) > MOST_PLACES, "Places", first)
    refuse(whole(head[3]) != states, "StateCount", first)
    found = []
    for line, row in enumerate(rows[first:], first + 1):
        if len(found) < states:
            found.append(entry_of(row, len(found), whole(head[2]), line))
        else:
            refuse(row, "BadLine", line)
    refuse(len(found) < states, "MissingLine", len(rows) + 1)
    return Certificate(whole(head[2]), *map(list, zip(*found)))


def entry_of(row, state, places, line):
    """The lower value, choice, rank, upper value and reply of a line."""
    behind = rb"\.[0-9]{%d}" % places if places else b""
    value, number, choice = rb"(infinite|(?:0|[1-9][0-9]*)%b)" % behind, rb"([0-9]+)", rb"(-|[0-9]+)"
    form = re.fullmatch(b" ".join([number, value, choice, number, value, choice]), b" ".join(row))
    refuse(not form or whole(form[1]) != state, "BadLine", line)
    lower, upper = map(units_of, (form[2], form[5]))
    refuse(lower == INFINITE and upper != INFINITE, "BadLine", line)
    named = [None if form[place] == b"-" else whole(form[place]) for place in (3, 6)]
    above = any(MOST_UNITS < units < INFINITE for units in (lower, upper)) or whole(form[4]) > GREATEST_RANK
    refuse(above or max(number or 0 for number in named) > GREATEST_CHOICE, "NumberOutOfRange", line)
    return lower, named[0], whole(form[4]), upper, named[1]


def units_of(field):
    return INFINITE if field == b"infinite" else whole(field.replace(b".", b""))


# Made


def certificate_of(problem, rewards, places):
    """The certificate of the values in whole units, which are moved until each step holds."""
    sides, (values, strategy) = split(problem), values_and_strategy(problem, turns_paid(rewards))
    followed = copy(problem)
    followed.choices = [
        choices if problem.maximises[state] else [choices[strategy[state]]]
        for state, choices in enumerate(problem.choices)
    ]
    ranks = {**sides.away, **attracted(followed, sides.finite)[0]}
    tables = []
    for rounding, planner, best in ((math.floor, True, min), (math.ceil, False, max)):
        paid = turns_paid(in_units(rewards, places, rounding))
        table = [INFINITE if value == INFINITE else rounding(value * 10**places) for value in values]
        while not is_settled(problem, paid, strategy, table, planner, best, rounding):
            pass
        tables.append(table)
    lower, upper = tables
    return Certificate(places, lower, *named(problem, strategy, lower, ranks, upper))


def is_settled(problem, paid, strategy, table, planner, best, rounding):
    """Moves each value of a table that a step does not keep, in which the planner plays by the strategy and the other
    side anything; says whether there was none."""
    before = list(table)
    for state, choices in enumerate(problem.choices):
        if state not in problem.goals and table[state] < INFINITE:
            numbers = [strategy[state]] if problem.maximises[state] == planner else range(len(choices))
            sums = [paid[state][number] + weighted_sum(choices[number], table) for number in numbers]
            moved = best(sums)
            table[state] = best(table[state], table[state] if moved == INFINITE else rounding(moved))
    return before == table


def named(problem, strategy, lower, ranks, upper):
    """The choices, ranks, upper values and replies of a certificate; only those are named that an audit looks at."""
    is_open = [state not in problem.goals for state in range(len(problem))]
    choices = [
        number if is_open[state] and problem.maximises[state] and lower[state] else None
        for state, number in enumerate(strategy)
    ]
    replies = [
        number if is_open[state] and not problem.maximises[state] and upper[state] < INFINITE else None
        for state, number in enumerate(strategy)
    ]
    return choices, [ranks[state] for state in range(len(problem))], upper, replies


# The judgement


class Audit:
    """A certificate beside the game in whole numbers: the choices of each state with their weights and the total of
    these, and what a turn pays, rounded down and rounded up."""

    def __init__(self, problem, rewards, certificate):
        self.problem, self.certificate = problem, certificate
        self.choices = [[whole_weights(choice) for choice in choices] for choices in problem.choices]
        self.below = turns_paid(in_units(rewards, certificate.places, math.floor))
        self.above = turns_paid(in_units(rewards, certificate.places, math.ceil))

    def judge(self):
        """Refuses the first fault, of the parts one after the other, and in each by rising states and choices."""
        _, lower, choices, _, upper, replies = self.certificate
        for state in sorted(self.problem.goals):
            refuse((lower[state], upper[state]) != (0, 0), f"Goal state {state}")
        bounded = [value < INFINITE for value in upper]
        self.part(bounded, False, replies, "Reply", self.lack_of_upper)
        self.part(bounded, False, replies, "Reply", self.lack_of_rank)
        self.part([0 < value < INFINITE for value in lower], True, choices, "Choice", self.lack_of_lower)
        self.part([value == INFINITE for value in lower], True, choices, "Choice", self.lack_of_away)

    def part(self, asked, planner, plan, missing, lack):
        """Tests the states that are asked for: there the planner plays by a plan, and the other side anything."""
        for state, choices in enumerate(self.choices):
            if state in self.problem.goals or not asked[state]:
                continue
            numbers = range(len(choices))
            if self.problem.maximises[state] == planner:
                refuse(plan[state] not in numbers, f"{missing} state {state}")
                numbers = [plan[state]]
            for number in numbers:
                cause = lack(state, number, *choices[number])
                refuse(cause, f"{cause} state {state} choice {number}")

    def lack_of_upper(self, state, number, edges, total):
        upper = self.certificate.upper
        if any(upper[successor] == INFINITE for _, successor in edges):
            return "Leaves"
        is_above = self.above[state][number] * total + mean(edges, upper) > upper[state] * total
        return "Above" if is_above else None

    def lack_of_rank(self, state, _, edges, __):
        ranks = self.certificate.ranks
        return None if any(ranks[successor] < ranks[state] for _, successor in edges) else "NoStep"

    def lack_of_lower(self, state, number, edges, total):
        lower = self.certificate.lower
        if any(lower[successor] == INFINITE for _, successor in edges):
            return None
        is_short = lower[state] * total > self.below[state][number] * total + mean(edges, lower)
        return "Short" if is_short else None

    def lack_of_away(self, state, _, edges, __):
        lower, ranks = self.certificate.lower, self.certificate.ranks
        away = [(lower[successor] == INFINITE, ranks[successor]) for _, successor in edges]
        sinks = any(is_away and rank < ranks[state] for is_away, rank in away)
        lingers = all(is_away and rank <= ranks[state] for is_away, rank in away)
        return None if sinks or lingers else "Away"


def whole_weights(choice):
    """The edges of a choice as pairs of a whole weight and a successor, and the total of the weights."""
    common = math.lcm(*(part.denominator for _, part in choice))
    return [(int(part * common), successor) for successor, part in choice], common


def mean(edges, table):
    """The sum of the weights times the values of a table: the mean, times the total."""
    return sum(weight * table[successor] for weight, successor in edges)


def in_units(rewards, places, rounding):
    """The rewards in whole units, each rounded by itself."""
    unit = 10**places
    rounded = [[rounding(reward * unit) for reward in row] for row in rewards.choices]
    return rewards._replace(states=[rounding(reward * unit) for reward in rewards.states], choices=rounded)
