"""`solve` over stiff questions: chances of 10^-3 to 10^-20 beside ordinary ones, loops, and several components.

No bound crosses one of `check` with one worker and as many rounds as `solve` makes, and no bracket of more than 1,000
units is wider than that one. It is counted how many such brackets have more than ten times as many units between as a
play is expected to make moves before its value is 0 or 1: so many units rounding may cost. The plays are those of the
plan and the best ones. A few such are left where a side has choices that nearly tie, and the moves of those count, too.
"""

from fractions import Fraction

from core import Found
from toolbox import exact
from toolbox.model import HALF, Model, ask
from toolbox.programs import UNIT, asked, bracket_of, failures

COUNT, WIDE, CLOSE, TIMES = 60, 1_000, 2, 10
MOST_ROUNDS, MOST_STEPS = 10_000, 200_000_000
PLAYERS = ("p1", "p2")
SIZES = ((1, 6), (4, 12), (4, 12), (10, 25), (20, 60))
ORDINARY = tuple(map(Fraction, ("1/2", "1/3", "1/5", "0.3", "0.9", "0.99", "0.002")))


def trial(draw, room):
    """One question, answered by both commands."""
    model, question = drawn_question(draw)
    model.write(room / "m")
    found, edges = Found(), model.counts()[2]
    found.counts["questions"] += 1
    rounds = min(MOST_ROUNDS, MOST_STEPS // edges)
    solved = asked("solve", room / "m", model, question)
    checked = asked("check", room / "m", model, question, "--workers", 1, "--rounds", rounds)
    faults = failures(solved) + failures(checked)
    if not faults:
        lower, upper = units_of(solved.output)
        faults = faults_of(lower, upper, *units_of(checked.output))
        if upper - lower > WIDE:
            found.counts["wide"] += 1
            found.counts["wider than moves account for"] += is_unaccounted(upper - lower, room, model, question)
    found.note([question.formula()], faults)
    return found


def is_unaccounted(width, room, model, question):
    """Whether the width is more than some units for each move, by the plan and by the best play.

    Where a table gave up any reply holds it, and the plan has the first one: so the best play is asked, too.
    """
    if width <= TIMES * turns_of(room, model, question):
        return False
    return width > TIMES * exact_turns_of(model, question)


def units_of(output):
    """The bounds of a line, in units."""
    lower, upper = bracket_of(output)
    return Fraction(lower) / UNIT, Fraction(upper) / UNIT


def faults_of(lower, upper, checked_lower, checked_upper):
    """What is wrong with bounds of `solve`, by those of `check`."""
    faults = []
    if lower > checked_upper or checked_lower > upper:
        faults.append(f"{lower} to {upper} units lies beside {checked_lower} to {checked_upper} units of check")
    width = upper - lower
    if width > WIDE and width > checked_upper - checked_lower + CLOSE:
        faults.append(f"{lower} to {upper} units is wider than {checked_lower} to {checked_upper} units of check")
    return faults


def drawn_question(draw):
    """A chain, a decision process or a game of two players, and a question about its one initial state."""
    kind = draw.choice(("chain", "max", "min", "min", "game", "game"))
    rule = drawn_rule(draw, draw.randint(*draw.choice(SIZES)), kind != "chain")
    first = draw.choice([name for name in rule if rule[name]])
    owners = {name: draw.choice(PLAYERS) for name in rule}
    players = PLAYERS if kind == "game" else ()
    model = Model(first, rule.get, {"goal": (len(rule) - 1).__eq__}, players, owners.get)
    bound = draw.choice(("Pmax=?", "Pmin=?")) if kind == "chain" else "Pmin=?" if kind == "min" else "Pmax=?"
    return model, ask(bound, "goal", coalition=PLAYERS[:1] if players else None)


def drawn_rule(draw, inner, has_choices):
    """The choices of so many states in a row between an end and the goal."""
    count = inner + 2
    chances = [Fraction(draw.choice((1, 1, 2, 3, 7)), 10**power) for power in drawn_powers(draw)]
    reach, jumps = draw.choice((1, 1, 2, 4)), draw.choice((0, 0, 0.1, 0.4))
    walls = set(draw.sample(range(1, count), min(inner, draw.choice((0, 0, 1, 3)))))
    rule = {0: [], count - 1: []}
    for name in range(1, count - 1):
        near = [to for to in range(name - reach, name + reach + 1) if 0 <= to < count]
        ways = near if draw.random() >= jumps else [*near, *draw.choices(range(count), k=2)]
        ways = [to for to in ways if not any(to < wall <= name for wall in walls)] or [count - 1]
        number = draw.choice((1, 1, 2, 3)) if has_choices else 1
        rule[name] = [drawn_choice(draw, ways, chances) for _ in range(number)]
    return rule


def drawn_powers(draw):
    """A few powers of ten, mostly small ones beside great ones."""
    most = draw.choice((6, 9, 12, 16, 18, 20))
    return [draw.randint(3, most) for _ in range(draw.choice((1, 2, 3)))] + [draw.choice((3, most))]


def drawn_choice(draw, ways, chances):
    """A sure move, an ordinary one to two states, or one in which a small chance or two stand beside the rest."""
    kind, ways = draw.random(), draw.sample(ways, min(3, len(ways)))
    if kind < 0.08 or len(ways) == 1:
        return [(1, ways[0])]
    if kind < 0.2:
        part = draw.choice(ORDINARY)
        return [(part, ways[0]), (1 - part, ways[1])]
    small = draw.choice(chances)
    rest = 1 - small
    if len(ways) == 2 or kind < 0.45:
        return [(small, ways[0]), (rest, ways[1])]
    part = draw.choice((HALF * rest, draw.choice(chances), draw.choice(chances)))
    return [(small, ways[0]), (part, ways[1]), (rest - part, ways[2])]


def turns_of(room, model, question):
    """How many moves a play is expected to make before its value is 0 or 1, by a plan of `solve`."""
    lines = asked("solve", room / "m", model, question, "--plan").output.splitlines()
    entries = [line.split() for line in lines if line[:1].isdigit()]
    uppers = [Fraction(entry[4]) for entry in entries]
    inner = [state for state, entry in enumerate(entries) if Fraction(entry[1]) < 1 and uppers[state] > 0]
    play = [planned(model, question, state, entry, uppers) for state, entry in enumerate(entries)]
    return turns_among(model, inner, play)


def planned(model, question, state, entry, uppers):
    """The choice or the reply of a state in a certificate, or the best one by the upper table where it has none."""
    maximises = model.owners[state] == 0 if model.players else question.bound == "Pmax"
    field, choices = entry[2] if maximises else entry[5], model.choices[state]
    if field != "-":
        return int(field)
    return max(range(len(choices)), key=lambda number: exact.weighted_sum(choices[number].items(), uppers))


def exact_turns_of(model, question):
    """The same where both sides play as is best in fractions."""
    problem = exact.Problem(model, question)
    play, rises = exact.first_strategy(problem), True
    while rises:
        values = exact.answered(problem, play)
        rises = exact.improve(problem, play, values, max)
    for state in set(range(len(problem))) - set(play):
        sums = [exact.weighted_sum(choice, values) for choice in problem.choices[state]]
        play[state] = sums.index(min(sums))
    return turns_among(model, [state for state, value in enumerate(values) if 0 < value < 1], play)


def turns_among(model, inner, play):
    """How many moves a play is expected to make from the first state before it leaves these states."""
    place_of, rows = {state: place for place, state in enumerate(inner)}, []
    for state in inner:
        rows.append({})
        for to, part in model.choices[state][play[state]].items():
            rows[-1][place_of.get(to)] = rows[-1].get(place_of.get(to), 0) + part
    return expected_turns(rows)[place_of[0]] if 0 in place_of else 0


def expected_turns(rows):
    """For each row the expected number of turns before a chain leaves, by floats of which none is subtracted.

    A row has the chance of each next row, and that of leaving under `None`.
    """
    count = len(rows)
    leaks = [float(row.get(None, 0)) for row in rows]
    cells = [[float(row.get(to, 0)) if to != place else 0.0 for to in range(count)] for place, row in enumerate(rows)]
    sums, outs = [1.0] * count, [0.0] * count
    for last in reversed(range(count)):
        outs[last] = leaks[last] + sum(cells[last][:last])
        for row in range(last):
            factor = cells[row][last] / outs[last] if outs[last] else 0.0
            leaks[row] += factor * leaks[last]
            sums[row] += factor * sums[last]
            for to in range(last):
                cells[row][to] += factor * cells[last][to] if to != row else 0.0
    turns = []
    for row in range(count):
        inflow = sums[row] + sum(cells[row][to] * turns[to] for to in range(row))
        turns.append(inflow / outs[row] if outs[row] else float("inf"))
    return turns
