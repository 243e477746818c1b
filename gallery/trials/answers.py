"""What `check` has to write, with one worker or within so many steps, worked out apart from the program.

Each function says by its definition what docs/COMMANDS.md and docs/FORMATS.md say in words.
"""

from dataclasses import dataclass
from fractions import Fraction

from files import read_game, read_labels, read_owners
from gallery.solved import verdict_by
from rounds import bracket, decimal
from texts import Refusal, read_formula
from toolbox.exact import Plain
from toolbox.explicit import ONLY_PLAYER
from toolbox.formulas import TRUE, Formula, head_of, met, nodes_of
from whole import UNIT, Asked, down, stepped, up

STATUSES = {"True": 0, "Bracket": 0, "False": 1, "Undecided": 2}


@dataclass
class Files:
    """A game with the states of each label, the names of the players, and the player of each state."""

    game: list
    labels: dict
    players: list
    owners: list

    def plain(self):
        """The same as the gallery has a model."""
        return Plain(self.game, self.labels, self.players, self.owners)

    def maximises(self, formula):
        return tuple(formula.maximises(owner) for owner in self.owners)


def read_files(transitions, labels, owners=None):
    """The files as they are read, or the refusal of the first that is none."""
    game = read_game(transitions)
    held = read_labels(labels, len(game))
    players = ([ONLY_PLAYER], [ONLY_PLAYER] * len(game)) if owners is None else read_owners(owners, len(game))
    return Files(game, held, *players)


@dataclass
class Answer:
    """Lower and upper bounds, what the lines say of rounds or steps, the bracket, and how much was left open inside."""

    lower: list
    upper: list
    how: str
    bracket: object = None
    undecided: int = 0


def answer(files, formula, initial, rounds, with_traps=False):
    """The answer to a formula, whose run ends early where the bounds of the initial states settle it."""
    if formula.path == "G":
        dual = answer(files, formula.dual(), initial, rounds, with_traps)
        return Answer(mirrored(dual.upper), mirrored(dual.lower), dual.how, dual.bracket, dual.undecided)
    (left, undecided), (right, more) = (held(files, side, rounds) for side in (formula.left, formula.right))
    asked = [question_of(files, formula, left[part], right[part]) for part in (0, 1)]
    if formula.horizon() is not None:
        found = within(formula, asked, right)
    else:
        found = in_the_end(formula, asked, initial, rounds, with_traps)
    found.undecided = undecided + more
    return found


def mirrored(table):
    return [UNIT - value for value in table]


def question_of(files, formula, left, right):
    dead = frozenset(range(len(files.game))) - left - right
    return Asked(files.game, files.maximises(formula), right, dead)


def within(formula, asked, right):
    tables = []
    for question, rounded, goals in zip(asked, (down, up), right):
        table = [UNIT * (state in goals) for state in question.states()]
        states = question.states() if formula.path == "X" else None
        tables.append(fold(question, table, rounded, formula.horizon(), states))
    return Answer(*tables, f"steps {formula.horizon()}")


def fold(question, table, rounded, steps, states):
    """The table after so many steps, of which none follows that changes nothing."""
    for _ in range(steps):
        after = stepped(question, table, rounded, states)
        if after == table:
            break
        table = after
    return table


def in_the_end(formula, asked, initial, rounds, with_traps):
    def is_settled(lower, upper):
        return all(verdict_of(formula, lower[state], upper[state]) != "Undecided" for state in initial)

    rule = is_settled if formula.limit is not None else None
    first, *_ = runs = [bracket(asked[0], rounds, rule, with_traps)]
    if asked[0] != asked[1]:
        runs.append(bracket(asked[1], rounds, rule))
    return Answer(first.lower, runs[-1].upper, f"rounds {first.rounds}", first)


def verdict_of(formula, lower, upper):
    return verdict_by(formula, Fraction(lower, UNIT), Fraction(upper, UNIT))


def held(files, tree, rounds):
    """The states where a state formula surely holds and where it possibly does, and how much is left open inside."""
    everywhere = frozenset(range(len(files.game)))
    if isinstance(tree, Formula):
        found = answer(files, tree, everywhere, rounds)
        verdicts = [verdict_of(tree, *bounds) for bounds in zip(found.lower, found.upper)]
        sure = frozenset(state for state in everywhere if verdicts[state] == "True")
        possible = frozenset(state for state in everywhere if verdicts[state] != "False")
        return (sure, possible), found.undecided + len(possible - sure)
    if tree[0] in ("label", "true", "false"):
        states = everywhere if tree == TRUE else frozenset(files.labels.get(tree[-1], ()))
        return (states, states), 0
    sets, counts = zip(*(held(files, part, rounds) for part in tree[1:]))
    if tree[0] in ("!", "=>"):
        sets = (tuple(reversed(sets[0])), *sets[1:])
    return tuple(met(tree[0], everywhere, parts) for parts in zip(*sets)), sum(counts)


def checked(files, text, rounds=10_000, plan=False, traps=False):
    """The status of `check` and what it writes: a report, or the refusal of the formula or the question."""
    formula = read_formula(text)
    initial = initial_of(files, formula)
    count = len(formula.inside())
    if (plan or traps) and (count or formula.horizon() is not None):
        raise Refusal("question", 0, "WrongKind")
    found = answer(files, formula, initial, rounds, traps)
    verdicts = [verdict_of(formula, found.lower[state], found.upper[state]) for state in initial]
    lines = [f"inner {count} undecided {found.undecided}"] if count else []
    for state, verdict in zip(initial, verdicts):
        bounds = f"lower {decimal(found.lower[state])} upper {decimal(found.upper[state])}"
        lines.append(f"state {state} {bounds} {found.how} {verdict}")
    if plan:
        asked = formula.dual() if formula.path == "G" else formula
        lines += [f"formula {asked.formula()}", *found.bracket.certificate()]
    return status_of(verdicts), "".join(f"{line}\n" for line in lines)


def status_of(verdicts):
    """1 where a verdict is `False`, else 2 where one is left open, else 0."""
    statuses = set(map(STATUSES.get, verdicts))
    return 1 if 1 in statuses else max(statuses)


def initial_of(files, formula):
    """The initial states; a label or a player that is unknown is refused, and so is a model without such states."""
    nodes = nodes_of(formula)
    for name in (node[1] for node in nodes if head_of(node) == "label"):
        if name not in files.labels:
            raise Refusal("question", 0, f"UnknownLabel {name}")
    for name in (name for node in nodes if isinstance(node, Formula) for name in node.coalition or ()):
        if name not in files.players:
            raise Refusal("question", 0, f"UnknownPlayer {name}")
    if not files.labels.get("init"):
        raise Refusal("question", 0, "NoInit")
    return sorted(files.labels["init"])
