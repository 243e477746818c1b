"""A game: agents on a network form teams for tasks, and some of them are hostile.

    gallery/write teams AGENTS REACH TASKS NAME

Source: after T. Chen, M. Kwiatkowska, D. Parker and A. Simaitis, Verifying team formation protocols with
probabilistic model checking, CLIMA 2011, on the protocol of M. Gaston and M. desJardins, Agent-organized networks for
dynamic team formation, AAMAS 2005. Rebuilt from its description in the form of a reachability question: agents on a
network have a resource each, tasks need several, and an agent may begin a team or join one of a neighbour. There
agents are rewarded, and begin and join with given probabilities or as they choose; here they choose. The networks,
the tasks and the order in which agents act are our choice.

State: the tasks, the team of each agent, who has acted, and whose turn it is. The AGENTS sit in a ring, and each
knows the next REACH ones at both sides; agent i has the resource i modulo 3. First each of TASKS tasks is drawn,
which needs two of the three resources or all, with 1/4 each. Then agents act in an order that is drawn, each once.
One on turn stays out, or begins the team of a task that has none, or joins that of a neighbour, where its own
resource is needed and nobody of the team has it.

Value: computed in fractions by strategy iteration, for coalitions against all others, who keep out or take a place.
Three agents who know each other and one task: all do it surely, two of them where it needs theirs alone, with 1/4.
"""

from fractions import Fraction
from itertools import combinations_with_replacement, permutations
from typing import NamedTuple, Optional

from gallery.families import REBUILT, Known, changed
from toolbox.model import Model, ask, sure

RESOURCES = 3
NEEDS = ((0, 1), (0, 2), (1, 2), (0, 1, 2))
SIZES = {"small": [(3, 1, 1), (4, 1, 1), (4, 1, 2)], "large": [(5, 1, 2)]}
KNOWN = Known("PRISM-games' team formation", kind=REBUILT)


class Turn(NamedTuple):
    """The needs of the tasks, the task of each agent or none, the agents still to act, and who is on turn or none."""

    tasks: tuple
    teams: tuple
    waiting: tuple
    agent: Optional[int] = None


def model(agents, reach, tasks):
    def rule(turn):
        if turn == "start":
            return [[(part, Turn(drawn, (None,) * agents, tuple(range(agents)))) for drawn, part in lots(tasks)]]
        if not turn.waiting:
            return []
        if turn.agent is None:
            return [[(Fraction(1, len(turn.waiting)), turn._replace(agent=agent)) for agent in turn.waiting]]
        return [[(1, after(turn, task))] for task in [None, *filter(lambda task: may_join(turn, task), range(tasks))]]

    def may_join(turn, task):
        members = members_of(turn, task)
        has_place = resource(turn.agent) in turn.tasks[task] and resource(turn.agent) not in map(resource, members)
        return has_place and (not members or any(knows(turn.agent, member) for member in members))

    def knows(agent, other):
        return min((agent - other) % agents, (other - agent) % agents) <= reach

    def owner(turn):
        return players[0 if turn == "start" or turn.agent is None else turn.agent]

    def teams_that_are_whole(turn):
        return [] if turn == "start" else [task for task in range(tasks) if is_whole(turn, task)]

    players = names(agents)
    labels = {
        "one_done": lambda turn: bool(teams_that_are_whole(turn)),
        "all_done": lambda turn: len(teams_that_are_whole(turn)) == tasks,
        "with_a1": lambda turn: turn != "start" and turn.teams[0] in teams_that_are_whole(turn),
    }
    return Model("start", rule, labels, players, owner)


def lots(tasks):
    """What tasks may be drawn, whose order does not count, each with its probability."""
    for drawn in combinations_with_replacement(NEEDS, tasks):
        yield drawn, Fraction(len(set(permutations(drawn))), len(NEEDS) ** tasks)


def resource(agent):
    return agent % RESOURCES


def members_of(turn, task):
    return [agent for agent, team in enumerate(turn.teams) if team == task]


def is_whole(turn, task):
    return len(members_of(turn, task)) == len(turn.tasks[task])


def after(turn, task):
    """The turn behind this one, in which the agent joins the team of a task or none."""
    agent = turn.agent
    teams = changed(turn.teams, agent, task)
    return Turn(turn.tasks, teams, tuple(other for other in turn.waiting if other != agent))


def names(agents):
    return [f"a{number}" for number in range(1, agents + 1)]


def questions(agents, reach, tasks):
    players = names(agents)
    for count in range(2, agents + 1):
        yield ask("Pmax=?", "one_done", coalition=tuple(players[:count]))
    for coalition in dict.fromkeys([("a1", "a2"), ("a1", "a3"), tuple(players[:-1])]):
        yield ask("Pmax=?", "with_a1", coalition=coalition)
    yield ask("Pmax=?", "all_done", coalition=tuple(players))
    yield ask("P>=0.5", "all_done", coalition=tuple(players[:-1]))
    yield ask("Pmax=?", "!all_done", coalition=tuple(players[-1:]), path="G")
    yield sure("Pmax=?", "one_done", coalition=tuple(players))
