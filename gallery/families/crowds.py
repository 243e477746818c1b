"""Anonymity in a crowd whose members hand messages on to each other.

    gallery/write crowds MEMBERS COLLABORATORS PATHS NAME

Source: M. K. Reiter and A. D. Rubin, Crowds: anonymity for web transactions, ACM Transactions on Information and System
Security 1, 1998, section 5.2. So many of the members collaborate against the others. PATHS 0 stands for paths without
an end.

State: the paths still to come, who holds the message, and how often the collaborators have seen the sender, up to
twice. On each path the sender, member 0, hands the message to any member, and each member hands it on to any one with
3/4 and else delivers it. A collaborator sees who handed it over, and the path ends.

Value: the i-th to get the message is the first collaborator with (c/n) a^(i-1), a = (3/4)(n-c)/n, and then sees the
sender surely for i = 1, else with 1/(n-c). So somebody is seen with h = (c/n)/(1-a), the sender with s = h - h a
(n-c-1)/(n-c), and the first to be seen is the sender with s/h = 1 - (3/4)(n-c-1)/n, the source's formula. On PATHS
paths that comes with (s/h)(1 - (1-h)^PATHS), and the sender is seen so often as a coin with s falls on its side. Until
it is seen twice there are 2 / s paths on average.
"""

from fractions import Fraction

from gallery.families import OTHER, Known
from toolbox.model import CLOSED, Model, ask, sure

ON = Fraction(3, 4)
SOURCE = "Reiter and Rubin 1998"
SIZES = {"small": [(5, 1, 0), (6, 1, 0), (6, 1, 3), (20, 3, 5)], "large": [(60, 9, 20)]}
KNOWN = Known("`crowds`", kind=OTHER)
SENDER = 0


def model(members, collaborators, paths):
    honest = members - collaborators

    def handed_over(to_come, holder, seen):
        met = (to_come, "sender seen" if holder == SENDER else "other seen", min(2, seen + (holder == SENDER)))
        inside = [(Fraction(1, members), (to_come, member, seen)) for member in range(honest)]
        return [(Fraction(collaborators, members), met)] + inside

    def rule(state):
        to_come, holder, seen = state
        if holder == "end":
            return []
        if holder == "begin":
            return [handed_over(max(0, to_come - 1), SENDER, seen)]
        after = (to_come, "end" if paths and not to_come else "begin", seen)
        if holder in ("sender seen", "other seen"):
            return [[(1, after)]]
        on = [(ON * part, name) for part, name in handed_over(to_come, holder, seen)]
        return [[(1 - ON, after)] + on]

    labels = {
        "sender_seen": lambda state: state[1] == "sender seen",
        "other_seen": lambda state: state[1] == "other seen",
        "twice": lambda state: state[2] == 2,
    }
    return Model((paths, "begin", 0), rule, labels)


def chances(members, collaborators):
    """That the collaborators see somebody on a path, and that they see the sender."""
    honest = members - collaborators
    inside, caught = ON * honest / members, Fraction(collaborators, members)
    return caught / (1 - inside), caught + caught * inside / (1 - inside) / honest


def questions(members, collaborators, paths):
    somebody, sender = chances(members, collaborators)
    if paths == 0:
        first = 1 - ON * Fraction(members - collaborators - 1, members)
        yield ask("Pmax=?", "sender_seen", first, SOURCE, safe="!other_seen")
        yield ask("P<=0.5", "sender_seen", first, SOURCE, safe="!other_seen")
        yield sure("P>=1", "twice", value=1, source=CLOSED)
        return
    first = sender / somebody * (1 - (1 - somebody) ** paths)
    twice = 1 - (1 - sender) ** paths - paths * sender * (1 - sender) ** (paths - 1)
    yield ask("Pmax=?", "sender_seen", first, CLOSED, safe="!other_seen")
    yield ask("Pmax=?", "twice", twice, CLOSED)
    yield ask("P<0.1", "twice", twice, CLOSED)


def rewards(*_):
    return {"paths": lambda state, after: state[1] == "begin"}
