"""Certificates, read from their text in the form that `stogame` writes and audits.

Form alone is looked at here; whether a certificate is right an audit says. Bounds are whole numbers of units of 10^-15,
and of expected rewards of units of their own places, or INFINITE; an infinite upper one says that none is claimed.
"""

import re
from array import array
from collections import namedtuple

from toolbox.endings import Refusal, tell
from toolbox.explicit import open_bytes, shown, whole
from toolbox.formulas import asked, spelt_plainly
from toolbox.reward_formulas import rewards_asked
from toolbox.rewards import INFINITE

UNIT, PLACES = 10**15, 15
DECIMALS = {b"1": 12, b"2": 15}
GREATEST_CHOICE = 16_383
GREATEST_RANK = 2**32 - 1

MAXIMISER, MINIMISER = "maximiser", "minimiser"

Certificate = namedtuple("Certificate", "name formula line is_paid places lower choices ranks upper replies")
Certificate.__doc__ = """The tables of a certificate, each in the order of the states; a choice or reply that is not
named is None.

`formula` is the text behind the last `formula` before it, or None; `line` is the number of its first line; `is_paid`
says whether it is one of rewards, and `places` how many a unit has.
"""


def read_certificate(name):
    """The certificate of a file, behind whatever stands before it."""
    with open_bytes(name) as file:
        lines = file.read().split(b"\n")
    formula = None
    for number, line in enumerate(lines, 1):
        word, _, rest = line.strip().partition(b" ")
        if word == b"formula":
            formula = rest.decode("ascii", "backslashreplace").strip()
        if line.split()[:1] in ([b"certificate"], [b"rewards"]):
            return entries_of(name, formula, number, lines)
    raise Refusal(name, None, "no line begins with 'certificate' or 'rewards'")


def certificate_said(tool, name, formula):
    """The certificate of a file, said of this formula, or where it is None of the file's own, and what this asks, if
    there is one. Of `G`, whose dual the certificate is of, it is mirrored, which the tool tells."""
    found = read_certificate(name)
    text = formula or found.formula
    question = (rewards_asked if found.is_paid else asked)(text) if text else None
    if question and question.path == "G":
        changes = "here its bounds are 1 less and exchanged, and so are maximiser and minimiser"
        tell(tool, f"{name}: the certificate is of the dual of {text}; {changes}")
        found = mirrored(found)
    return found._replace(formula=text and spelt_plainly(text)), question


def mirrored(certificate):
    """What a certificate says of the formula of which its own is the dual.

    A lower bound is 1 less the upper one, and the replies of the minimiser are the choices of the maximiser.
    """
    return certificate._replace(
        lower=array("q", (UNIT - bound for bound in certificate.upper)),
        upper=array("q", (UNIT - bound for bound in certificate.lower)),
        choices=certificate.replies,
        replies=certificate.choices,
    )


def entries_of(name, formula, first, lines):
    """The certificate that begins at this line."""
    is_paid, decimals, states = head_of(name, first, lines[first - 1])
    bounds = ([], []) if is_paid else (array("q"), array("q"))
    places = decimals if is_paid else PLACES
    found = Certificate(name, formula, first, is_paid, places, bounds[0], [], array("q"), bounds[1], [])
    form = entry_form(reward_form(decimals) if is_paid else rb"[0-9]\.[0-9]{%d}" % decimals)
    for number, line in enumerate(lines[first:], first + 1):
        if len(found.ranks) < states:
            add_entry(found, number, form.match(line), decimals)
        elif line.strip():
            raise Refusal(name, number, f"more behind the line of the last state, {states - 1}")
    if len(found.ranks) < states:
        raise Refusal(name, None, f"lines of {len(found.ranks)} states; the first line states {states}")
    return found


def head_of(name, first, line):
    """Whether a first line is of rewards, how many decimals the bounds have, and how many states there are."""
    head, fits = line.split(), "'certificate 2 N' and no 'certificate 1 N'"
    if head[0] == b"certificate" and len(head) == 3 and head[1] in DECIMALS and head[2].isdigit():
        return False, DECIMALS[head[1]], whole(head[2])
    if head[0] == b"rewards":
        fits = f"'rewards 1 D N' with D up to {PLACES}"
        numbers = b"".join(head[2:])
        if len(head) == 4 and head[1] == b"1" and numbers.isdigit() and whole(head[2]) <= PLACES:
            return True, whole(head[2]), whole(head[3])
    raise Refusal(name, first, f"{shown(line.strip())} is no {fits}")


def reward_form(decimals):
    """A value of rewards."""
    return rb"infinite|(?:0|[1-9][0-9]*)" + (rb"\.[0-9]{%d}" % decimals if decimals else b"")


def entry_form(bound):
    """A line of a state: its number, lower bound, choice, rank, upper bound and reply."""
    value, number, choice = b"(%b)" % bound, rb"([0-9]+)", rb"(-|[0-9]+)"
    return re.compile(rb"[ \t]*" + rb"[ \t]+".join([number, value, choice, number, value, choice]) + rb"\s*\Z")


def add_entry(found, number, line, decimals):
    state = len(found.ranks)
    if not line or whole(line[1]) != state:
        raise Refusal(
            found.name, number, f"no line of state {state}: number, lower bound, choice, rank, upper bound, reply"
        )
    lower, upper = (units_of(line[place]) * 10 ** (found.places - decimals) for place in (2, 5))
    choice, reply = (None if line[place] == b"-" else whole(line[place]) for place in (3, 6))
    rank = whole(line[4])
    is_above = any(UNIT < bound < INFINITE for bound in (lower, upper))
    if is_above or max(choice or 0, reply or 0) > GREATEST_CHOICE or rank > GREATEST_RANK:
        raise Refusal(found.name, number, f"a number of state {state} is above its limit")
    if upper < lower == INFINITE:
        raise Refusal(found.name, number, f"state {state} has an upper bound below a lower one that is infinite")
    found.lower.append(lower)
    found.choices.append(choice)
    found.ranks.append(rank)
    found.upper.append(upper)
    found.replies.append(reply)


def units_of(bound):
    return INFINITE if bound == b"infinite" else whole(bound.replace(b".", b""))


def line_of(certificate, state):
    return certificate.line + 1 + state


def decimal(units, places=PLACES):
    """A bound in units of so many places, in decimals."""
    if units == INFINITE:
        return "infinite"
    digits = f"{units:0{places + 1}}"
    return f"{digits[:-places]}.{digits[-places:]}" if places else digits


def movers_of(certificate, maximises):
    """Who moves at each state: by the sides of the formula where they are known,
    else by whose choice is named, or None."""
    if maximises is not None:
        return [MAXIMISER if side else MINIMISER for side in maximises]
    movers = []
    for state, (choice, reply) in enumerate(zip(certificate.choices, certificate.replies)):
        if choice is not None and reply is not None:
            cause = (
                f"state {state} has a choice and a reply, so it takes --formula, and --own of a game, to say who moves"
            )
            raise Refusal(certificate.name, line_of(certificate, state), cause)
        movers.append(MAXIMISER if choice is not None else MINIMISER if reply is not None else None)
    return movers


def moves_of(certificate, movers):
    """The choice that is named at each state for whoever moves there;
    what is named for the other side plays no part."""
    return [
        reply if mover == MINIMISER else choice
        for mover, choice, reply in zip(movers, certificate.choices, certificate.replies)
    ]
