"""A host that chooses its own address, as PRISM's case study has it.

    gallery/write zeroconf_reset HOSTS PROBES NAME

Source: IETF RFC 3927; M. Kwiatkowska, G. Norman, D. Parker and J. Sproston, Performance analysis of probabilistic
timed automata using digital clocks, Formal Methods in System Design 29, 2006; `zeroconf` of the benchmark set with its
`reset`, written anew from its commands.

State: of the network the messages of the host that wait, how many answers wait, with another address and with the
host's own, what is under way and for how long; of the host two clocks, how often it had to choose anew, up to 10, the
probes that it sent, whether it has to answer and whether it defended its address, whether that is a used one, and what
it does. HOSTS addresses of 65,024 are used. The host draws one, sends PROBES probes, and where an answer comes, chooses
anew; the messages that wait are forgotten then (`reset`). A message is lost with 0.1. The scheduler chooses what
happens first and how long it takes. `zeroconf.py` is the older chain without time.

Value: the least and the greatest chance to end with a used address, computed in fractions.
"""

from fractions import Fraction
from typing import NamedTuple

from gallery.families import same_or_size
from toolbox.model import COMPUTED, Model, ask, sure

ADDRESSES, LOST = 65024, Fraction(1, 10)
PAUSE, LONG_PAUSE, DEFENCE, MANY_DRAWS = 2, 60, 10, 10
MOST_MESSAGES, MOST_OTHERS, MOST_ANSWERS = 8, 20, 8
OTHER, USED, FRESH = range(3)
FIRST_WAITS = (0, 1, 2)
SIZES = {"small": [(20, 2)], "large": [(1000, 8)]}
COUNTS = {(20, 2, "true"): (670,)}
PUBLISHED = {(1000, 8): "4.801e-8"}


class Network(NamedTuple):
    messages: tuple = ()
    others: int = 0
    answers: int = 0
    doing: str = "idle"
    clock: int = 0
    under_way: int = OTHER


class Host(NamedTuple):
    doing: str = "chooses"
    clock: int = 0
    since_defence: int = 0
    draws: int = 0
    probes: int = 0
    must_answer: bool = False
    defended: bool = False
    address: int = USED


def model(hosts, probes):
    used = Fraction(hosts, ADDRESSES)

    def rule(state):
        network, host = state
        if host.doing == "begins anew":
            return [[(1, (Network(doing=network.doing, clock=network.clock), host._replace(doing="chooses")))]]
        choices = list(network_steps(network, host))
        if host.doing == "chooses" and (host.draws < MANY_DRAWS or host.clock == LONG_PAUSE):
            choices.append(chosen(network, host, used))
        if host.doing == "has it":
            choices.append([(1, state)])
        if (host.doing, host.clock, host.probes) == ("probes", PAUSE, probes):
            choices.append([(1, (network, host._replace(doing="tells", probes=0, draws=0, clock=0)))])
        heard = [
            (Network(network.messages, network.others, network.answers), after) for after in hearing(network, host)
        ]
        later, sent = (passed(network), aged(host)), sending(host, probes)
        posted = (network._replace(messages=(network.messages + (host.address,))[:MOST_MESSAGES]), sent)
        return choices + [[(1, after)] for after in [*heard, later, posted] if None not in after]

    return Model((Network(), Host()), rule, {"used": is_used, "settled": lambda state: state[1].doing == "has it"})


def is_used(state):
    return state[1].doing == "has it" and state[1].address == USED


def network_steps(network, host):
    """A message that waits goes on its way or is lost; one of the host that arrives is answered."""

    def goes(doing, under_way, **left):
        after = network._replace(**left)
        sent = after._replace(doing=doing, under_way=under_way)
        return [(1 - LOST, (sent, host)), (LOST, (after, host))]

    if network.doing == "idle" and network.messages:
        yield goes("from host", network.messages[0], messages=network.messages[1:])
    if network.doing == "idle" and network.others:
        yield goes("to host", OTHER, others=network.others - 1)
    if network.doing == "idle" and network.answers:
        yield goes("to host", USED, answers=network.answers - 1)
    if network.doing == "from host":
        others = min(MOST_OTHERS, network.others + (network.under_way == OTHER))
        answers = min(MOST_ANSWERS, network.answers + (network.under_way == USED))
        yield [(1, (Network(network.messages, others, answers), host))]


def chosen(network, host, used):
    """The host draws an address and how long it waits before its first probe."""
    return [
        (chance / len(FIRST_WAITS), (network, host._replace(doing="probes", address=address, clock=wait)))
        for address, chance in ((USED, used), (FRESH, 1 - used))
        for wait in FIRST_WAITS
    ]


def hearing(network, host):
    """What the host may do with a message that arrives: pass over it, choose anew, or defend its address once."""
    if network.doing != "to host" or host.doing not in ("chooses", "probes", "tells") or host.must_answer:
        return
    anew = host._replace(doing="begins anew", clock=0, probes=0)
    if host.doing == "chooses" or network.under_way == OTHER:
        yield host
    elif host.doing == "probes":
        yield anew._replace(draws=min(host.draws + 1, MANY_DRAWS))
    else:
        if not host.defended or host.since_defence >= DEFENCE:
            yield host._replace(defended=True, must_answer=True, since_defence=0)
        if not host.defended or host.since_defence < DEFENCE:
            yield anew._replace(defended=False, since_defence=0)


def passed(network):
    """The network a unit of time later, or none where something has to be done before."""
    if network.doing != "idle":
        return network._replace(clock=1) if network.clock == 0 else None
    return None if network.messages or network.others or network.answers else network


def aged(host):
    """The host a unit of time later, or none where it has to do something before."""
    most = {"chooses": LONG_PAUSE if host.draws == MANY_DRAWS else 0, "probes": PAUSE, "tells": PAUSE}
    if host.clock >= most.get(host.doing, 0) or host.must_answer:
        return None
    since = min(host.since_defence + 1, DEFENCE) if host.defended else host.since_defence
    return host._replace(clock=host.clock + 1, since_defence=since)


def sending(host, probes):
    """The host behind a message of its own: a probe, an answer, or one of the two that tell of its address."""
    if host.must_answer:
        return host._replace(must_answer=False)
    most = {"probes": probes, "tells": 1}.get(host.doing, 0)
    if host.clock == PAUSE and host.probes < most:
        return host._replace(clock=0, probes=host.probes + 1)
    if host.clock == PAUSE and host.doing == "tells":
        return host._replace(doing="has it", clock=0, since_defence=0, probes=0)
    return None


def questions(hosts, probes):
    yield ask("Pmax=?", "used", source=COMPUTED, published=PUBLISHED.get((hosts, probes), ""))
    yield ask("Pmin=?", "used", source=COMPUTED)
    yield ask("P<=0.0001", "used", source=COMPUTED)
    yield sure("Pmin=?", "settled")


def known_as(hosts, probes):
    return same_or_size("`zeroconf`", (hosts, probes, "true"), COUNTS, "`correct_max`, `correct_min`")
