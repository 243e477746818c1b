"""How often two stations of a wireless network collide.

    gallery/write wlan COLLISIONS SENDING NAME

Source: IEEE 802.11, 1999; M. Kwiatkowska, G. Norman and J. Sproston, Probabilistic model checking of the IEEE 802.11
wireless local area network protocol, PAPM-PROBMIV 2002; `wlan0_collide` of PRISM's benchmarks, written anew from its
commands; `wlan` of the benchmark set without its count of collisions, up to COLLISIONS.

State: the collisions; for each station whether it has nothing, a whole or a garbled message in the air; and what it
does, its clock, and the slots that it still waits. A message takes 4 to SENDING units of time, as the scheduler
chooses. A station sends where the air was free for a while; who begins while the other sends garbles both messages, and
sends again behind 0 to 15 slots, each as likely, in which it stops counting while the air is busy. A whole message is
acknowledged.

Value: the greatest chance of two collisions is published for 2 and 10, as 0.18359375 = 47/256.
"""

from fractions import Fraction
from typing import NamedTuple

from gallery.families import Known, changed
from toolbox.model import CLOSED, Model, ask, sure

QUIET, VULNERABLE, LEAST, UNHEARD, ANSWER, SLOT = 3, 1, 4, 6, 4, 1
SLOTS = 16
NOTHING, WHOLE, GARBLED = range(3)
QUIET_THEN = {"listens": ("starts", "waits"), "pauses": ("draws", "waits"), "resumes": ("counts", "stops")}
FREE_THEN = {"waits": "pauses", "stops": "resumes"}
PRISM = "Kwiatkowska and others 2002"
SIZES = {"small": [], "large": [(2, 10)]}


class Station(NamedTuple):
    doing: str = "listens"
    clock: int = 0
    slots: int = 0


def model(collisions, sending):
    def rule(state):
        choices = [choice for place in (0, 1) for choice in own_steps(state, place, collisions)]
        _, air, stations = state
        later = [aged(station, air, place, sending) for place, station in enumerate(stations)]
        return choices + ([] if None in later else [[(1, state[:2] + (tuple(later),))]])

    labels = {
        "collided": lambda state: state[0] == collisions,
        "both_sent": lambda state: all(station.doing == "done" for station in state[2]),
    }
    return Model((0, (NOTHING, NOTHING), (Station(), Station())), rule, labels)


def own_steps(state, place, most):
    """What one station may do besides waiting."""
    _, air, stations = state
    station, mine, busy = stations[place], air[place], air != (NOTHING, NOTHING)

    def to(doing, clock=0, state=state, slots=station.slots):
        return state[:2] + (changed(state[2], place, Station(doing, clock, slots)),)

    doing, clock = station.doing, station.clock
    if doing in QUIET_THEN:
        free, found_busy = QUIET_THEN[doing]
        if clock >= QUIET - 1:
            yield [(1, to(free, slots=0 if free == "draws" else station.slots))]
        if busy:
            yield [(1, to(found_busy))]
    elif doing in FREE_THEN and not busy:
        yield [(1, to(FREE_THEN[doing], clock))]
    elif doing == "draws":
        yield [(Fraction(1, SLOTS), to("counts", clock, slots=slots)) for slots in range(SLOTS)]
    elif doing == "counts":
        if clock == SLOT:
            yield [(1, to("counts", slots=station.slots - 1) if station.slots else to("starts"))]
        if busy:
            yield [(1, to("stops"))]
    elif doing == "starts" and mine == NOTHING:
        yield [(1, to("sends", state=begun(state, place, most)))]
    elif doing == "sends" and clock >= LEAST:
        yield [(1, to("hears" if mine == WHOLE else "misses", state=ended(state, place)))]
    elif doing in ("hears", "misses"):
        yield from answered(state, place, to, most)


def answered(state, place, to, most):
    """What comes behind a message: its acknowledgement, which lies in the air as another one, or nothing."""
    _, air, stations = state
    (doing, clock, _), mine, busy = stations[place], air[place], air != (NOTHING, NOTHING)
    if clock == 0 and mine == NOTHING and busy:
        yield [(1, to("waits"))]
    if doing == "misses" and clock == UNHEARD:
        yield [(1, to("pauses"))]
    if doing == "hears" and mine == NOTHING and (clock == 1 or clock == 0 and not busy):
        yield [(1, to("hears", state=begun(state, place, most)))]
    if doing == "hears" and mine == WHOLE and clock >= ANSWER - 1:
        yield [(1, to("done", state=ended(state, place)))]


def begun(state, place, most):
    """The state with a message of a station in the air, garbled where the other one has one there."""
    collisions, air, stations = state
    if air[1 - place] == NOTHING:
        return (collisions, changed(air, place, WHOLE), stations)
    return (min(collisions + 1, most), (GARBLED, GARBLED), stations)


def ended(state, place):
    collisions, air, stations = state
    return (collisions, changed(air, place, NOTHING), stations)


def aged(station, air, place, sending):
    """A station a unit of time later, or none where it can't wait."""
    (doing, clock, _), busy = station, air != (NOTHING, NOTHING)
    if doing == "done" or doing in FREE_THEN and busy:
        return station
    most = {"starts": VULNERABLE, "sends": sending}.get(doing, 0)
    if not busy:
        most = {**dict.fromkeys(QUIET_THEN, QUIET), "counts": SLOT, "hears": 1, "misses": 1}.get(doing, most)
    if doing == "hears" and air[place] == WHOLE:
        most = ANSWER
    if doing == "misses" and clock > 0:
        most = UNHEARD
    return station._replace(clock=clock + 1) if clock < most else None


def questions(collisions, sending):
    value = Fraction(47, 256)
    yield ask("Pmax=?", "collided", value, PRISM, published="0.18359375")
    yield ask("P<=47/256", "collided", value, PRISM)
    yield sure("Pmax=?", "both_sent", value=1, source=CLOSED)


def known_as(collisions, sending):
    return Known(f"`wlan0_collide` {collisions}-{sending} of PRISM: `collisions`", 6063, 10619)
