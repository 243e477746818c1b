"""Stations that share one cable and notice when two of them send at once.

    gallery/write csma STATIONS COLLISIONS NAME

Source: IEEE 802.3 CSMA/CD, 2002; M. Kwiatkowska, G. Norman, D. Parker and J. Sproston, Performance analysis of
probabilistic timed automata using digital clocks, Formal Methods in System Design 29, 2006; `csma` of the benchmark
set, written anew from its commands.

State: of the cable whether it is free, has one message or garbled ones, and the time since the first two of them began;
of each station what it does, its clock, the slots that it still waits, and how often it collided, up to COLLISIONS. A
message takes one unit of time along the cable and 30 units to be sent. Behind its k-th collision a station waits for 0
to 2^k - 1 slots of two units, each as likely. Who starts in the same unit collides. A station that finds the cable
busy waits as after a collision. The scheduler chooses the order of what happens at one time.

Value: two stations both send at once. Behind the k-th collision the next one comes where both wait as long, with 1 / 2
^ k. So that one collides having collided COLLISIONS times comes with 1 / 2 ^ (1 + 2 + .. + COLLISIONS) before both, or
one, are heard, whatever the scheduler does.
"""

from fractions import Fraction
from typing import NamedTuple

from gallery.families import Known, changed
from toolbox.model import CLOSED, Model, ask, sure

TRAVEL, MESSAGE = 1, 30
SLOT = 2 * TRAVEL
SIZES = {"small": [(2, 2)], "large": [(2, 4), (2, 6)]}
COUNTS = {(2, 2): (1038, 1282), (2, 4): (7958, 10594), (2, 6): (66718, 93072)}


class Cable(NamedTuple):
    messages: str = "none"
    since_first: int = 0
    since_second: int = 0


class Station(NamedTuple):
    doing: str = "ready"
    clock: int = 0
    slots: int = 0
    collisions: int = 0


def model(stations, most):
    def rule(state):
        cable, row = state
        choices = [choice for place in range(stations) for choice in own_steps(cable, row, place, most)]
        if cable.messages == "garbled":
            choices.append([(1, (Cable(), tuple(collided(station, most) for station in row)))])
        later = passed(cable, row)
        return choices + ([[(1, later)]] if later else [])

    labels = {
        "all_heard": lambda state: all(station.doing == "sent" for station in state[1]),
        "one_heard": lambda state: any(station.doing == "sent" for station in state[1]),
        "worst_collision": lambda state: is_worst_collision(*state, most),
    }
    return Model((Cable(), (Station(),) * stations), rule, labels)


def is_worst_collision(cable, row, most):
    """Whether one collides now that has collided as often as is counted."""
    worst = any(station.doing == "sends" and station.collisions == most for station in row)
    return cable.messages == "garbled" and worst


def collided(station, most):
    """What a station does behind a collision, or where it finds the cable busy."""
    if station.doing != "sends":
        return station
    return Station("draws", 0, station.slots, min(most, station.collisions + 1))


def own_steps(cable, row, place, most):
    """What one station may do: begin, find the cable busy, end, or draw how long it waits."""
    station = row[place]

    def after(station, cable=cable):
        return (cable, changed(row, place, station))

    if station.doing == "ready" or (station.doing, station.clock, station.slots) == ("waits", SLOT, 0):
        sending = station._replace(doing="sends", clock=0)
        if cable.messages == "none":
            yield [(1, after(sending, cable._replace(messages="one")))]
        elif cable.since_first < TRAVEL:
            yield [(1, after(sending, cable._replace(messages="garbled")))]
        else:
            yield [(1, after(collided(sending, most)))]
    if (station.doing, station.clock, cable.messages) == ("sends", MESSAGE, "one"):
        sent = station._replace(doing="sent", clock=0)
        yield [(1, after(sent, cable._replace(messages="none", since_first=0)))]
    if station.doing == "draws":
        many = 2**station.collisions
        waits = [station._replace(doing="waits", slots=slots) for slots in range(many)]
        yield [(Fraction(1, many), after(waiting)) for waiting in waits]


def passed(cable, row):
    """The state a unit of time later, where none has to do something before."""
    if cable.messages == "garbled" and cable.since_second == TRAVEL:
        return None
    row = tuple(map(aged, row))
    if None in row:
        return None
    first, second = min(cable.since_first + 1, TRAVEL + 1), min(cable.since_second + 1, TRAVEL + 1)
    if cable.messages == "none":
        return (cable._replace(since_first=0), row)
    return (cable._replace(since_first=first, since_second=second if cable.messages == "garbled" else 0), row)


def aged(station):
    """A station a unit of time later, or none where it can't wait."""
    if station.doing == "sends" and station.clock < MESSAGE or station.doing == "waits" and station.clock < SLOT:
        return station._replace(clock=station.clock + 1)
    if station.doing == "waits" and station.slots:
        return station._replace(clock=1, slots=station.slots - 1)
    return station if station.doing == "sent" else None


def questions(stations, most):
    value = 1 - Fraction(1, 2 ** (most * (most + 1) // 2))
    for bound in ("Pmin=?", "Pmax=?"):
        yield ask(bound, "all_heard", value, CLOSED, safe="!worst_collision")
        yield ask(bound, "one_heard", value, CLOSED, safe="!worst_collision")
    yield ask(f"P>={value}", "all_heard", value, CLOSED, safe="!worst_collision")
    yield sure("Pmin=?", "all_heard", value=1, source=CLOSED)


def rewards(*_):
    return {"time": lambda state, after: after == passed(*state)}


def known_as(stations, most):
    return Known(f"`csma` {stations}-{most}: `all_before_min`, `all_before_max`", *COUNTS[stations, most])
