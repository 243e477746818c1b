"""The bounded retransmission protocol, as PRISM's case study has it.

    gallery/write brp FRAMES RETRIES NAME

Source: P. R. D'Argenio, B. Jeannet, H. E. Jensen and K. G. Larsen, Reachability analysis of probabilistic systems by
successive refinements, PAPM-PROBMIV 2001; `brp` of the benchmark set, written anew from its commands.

State: of the sender what it does, what it reported, how often it sent again, the frame, the bit of the last message and
of the next, and whether the frame is the first and the last; of the receiver what it does, what it reported, the same
of the message that it has, the bit that it waits for, and whether it ever got one; whether the file was handed over;
and the two channels, each idle, carrying or losing. `retransmission.py` is the same protocol without the receiver.

Value: a try fails with f = 1 - 0.98 * 0.99, a frame with g = f ^ (RETRIES + 1). The sender reports that it failed with
1 - (1 - g) ^ FRAMES (`p1` of the study), that it does not know, where only the last frame fails, with g (1 - g) ^
(FRAMES - 1) (`p2`); and it reports anything while the receiver got nothing where each try of the first frame is lost:
0.02 ^ (RETRIES + 1) (`p4`).

Expected tries: (1 - g) / (1 - f) for a frame that is begun, and the i-th is begun with (1 - g) ^ (i - 1).
"""

from fractions import Fraction
from typing import NamedTuple

from gallery.families import same_or_size
from toolbox.model import CLOSED, Model, ask, sure

FRAME_LOST = Fraction(2, 100)
ANSWER_LOST = Fraction(1, 100)
IDLE, CARRIES, LOSES = range(3)
SIZES = {"small": [(16, 2)], "large": [(64, 5)]}
PUBLISHED = {(16, 2): ("4.233e-4", "2.645e-5", "8e-6")}
COUNTS = {(16, 2): (677, 867), (64, 5): (5192, 6915)}


class State(NamedTuple):
    sender: str = "idle"
    report: str = ""
    tries: int = 0
    frame: int = 0
    sent_bit: bool = False
    next_bit: bool = False
    is_first: bool = False
    is_last: bool = False
    receiver: str = "new file"
    told: str = ""
    got_first: bool = False
    got_last: bool = False
    got_bit: bool = False
    wanted_bit: bool = False
    got_one: bool = False
    has_file: bool = False
    frames: int = IDLE
    answers: int = IDLE


def model(frames, retries):
    def rule(state):
        steps = (
            sender_step(state, frames, retries),
            sending(state, frames, retries),
            answer_step(state),
            receiver_step(state),
            receiving(state),
            answering(state),
            end_of_file(state),
        )
        return [step for step in steps if step]

    labels = {
        "error": lambda state: state.sender == "error",
        "unsure": lambda state: state.sender == "error" and state.report == "unknown",
        "unheard": lambda state: state.report != "" and not state.got_one,
        "settled": lambda state: state.sender == "idle" and state.has_file,
    }
    return Model(State(), rule, labels)


def surely(state, **changes):
    return [(1, state._replace(**changes))]


def sender_step(state, frames, retries):
    """What the sender does by itself."""
    is_last = state.frame == frames
    if state.sender == "idle" and not state.has_file:
        return surely(state, sender="next", frame=1, report="", has_file=True)
    if state.sender == "again" and state.tries == retries:
        return surely(state, sender="error", report="unknown" if is_last else "failed")
    if state.sender == "success":
        done = surely(state, sender="idle", report="sent")
        return done if is_last else surely(state, sender="next", frame=state.frame + 1)
    return None


def sending(state, frames, retries):
    """The sender gives a frame to its channel, which loses some."""
    again = state.sender == "again" and state.tries < retries
    if state.frames != IDLE or not (again or state.sender == "next"):
        return None
    frame = {
        "sender": "wait",
        "tries": state.tries + 1 if again else 0,
        "sent_bit": state.next_bit,
        "is_first": state.frame == 1,
        "is_last": state.frame == frames,
    }
    return [
        (1 - FRAME_LOST, state._replace(frames=CARRIES, **frame)),
        (FRAME_LOST, state._replace(frames=LOSES, **frame)),
    ]


def answer_step(state):
    """What comes back to a sender that waits: an answer, or the time to send again."""
    if state.sender != "wait":
        return None
    if state.answers == CARRIES:
        return surely(state, sender="success", next_bit=not state.next_bit, answers=IDLE)
    if state.frames == LOSES:
        return surely(state, sender="again", frames=IDLE)
    return surely(state, sender="again", answers=IDLE) if state.answers == LOSES else None


def receiver_step(state):
    """What the receiver does by itself: it takes the first bit as it comes, and reports a new frame."""
    if state.receiver == "first":
        return surely(state, receiver="got", wanted_bit=state.got_bit)
    if state.receiver == "got" and state.wanted_bit == state.got_bit:
        told = "first" if state.got_first else "ok" if state.got_last else "more"
        return surely(state, receiver="told", told=told)
    return None


def receiving(state):
    """The receiver takes a frame out of the channel."""
    after = {"new file": "first", "idle": "got"}.get(state.receiver)
    if state.frames != CARRIES or after is None:
        return None
    message = {"got_first": state.is_first, "got_last": state.is_last, "got_bit": state.sent_bit}
    return surely(state, receiver=after, got_one=state.has_file, frames=IDLE, **message)


def answering(state):
    """The receiver answers a new frame, or one that it had before."""
    is_old = state.receiver == "got" and state.wanted_bit != state.got_bit
    if state.answers != IDLE or not (is_old or state.receiver == "told"):
        return None
    wanted = state.wanted_bit if is_old else not state.wanted_bit
    after = state._replace(receiver="idle", wanted_bit=wanted)
    return [(1 - ANSWER_LOST, after._replace(answers=CARRIES)), (ANSWER_LOST, after._replace(answers=LOSES))]


def end_of_file(state):
    """Behind an error both wait, twice, and then stand where they began."""
    if state.sender not in ("error", "wait for end"):
        return None
    receiver = {"new file": {}, "idle": {"receiver": "end"}, "end": {"receiver": "new file", "told": ""}}
    changes = dict(receiver[state.receiver])
    if state.receiver == "idle" and not state.is_last:
        changes["told"] = "failed"
    if state.sender == "error":
        return surely(state, sender="wait for end", **changes)
    return surely(state, sender="idle", next_bit=False, **changes)


def questions(frames, retries):
    failed = 1 - (1 - FRAME_LOST) * (1 - ANSWER_LOST)
    frame = failed ** (retries + 1)
    values = {
        "error": 1 - (1 - frame) ** frames,
        "unsure": frame * (1 - frame) ** (frames - 1),
        "unheard": FRAME_LOST ** (retries + 1),
    }
    published = PUBLISHED.get((frames, retries), ("", "", ""))
    for (goal, value), known in zip(values.items(), published):
        yield ask("Pmax=?", goal, value, CLOSED, published=known)
    yield ask("P<=0.001", "error", values["error"], CLOSED)
    yield sure("P>=1", "settled", value=1, source=CLOSED)


def rewards(*_):
    """A frame that is given to its channel."""
    return {"tries": lambda state, after: state.frames == IDLE and after.frames != IDLE}


def known_as(frames, retries):
    return same_or_size("`brp`", (frames, retries), COUNTS, "`p1`, `p2`, `p4`")
