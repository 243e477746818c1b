"""Bounded retransmission of a file over lossy channels.

    gallery/write retransmission FRAMES RETRIES NAME

Source: L. Helmink, M. P. A. Sellink and F. W. Vaandrager, Proof-checking a data link protocol, TYPES 1993; with
probabilities: P. R. D'Argenio, B. Jeannet, H. E. Jensen and K. G. Larsen, Reachability analysis of probabilistic
systems by successive refinements, PAPM-PROBMIV 2001.

State: the frame, how often it was sent again, and where its message is; or an end. A frame is lost with 0.02, its
acknowledgement with 0.01; then the frame is sent again, at most RETRIES times, and after that the sender gives up. The
alternating bit and the receiver are left out, since the sender's end does not depend on them.

Value: a try fails with f = 1 - 0.98 * 0.99 = 0.0298, a frame with f ^ (RETRIES + 1), and the file where some frame
does: 1 - (1 - f ^ (RETRIES + 1)) ^ FRAMES. A lost frame takes 2 steps, a lost acknowledgement 3. So within 2 FRAMES
steps nothing may be lost, (1 - f) ^ FRAMES; within 3 more one thing, FRAMES f times as much besides; and within 2
(RETRIES + 1) steps only frames can have failed. The expected tries are those of `brp.py`.
"""


from gallery.families import ENCODING, Known
from gallery.families.brp import ANSWER_LOST, FRAME_LOST
from toolbox.model import CLOSED, Model, ask

SIZES = {"small": [(16, 2), (64, 5)], "large": [(2000, 5)]}


def model(frames, retries):
    def rule(state):
        if state in ("done", "given up"):
            return []
        frame, tries, place = state
        lost = (frame, tries, "lost")
        if place == "frame":
            return [[(1 - FRAME_LOST, (frame, tries, "answer")), (FRAME_LOST, lost)]]
        if place == "answer":
            after = (frame + 1, 0, "frame") if frame + 1 < frames else "done"
            return [[(1 - ANSWER_LOST, after), (ANSWER_LOST, lost)]]
        return [[(1, (frame, tries + 1, "frame") if tries < retries else "given up")]]

    labels = {
        "given_up": lambda state: state == "given up",
        "first": lambda state: state[0] == 0,
        "done": lambda state: state == "done",
    }
    return Model((0, 0, "frame"), rule, labels)


def questions(frames, retries):
    failed_try = 1 - (1 - FRAME_LOST) * (1 - ANSWER_LOST)
    failed_frame = failed_try ** (retries + 1)
    failed = 1 - (1 - failed_frame) ** frames
    yield ask("Pmax=?", "given_up", failed, CLOSED)
    yield ask("Pmax=?", "given_up", failed_frame, CLOSED, safe="first")
    yield ask("P<=0.001", "given_up", failed, CLOSED)
    yield ask("P<1e-7", "given_up", failed, CLOSED)
    at_once, shortest = (1 - failed_try) ** frames, 2 * (retries + 1)
    yield ask("P>=0.5", "done", at_once, CLOSED, steps=2 * frames)
    yield ask("Pmax=?", "done", at_once * (1 + frames * failed_try), CLOSED, steps=2 * frames + 3)
    yield ask("Pmax=?", "given_up", FRAME_LOST ** (retries + 1), CLOSED, safe="first", steps=shortest)
    yield ask("P>=0.9999", "!given_up", 1 - failed, CLOSED, path="G")


def rewards(*_):
    return {"tries": lambda state, after: state not in ("done", "given up") and state[2] == "frame"}


def known_as(frames, retries):
    return Known(f"`brp` {frames}-{retries}: `p1`", kind=ENCODING)
