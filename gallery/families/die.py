"""A fair die by tosses of a fair coin.

    gallery/write die FACES NAME

Source: D. E. Knuth and A. C. Yao, The complexity of nonuniform random number generation, in: Algorithms and Complexity,
Academic Press, 1976.

State: an inner node of a tree, as the number of inner nodes on its level and its place among them; or a face. A node
has two children, one for each side of the coin. As soon as a level has a node for each face these are the faces, and
what is left over are the inner nodes of the next level. For six faces this is the chain of 13 states that textbooks
show.

Value: each face comes with 1 / FACES. A level with m inner nodes, each reached with x, has 2m children, each reached
with x / 2; the faces get one each, or none does. So all faces have the same value, and the values add up to 1. Level k
has 2^k mod FACES inner nodes, so within k tosses each face comes with floor(2^k / FACES) / 2^k, the first k binary
digits of 1 / FACES. The first toss of a die of 6 or 8 faces makes a face twice as likely, or impossible.
"""

from fractions import Fraction

from gallery.families import Known
from toolbox.model import CLOSED, HALF, Model, ask, sure

SOURCE = "Knuth and Yao 1976"
SIZES = {"small": [(6,), (8,), (11,)], "large": [(1021,)]}
FEW = 11


def model(faces):
    def rule(state):
        if state[0] == "face":
            return []
        _, nodes, place = state
        return [[(HALF, child(faces, nodes, 2 * place)), (HALF, child(faces, nodes, 2 * place + 1))]]

    labels = {
        "done": lambda state: state[0] == "face",
        "one": lambda state: state == ("face", 1),
        "even": lambda state: state[0] == "face" and state[1] % 2 == 0,
    }
    return Model(("node", 1, 0), rule, labels)


def child(faces, nodes, place):
    """The child at a place of the level below so many inner nodes; half of those left over stand before the faces."""
    left_over = 2 * nodes - faces
    if left_over < 0:
        return ("node", 2 * nodes, place)
    before = left_over // 2
    if place < before:
        return ("node", left_over, place)
    if place < before + faces:
        return ("face", place - before + 1)
    return ("node", left_over, place - faces)


def face_within(faces, tosses):
    """The chance of a face within so many tosses."""
    return Fraction(2**tosses // faces, 2**tosses)


def questions(faces):
    one, even = Fraction(1, faces), Fraction(faces // 2, faces)
    yield ask("Pmax=?", "one", one, SOURCE)
    yield ask(f"P>={one}", "one", one, SOURCE)
    yield ask("P>=0.5", "even", even, CLOSED)
    yield sure("P>=1", "done", value=1, source=CLOSED)
    for bound, steps in (("Pmax=?", 20), (f"P>={one}", 40)):
        yield ask(bound, "one", face_within(faces, steps), SOURCE, steps=steps)
    first_level = (faces - 1).bit_length()
    yield ask("P>=3/4", "done", faces * face_within(faces, first_level), CLOSED, steps=first_level)
    if faces <= FEW:
        twice_as_likely = ask(f"P>={2 * one}", "one")
        yield ask("Pmax=?", twice_as_likely, path="X")


def rewards(_):
    return {"tosses": lambda state, after: state[0] == "node"}


def known_as(faces):
    return Known("PRISM's `die`", 13, 20) if faces == 6 else Known()
