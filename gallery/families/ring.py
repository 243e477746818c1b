"""A self-stabilising ring of processes.

    gallery/write ring PROCESSES NAME

Source: A. Israeli and M. Jalfon, Token management schemes and random walks yield self-stabilizing mutual exclusion,
PODC 1990.

State: for each process whether it has a token. The scheduler chooses a process that has one; that process hands it to
one of its two neighbours, to either with 1/2, and two tokens that meet become one. The ring is stable where there is
one token. It begins with a token at each process.

Value: 1 under every scheduler, the theorem of the source. A move makes two gaps a, b between tokens a + 1, b - 1 or a -
1, b + 1, so the sum of the squares of the gaps rises by 2 on average; it never passes PROCESSES squared, its value at
one token. So an end takes (PROCESSES squared - PROCESSES) / 2 steps on average under every scheduler, and twice as many
are not enough with at most 1/2 (Markov's inequality), from every state. A token that is alone stays alone, so the ring
stays stable where it is (closure), and it comes there (convergence). How far a scheduler moves the chance of an end
within so many steps is computed in fractions, backward.
"""


from gallery.families import Known
from toolbox.model import BACKWARD, CLOSED, HALF, Model, ask, sure

SOURCE = "Israeli and Jalfon 1990"
SIZES = {"small": [(3,), (7,), (9,)], "large": [(14,)]}
FEW = 9


def model(processes):
    def rule(tokens):
        holders = [process for process in range(processes) if tokens[process]]
        return [[(HALF, handed_on(tokens, holder, step)) for step in (-1, 1)] for holder in holders]

    return Model((1,) * processes, rule, {"stable": lambda tokens: sum(tokens) == 1})


def handed_on(tokens, holder, step):
    after = list(tokens)
    after[holder] = 0
    after[(holder + step) % len(tokens)] = 1
    return tuple(after)


def questions(processes):
    yield ask("Pmin=?", "stable", 1, SOURCE, published="1")
    yield ask("P>=1", "stable", 1, SOURCE)
    yield ask("P>=0.999999", "stable", 1, SOURCE)
    yield sure("Pmin=?", "stable", value=1, source=SOURCE)
    mean = (processes**2 - processes) // 2
    if processes <= FEW:
        yield ask("Pmin=?", "stable", source=BACKWARD, steps=mean)
        yield ask("Pmax=?", "stable", source=BACKWARD, steps=mean)
        yield ask("P>=0.5", "stable", source=BACKWARD, steps=2 * mean)
    soon = ask("P>=0.5", "stable", steps=2 * mean)
    yield ask("P>=1", soon, 1, CLOSED, path="G")
    for_ever = ask("P>=1", "stable", path="G")
    yield ask("P>=0.999999", for_ever, 1, SOURCE)


def rewards(_):
    return {"steps": lambda tokens, after: sum(tokens) > 1}


def known_as(processes):
    return Known(f"`israeli-jalfon` {processes}: `stable`", 2**processes - 1)
