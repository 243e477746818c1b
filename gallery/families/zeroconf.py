"""Hosts that choose their own addresses: IPv4 zeroconf.

    gallery/write zeroconf PROBES HOSTS NAME

Source: H. Bohnenkamp, P. van der Stok, H. Hermanns and F. Vaandrager, Cost-optimization of the IPv4 zeroconf protocol,
DSN 2003.

State: about to draw an address, or so many probes sent for one that is in use; or an end. A host draws one of 65,024
addresses, of which HOSTS are in use, and asks PROBES times whether it is. A probe or its answer is lost with 1/10; an
answer makes the host draw again, and after the last probe it keeps the address: a collision.

Value: with q = HOSTS / 65024 and e = (1/10) ^ PROBES a draw ends in a collision with q e, and comes again with q (1 -
e). So the chance of a collision is q e / (1 - q (1 - e)), the source's formula. Each draw is the last with 1 - q at
least, so there is a last one. The first step settles it with 1 - q. Within PROBES + 1 steps the first draw alone can
end in a collision: q e.

A collision comes with 1/10 at least where one probe is left (a little more, since the host may draw again), and with
less before: so the chance to come there is that of a collision with a probe less. It comes no more where a free address
was drawn, with 1 less the chance of a collision.
"""

from fractions import Fraction

from gallery.families import OTHER, Known
from toolbox.model import CLOSED, Model, ask, sure

ADDRESSES = 65024
LOST = Fraction(1, 10)
# two units of time and a postage of 3.5 for a probe, and what a collision costs
PROBE, COLLISION = Fraction(11, 2), 10**6
SOURCE = "Bohnenkamp and others 2003"
SIZES = {"small": [(4, 1000), (2, 32512), (8, 60000)], "large": [(100000, 60000)]}
KNOWN = Known("`zeroconf`", kind=OTHER)
FEW = 8


def model(probes, hosts):
    used = Fraction(hosts, ADDRESSES)

    def rule(state):
        if state == "draw":
            return [[(used, 0), (1 - used, "free")]]
        if state in ("free", "collision"):
            return []
        return [[(LOST, state + 1 if state + 1 < probes else "collision"), (1 - LOST, "draw")]]

    labels = {"collision": lambda state: state == "collision", "settled": lambda state: state in ("free", "collision")}
    return Model("draw", rule, labels)


def chance_of_collision(probes, used):
    lost = LOST**probes
    return used * lost / (1 - used * (1 - lost))


def questions(probes, hosts):
    used, lost = Fraction(hosts, ADDRESSES), LOST**probes
    value = chance_of_collision(probes, used)
    yield ask("Pmax=?", "collision", value, SOURCE)
    yield ask("P<=0.0001", "collision", value, SOURCE)
    yield sure("P>=1", "settled", value=1, source=CLOSED)
    yield ask("P>=0.5", "settled", 1 - used, CLOSED, path="X")
    if probes <= FEW:
        yield ask("Pmax=?", "collision", used * lost, CLOSED, steps=probes + 1)
    yield ask("P>=0.999", "!collision", 1 - value, SOURCE, path="G")
    yield from questions_of_danger(probes, used, value)


def questions_of_danger(probes, used, value):
    """How likely a collision ever gets likely, and how likely it ever gets impossible."""
    danger, safe = ask("P>=0.1", "collision"), ask("P>=1", "!collision", path="G")
    last_probe = chance_of_collision(probes - 1, used)
    yield ask("Pmax=?", danger, last_probe, CLOSED)
    yield ask("P>=0.99", ("!", danger), 1 - last_probe, CLOSED, path="G")
    yield ask("P>=0.999", safe, 1 - value, CLOSED)


def rewards(probes, _):
    """Each probe costs its time and its postage; a free address is asked for PROBES times, too."""

    def cost_of(state, after):
        probed = 0 if state in ("draw", "free", "collision") else PROBE
        return {"free": probes * PROBE, "collision": probed + COLLISION}.get(after, probed) if state != after else 0

    return {"cost": cost_of}


def cost(probes, used):
    """The expected cost, by the source's formula."""
    asked = probes * (1 - used) + used * sum(LOST**sent for sent in range(probes))
    return (PROBE * asked + used * LOST**probes * COLLISION) / (1 - used * (1 - LOST**probes))
