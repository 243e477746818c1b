"""Texts stand at a limit and just beyond it: of lines, names, digits, bytes, the depth of formulas, and sums.

Nothing is drawn: a trial goes over all rows.
"""

from core import Found
from damaged import compare

GAME = "2 2 3\n0 0 0 1/2\n0 0 1 1/2\n1 0 1 1\n"
LABELS = '0="init" 1="one"\n0: 0\n1: 1\n'
OWNERS = '0="a" 1="b"\n1: 1\n'
FORMULA = 'Pmax=? [ F "one" ]'
TEXTS = {"tra": GAME, "lab": LABELS, "own": OWNERS, "formula": FORMULA}
COUNT = 1


def rows():
    """Yields the name of a text and what replaces the plain one."""
    for choices in (16_384, 16_385):
        yield "tra", f"1 {choices} {choices}\n" + "".join(f"0 {choice} 0 1\n" for choice in range(choices))
    for header in ("1000001 1 1", "2 4000001 3", "2 2 8000001", "2 4000000 3", "2 8000001", "2 8000000", "0 0 9000000"):
        yield "tra", GAME.replace("2 2 3", header)
    for choice in (0, 1, 3_999_999, 4_000_000):
        yield "tra", GAME.replace("1 0 1", f"1 {choice} 1")
    for number in numbers():
        yield "tra", GAME.replace("0 0 0 1/2", f"0 0 0 {number}")
    for first, second in sums():
        yield "tra", GAME.replace("0 0 0 1/2", f"0 0 0 {first}").replace("0 0 1 1/2", f"0 0 1 {second}")
    for many in (998, 999):
        yield "lab", LABELS.replace("\n", "".join(f' {index}="l{index}"' for index in range(2, 2 + many)) + "\n", 1)
    for many in (62, 63):
        yield "own", OWNERS.replace("\n", "".join(f' {index}="p{index}"' for index in range(2, 2 + many)) + "\n", 1)
    for index in (999_999, 1_000_000, 10**30):
        yield "lab", f'{index}="x" ' + LABELS
        yield "own", f'{index}="x" ' + OWNERS
    for many in (255, 256):
        yield "lab", LABELS.replace("\n", f' 7="{"x" * many}"\n', 1)
        yield "own", OWNERS.replace("\n", f' 7="{"x" * many}"\n', 1)
    for formula in formulas():
        yield "formula", formula


def numbers():
    """Yields numbers with as many digits or as fine as is allowed, and beyond."""
    yield from ("0." + "0" * 29, "0." + "0" * 30, "0" * 29 + "1", "0" * 30 + "1", f"{'0' * 29}1/2", f"{'0' * 30}1/2")
    yield from ("0.5e-99", "0e-99", "0e-100", "0e99", "0e100", "0e0000", "1e-23", "1e-24", "1.9", "2", "2.1")
    yield from (f"1/{10**23}", f"1/{10**23 + 1}")


def sums():
    """Yields two probabilities whose sum misses 1 by as much as is allowed, and by more."""
    yield from (("0.5", "0.50001"), ("0.5", "0.500011"), ("0.5", "0.49999"), ("0.5", "0.499989"), ("1", "0"))
    yield from ((f"1/{10**12 - 1}", f"{10**12 - 2}/{10**12 - 1}"), (f"1/{10**12 - 1}", f"{10**13 - 2}/{10**13 - 1}"))


def formulas():
    """Yields formulas at the limits of length, depth, steps, thresholds and names, and beyond."""
    for many in (4_096, 4_097):
        yield FORMULA + " " * (many - len(FORMULA))
    for open_ones in (64, 65):
        yield f'Pmax=? [ F {"!" * open_ones}"one" ]'
        yield f'Pmax=? [ F {"(" * open_ones}"one"{")" * open_ones} ]'
        yield f'Pmax=? [ F {"P>0 [ X " * open_ones}"one"{" ]" * open_ones} ]'
        yield f'Pmax=? [ F {"!(" * (open_ones // 2)}{"!" * (open_ones % 2)}"one"{")" * (open_ones // 2)} ]'
    for steps in (1_000_000, 1_000_001, 10**30):
        yield f'Pmax=? [ F<={steps} "one" ]'
    yield "Pmax=? [ F " + '"one" & ' * 400 + '"one" ]'
    for limit in ("1", "1.0000", "1.00001", "2", "3", "1/1", "0" * 30, "0" * 31, "1e-23", "1e-24", "1/0"):
        yield f'P>={limit} [ F "one" ]'
    for limit in ("0.6" + "0" * 28, "0.6" + "0" * 29, "6e-01", "6e-0001", "0e-99", "0e-100", "00/1", "0/0"):
        yield f'P>={limit} [ F "one" ]'
    for many in (255, 256):
        yield f'Pmax=? [ F "{"x" * many}" ]'
        yield f'<<{"x" * many}>> Pmax=? [ F "one" ]'


def trial(_, room):
    """Asks `check` about each row."""
    found = Found()
    for name, text in rows():
        compare(found, room, {**TEXTS, name: text})
    return found
