"""Formulas inside, by `check` and by `solve`: bounds, verdicts and the pairs that are left undecided.

What `check` writes is worked out whole. The bounds of both lie around the values in fractions, and each formula inside
is asked by itself, too: as many pairs are undecided as these runs leave open.
"""

from answers import checked
from core import ALL_PATHS, Found, drawn_formula, drawn_game, faults_of_report, run, words_of, written
from toolbox.exact import determinacy

COUNT = 100
DEPTH, MANY = 3, 100


def trial(draw, room):
    """One game with one formula, asked after many rounds, after few, and of the solver."""
    model = drawn_game(draw)
    found, files, formula = Found(), written(room, model), drawn_formula(draw, ALL_PATHS, DEPTH)
    found.counts["with formulas inside"] += bool(formula.inside())
    for command, rounds in (("check", MANY), ("check", draw.choice((0, 1, 2))), ("solve", None)):
        left_open = [asked(found, room, files, model, one, command, rounds)[0] for one in formula.inside()]
        _, undecided = asked(found, room, files, model, formula, command, rounds)
        found.counts[f"undecided by {command}"] += undecided
        if undecided != sum(left_open):
            fault = f"{undecided} are undecided, and {left_open} are left open"
            found.note([command, formula.formula(), rounds], [fault])
    return found


def asked(found, room, files, model, formula, command, rounds):
    """At how many states the verdict of a formula is open, and how many pairs inside are undecided, as is printed."""
    options = [] if command == "solve" else ["--rounds", rounds, "--workers", 1]
    words = words_of(command, formula.formula(), *options)
    ran = run(room, *words)
    if command == "check":
        found.compare(words, (*checked(files, formula.formula(), rounds), ""), ran)
    else:
        found.note(words, faults_of_solved(ran, formula))
    found.note(words, faults_of_report(ran[1], formula, determinacy(model, formula)))
    first = ran[1].split("\n")[0].split()
    return ran[1].count(" Undecided\n"), int(first[3]) if first[:1] == ["inner"] else 0


def faults_of_solved(ran, formula):
    """What is wrong with the form of what `solve` wrote."""
    status, output, errors = ran
    lines, count = output.splitlines(), len(formula.inside())
    head = [line for line in lines if not line.startswith("state ")]
    how = "solved" if formula.horizon() is None else f"steps {formula.horizon()}"
    faults = [errors] if errors or status not in (0, 1, 2) else []
    if len(head) != (count > 0) or (head and head[0].split()[:3] != ["inner", str(count), "undecided"]):
        faults.append(f"{head} does not count {count} formulas inside")
    if any(" ".join(line.split()[6:-1]) != how for line in lines[len(head) :]):
        faults.append(f"a line does not say {how}")
    return faults
