"""`G`, by `check` and by `solve`: the mirrored bounds of the dual, around 1 less the dual's value in fractions."""

from answers import checked
from core import Found, drawn_formula, drawn_game, faults_of_report, run, words_of, written
from gallery.solved import faults_of_plan
from solver import compared
from toolbox.exact import determinacy

COUNT = 100
ROUNDS = (0, 1, 2, 3, 8, 60)


def trial(draw, room):
    """One game with one question, after some rounds, with its certificate and an audit of it, and by the solver."""
    model = drawn_game(draw, 3, 6)
    found, files, formula = Found(), written(room, model), drawn_formula(draw, ("G",))
    text, rounds = formula.formula(), draw.choice(ROUNDS)
    words = words_of("check", text, "--rounds", rounds, "--workers", 1, "--plan")
    status, output = checked(files, text, rounds, True)
    found.compare(words, (status, output, ""), run(room, *words))
    values = determinacy(model, formula)
    report = "".join(line for line in output.splitlines(True) if line.startswith("state "))
    found.note(words, faults_of_report(report, formula, values))
    (room / "certificate").write_text(output, encoding="ascii")
    audit = words_of("audit", text, "certificate")
    made = f"rounds {report.split()[7]}" if report else ""
    found.compare(audit, (status, report.replace(made, "audited"), ""), run(room, *audit))
    lines = compared(found, room, model, formula, values)
    found.note([text], faults_of_plan(lines, model, room / "m", formula))
    return found
