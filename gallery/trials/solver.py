"""`solve` over games in which play can be kept from an end: bounds, verdicts and certificates at every state."""

from core import Found, faults_of_report
from gallery.solved import faults_of_line, faults_of_plan
from toolbox.drawn import drawn_game, drawn_question, stays_open
from toolbox.programs import UNIT, asked, failures, width_of

COUNT, QUESTIONS, MANY = 60, 4, 10


def trial(draw, room):
    """One game with four questions, each with its certificate."""
    found, model = Found(), drawn_game(draw)
    model.write(room / "m")
    for _ in range(QUESTIONS):
        question, values = drawn_question(draw, model)
        lines = judged(found, room, model, question, values)
        found.note([question.formula()], faults_of_plan(lines, model, room / "m", question))
        found.counts["with play that can stay open"] += stays_open(model, values)
    return found


def judged(found, room, model, question, values, *options):
    """The lines of `solve`, which are compared with the values, and their widths are counted."""
    lines = compared(found, room, model, question, values, *options)
    for width in (width / UNIT for width in map(width_of, lines) if width is not None):
        found.counts["bounds"] += 1
        found.counts["with no unit between"] += width == 0
        found.counts[f"with more than {MANY}"] += width > MANY
    return lines


def compared(found, room, model, question, values, *options):
    """The lines of `solve`, which are compared with the values."""
    run = asked("solve", room / "m", model, question, *options)
    lines, faults = run.output.splitlines(), failures(run) or faults_of_report(run.output, question, values)
    if not faults:
        faults = [fault for line, value in zip(lines, values) for fault in faults_of_line(line, question, value)]
    found.note([question.formula()], faults)
    found.counts["runs"] += 1
    return lines
