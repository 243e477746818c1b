"""`solve --rewards` over drawn games: bounds, verdicts and certificates at every state, against exact values.

The values are those of all pairs of strategies without memory. The lower value is infinite exactly where the value is.
The certificate is accepted by an audit here, by `audit` and by `tools/reaudit`.
"""

from answers import read_files
from core import Found, run, words_of
from paid import certified, drawn_model, drawn_question, drawn_rewards, posed, report_of, spelt_rewards
from texts import Refusal
from toolbox.rewards import INFINITE
from toolbox.testing import call_tool

COUNT, QUESTIONS, MANY = 80, 4, 10
PAID = ("--rewards", "m.rewards")


def trial(draw, room):
    """One game with four questions."""
    found, model = Found(), drawn_model(draw)
    rewards = drawn_rewards(draw, model)
    texts = {**model.texts(), "rewards": spelt_rewards(draw, rewards)}
    write(room, texts)
    for _ in range(QUESTIONS):
        formula, values = drawn_question(draw, model, rewards)
        judge(found, room, {**texts, "formula": formula.formula()}, values)
    return found


def write(room, texts):
    for name, text in texts.items():
        (room / f"m.{name}").write_bytes(text.encode("latin-1"))


def judge(found, room, texts, values):
    """Compares what `solve` writes with these values, and its certificate with three audits."""
    question, words = posed(texts), words_of("solve", texts["formula"], *PAID)
    plan = run(room, *words, "--plan")
    report, _, text = plan.output.partition("formula ")
    head, _, certificate = text.partition("\n")
    try:
        tables = certified(question, certificate)
    except Refusal as refusal:
        found.note([*words, texts], [f"{plan}: {refusal}"])
        return
    status, lines = report_of(question, tables, "solved")
    found.compare([*words, texts], (status, lines, ""), (plan.status, report, plan.errors))
    found.compare(words, (status, lines, ""), run(room, *words))
    faults = [] if head == question.formula.formula() else [f"the formula line is {head}"]
    found.note([*words, texts, plan.output], faults + wrong_values(found, question.problem, tables, values))
    (room / "m.certificate").write_text(plan.output, encoding="ascii")
    compare_audits(found, room, texts, status, lines)


def compare_audits(found, room, texts, status, lines):
    """Two audits accept the certificate of `solve`, and say of it what `solve` said."""
    words = words_of("audit", texts["formula"], "m.certificate", *PAID)
    found.compare([*words, texts], (status, lines.replace(" solved ", " audited "), ""), run(room, *words))
    files = [room / f"m.{name}" for name in ("tra", "lab", "certificate", "rewards", "own")]
    again = call_tool("reaudit", *files[:2], texts["formula"], files[2], "--rewards", files[3], "--own", files[4])
    if again != (status, lines.replace(" solved ", " reaudited "), ""):
        found.note([*words, texts], [f"reaudit says {again}"])


def wrong_values(found, problem, tables, values):
    """What is wrong with the tables of a certificate, and counts how near they are."""
    faults, unit = [], 10**tables.places
    for state, value in enumerate(values):
        lower, upper = tables.lower[state], tables.upper[state]
        if not lower <= value * unit <= upper or (lower == INFINITE) != (value == INFINITE):
            faults.append(f"{lower} and {upper} are wrong of state {state}, whose value is {value}")
        if state not in problem.goals:
            count(found, lower, upper)
    return faults


def count(found, lower, upper):
    """Counts a state by how near its bounds are."""
    if lower == INFINITE:
        found.counts["infinite"] += 1
    elif upper == INFINITE:
        found.counts["without an upper value"] += 1
    else:
        found.counts["bounds"] += 1
        found.counts["with no unit between"] += upper == lower
        found.counts[f"with more than {MANY}"] += upper - lower > MANY
