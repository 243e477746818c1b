"""Damaged files of rewards, formulas of rewards and certificates, refused with line and cause as docs/FORMATS.md says.

Each is changed in a byte, a field or a line, or not at all, and read apart from the program: what `audit` has to write
is worked out, and what `solve` writes is compared with exact values.
"""

from core import Found, run, words_of
from damaged import FIELDS, damaged, spoken
from paid import certified, drawn_model, drawn_question, drawn_rewards, posed, report_of, spelt_rewards
from rewards import PAID, judge, write
from texts import Refusal
from toolbox.expected import expected_values, turns_paid
from toolbox.reward_certificates import certificate_of, certificate_text

COUNT = 400
ODD = (
    *("infinite", "infinit", "0.0", "1.0", "01.0", "00", "15", "16", "rewards", "certificate", "0 0", "0 1 1", "0\n"),
    *("1e15", "1e16", "1000000000000000", "1000000000000001", "1000000000000000.1", "8000000", "8000001", "16383"),
    *("Rmax", "Rmin", "R", "R>=1/3", 'R{"x"}', "{", "}", "max=?", "Pmax=?", "P<=0.5", "C", "G", "X", "1e-24", "0.5"),
)
LINES = ("", "x", "0", "0 0 0 0", "0 x 1", "99 0", "0 99 1", "0 -1", "0 0 1/0", "0 1e16", "0 0 1", "0 1")


def trial(draw, room):
    """Asks `solve` or `audit` about one set of texts."""
    found, model = Found(), drawn_model(draw)
    rewards, command = drawn_rewards(draw, model), draw.choice(("solve", "audit"))
    formula, _ = drawn_question(draw, model, rewards)
    texts = {**model.texts(), "rewards": spelt_rewards(draw, rewards), "formula": formula.formula()}
    if command == "audit":
        right = posed(texts)
        texts["certificate"] = certificate_text(certificate_of(right.problem, right.rewards, draw.choice((0, 1, 3))))
    if draw.random() < 0.3:
        texts["rewards"] = with_a_line(draw, texts["rewards"])
    for _ in range(draw.choice((0, 1, 1, 1, 2))):
        name = draw.choice(("rewards", "rewards", "formula", list(texts)[-1]))
        texts[name] = damaged(draw, texts[name], name == "formula", FIELDS + ODD)
    write(room, texts)
    compare(found, room, command, texts)
    return found


def with_a_line(draw, text):
    """A file of rewards with a line more, which mostly has a fault; the header counts it, or does not."""
    head, *lines = text.split("\n")
    lines.insert(draw.randint(0, len(lines)), draw.choice(LINES))
    word, states, stated = head.split()
    return "\n".join([f"{word} {states} {int(stated) + draw.choice((0, 1, 1))}", *lines])


def compare(found, room, command, texts):
    """Compares what the command writes with the refusal of these texts, or with what they mean."""
    words = words_of(command, spoken(texts["formula"]), *["m.certificate"] * (command == "audit"), *PAID)
    try:
        question = posed(texts)
        if command == "solve":
            found.counts["answers"] += 1
            values = expected_values(question.problem, turns_paid(question.rewards))
            judge(found, room, {**texts, "formula": spoken(texts["formula"])}, values)
            return
        expected = report_of(question, certified(question, texts["certificate"]), "audited")
    except Refusal as refusal:
        expected = (8 if str(refusal).startswith("cert ") else 4, f"refused {refusal}\n")
    found.counts["answers" if expected[0] < 3 else expected[1].split()[1]] += 1
    found.compare([*words, texts], (*expected, ""), run(room, *words))
