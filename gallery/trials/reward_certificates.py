"""Wrong certificates of expected rewards: those of `solve`, or made here, with fields that are others.

An audit here says line, cause and place of a refusal. What an accepted one says is compared with exact values: its
bounds lie around them, and its choices and replies bring about what it says.
"""

from copy import copy

from core import Found, run, words_of
from paid import certified, drawn_model, drawn_question, drawn_rewards, posed, report_of, spelt_rewards
from rewards import PAID, write
from texts import Refusal
from toolbox.certificates import decimal
from toolbox.expected import expected_values, turns_paid
from toolbox.reward_certificates import MOST_UNITS, certificate_of, certificate_text

COUNT, CHANGES = 40, 20
SHIFTS = (1, 1, -1, -1, 2, -2, 7, -1_000, 10**6, 10**14, -MOST_UNITS)
VALUES = ("infinite", "infinite", 0, 1, MOST_UNITS, MOST_UNITS + 1)
CHOICES = (*("-", "0", "1") * 5, "2", "16383", "16384")
RANKS = (*("0", "1", "2", "3") * 5, "4294967295", "4294967296")


def trial(draw, room):
    """One game with one question: a right certificate, and some changes of it."""
    found, model = Found(), drawn_model(draw)
    rewards = drawn_rewards(draw, model)
    formula, values = drawn_question(draw, model, rewards)
    texts = {**model.texts(), "rewards": spelt_rewards(draw, rewards), "formula": formula.formula()}
    write(room, texts)
    question = posed(texts)
    head, *entries = right_certificate(draw, room, question).splitlines()
    for number in range(CHANGES):
        lines = [line.split() for line in entries]
        for _ in range(min(number, draw.choice((1, 1, 1, 2)))):
            change(draw, draw.choice(lines), int(head.split()[2]))
        text = "\n".join([head, *map(" ".join, lines), ""])
        accepted = compare(found, room, question, text)
        if accepted:
            found.note([texts, text], wrong_claims(question, accepted, values))
    return found


def right_certificate(draw, room, question):
    """The certificate of `solve`, or one of exact values in other units."""
    if draw.random() < 0.5:
        output = run(room, *words_of("solve", question.formula.formula(), *PAID, "--plan")).output
        return output[output.index("rewards 1 ") :]
    return certificate_text(certificate_of(question.problem, question.rewards, draw.choice((0, 0, 1, 2, 6))))


def change(draw, fields, places):
    """Changes a field of the line of a state."""
    place = draw.choice((1, 1, 2, 3, 3, 4, 4, 5))
    if place in (1, 4):
        old, value = fields[place], draw.choice(VALUES)
        if old != "infinite" and draw.random() < 0.7:
            value = max(0, int(old.replace(".", "")) + draw.choice(SHIFTS))
        fields[place] = value if value == "infinite" else decimal(value, places)
    else:
        near = str(max(0, int(fields[place]) + draw.choice((-1, 1)))) if place == 3 else "-"
        fields[place] = draw.choice((near, draw.choice(RANKS if place == 3 else CHOICES)))


def compare(found, room, question, text):
    """Compares what `audit` writes of a certificate with what it has to; gives the tables if they are accepted."""
    (room / "certificate").write_text(text, encoding="ascii")
    words = words_of("audit", question.formula.formula(), "certificate", *PAID)
    accepted = None
    try:
        accepted = certified(question, text)
        expected = report_of(question, accepted, "audited")
    except Refusal as refusal:
        expected = (8, f"refused {refusal}\n")
    found.counts[expected[1].split()[4] if not accepted else "accepted"] += 1
    found.compare([*words, text], (*expected, ""), run(room, *words))
    return accepted


def wrong_claims(question, tables, values):
    """The states at which an accepted certificate is wrong of the value, or of what its choices or replies bring about.

    The value lies between what the choices get from every strategy and what the replies grant to every strategy.
    """
    unit, problem, paid = 10**tables.places, question.problem, turns_paid(question.rewards)
    got = expected_values(*played(problem, paid, True, tables.choices))
    granted = expected_values(*played(problem, paid, False, tables.replies))
    wrong = []
    for state, value in enumerate(values):
        inner = [unit * one for one in (got[state], value, granted[state])]
        ladder = [tables.lower[state], *inner, tables.upper[state]]
        wrong += [state] if ladder != sorted(ladder) else []
    return [f"what is said of state {state} is wrong" for state in wrong]


def played(problem, paid, side, plan):
    """The problem in which one side plays a plan, with what its turns pay; all choices are left where it names none."""
    alone, kept = copy(problem), []
    for state, choices in enumerate(problem.choices):
        is_planned = problem.maximises[state] == side and plan[state] is not None and plan[state] < len(choices)
        kept.append([plan[state]] if is_planned else list(range(len(choices))))
    alone.choices = [[problem.choices[state][number] for number in numbers] for state, numbers in enumerate(kept)]
    return alone, [[paid[state][number] for number in numbers] for state, numbers in enumerate(kept)]
