"""Hostile files of values for `solve --values`: refused as a plain reading refuses them, or else nothing is wrong."""

from core import Found, run, words_of
from solver import judged
from toolbox.drawn import drawn_game, drawn_question, drawn_values, fault_of

COUNT = 150


def trial(draw, room):
    """One game with one question and one file."""
    found, model = Found(), drawn_game(draw)
    model.write(room / "m")
    question, values = drawn_question(draw, model)
    text = drawn_values(draw, len(model))
    (room / "values").write_bytes(text)
    fault = fault_of(text, len(model))
    found.counts[fault[1] if fault else "taken"] += 1
    if fault is None:
        judged(found, room, model, question, values, "--values", room / "values")
    else:
        words = words_of("solve", question.formula(), "--values", "values")
        found.compare([*words, text], (4, "refused values line {} {}\n".format(*fault), ""), run(room, *words))
    return found
