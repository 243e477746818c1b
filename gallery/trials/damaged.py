"""Damaged texts are refused with the line and the cause that docs/FORMATS.md gives, or mean what they then say.

Files, a formula or a certificate in drawn spellings are changed in a byte, a field or a line, or not at all. They are
read apart from the program, and what it has to write is worked out: a refusal, or the answer.
"""

from answers import checked, read_files
from audits import audited
from core import ALL_PATHS, ENDLESS, Found, drawn_formula, drawn_game, run, words_of
from spelling import spelt_game, spelt_marks
from texts import Refusal, read_formula
from toolbox.model import states_by_mark

COUNT = 500
ROUNDS, MOST_STATES, MOST_STEPS = 2, 40, 1_000
BYTES = "0019 \t\n\r\0\"=:;/.,-+eE()[]{}!&|<>PFUXGx_\x7f\xe9"
FIELDS = (
    *("", "0", "1", "2", "5", "00", "1.", ".5", "+1", "-1", "0,5", "1e-5", "1e-24", "0e-50", "1e100", "1E-99"),
    *("1e1000", "1/0", "0/1", "2/6", "1/3", "2", "2.1", "1.00001", "0.99999", "0.49999", "1" * 31, "0" * 31, "9" * 40),
    *("1/" + "9" * 24, "1000000", "1000001", "4000000", "8000001", "16384", "999999", "4294967296", "x", "-", "init"),
    *(":", '7="x"', '0="a"', "true", "P>=1/3", "Pmax", "F<=3", "F<=x", "F<=1000001", "(", ")", "!" * 65, '"', '"one"'),
    *('"gaol"', "<<q>>", "=", "]"),
)


def trial(draw, room):
    """Asks `check` or `audit` about one set of texts."""
    command, plan = draw.choice((("check", False), ("check", True), ("audit", False)))
    found, texts = Found(), drawn_texts(draw, command == "check" and not plan)
    if command == "audit":
        texts["certificate"] = certificate_for(texts)
    for _ in range(draw.choice((0, 1, 1, 1, 2))):
        name = draw.choice((*texts, list(texts)[-1]))
        texts[name] = damaged(draw, texts[name], name == "formula")
    compare(found, room, texts, command, plan)
    return found


def compare(found, room, texts, command="check", plan=False):
    """Compares what a command writes of these texts with what they mean."""
    for name, text in texts.items():
        (room / f"m.{name}").write_bytes(text.encode("latin-1"))
    rest = ["m.certificate"] if command == "audit" else ["--rounds", ROUNDS, "--workers", 1, *["--plan"] * plan]
    words = words_of(command, spoken(texts["formula"]), *rest)
    status, output = expected(texts, command, plan, room)
    ran = run(room, *words)
    found.counts[" ".join(output.split()[:2]) if output and status > 2 else "answers" if output else "large ones"] += 1
    if output or ran[0] > 2:
        found.compare([*words, {name: text[:500] for name, text in texts.items()}], (status, output, ""), ran)


def drawn_texts(draw, any_path):
    """Draws the files of a game and a formula. Unless any path is allowed, the formula mostly has a certificate."""
    model, any_path = drawn_game(draw, 2, 5, draw.random() < 0.5), any_path or draw.random() < 0.1
    paths, depth = (ALL_PATHS, draw.choice((0, 1, 2))) if any_path else ((*ENDLESS, "G"), 0)
    formula = drawn_formula(draw, paths, depth).formula()
    if draw.random() < 0.3:
        formula = formula.replace(" ", draw.choice(("  ", "\t", "\n", "\r\n")))
    owners = [(state, [owner]) for state, owner in enumerate(model.owners) if owner or draw.random() < 0.5]
    return {
        "tra": spelt_game(draw, model),
        "lab": spelt_marks(draw, model.labels, states_by_mark(model.labels)),
        "own": spelt_marks(draw, model.players, owners),
        "formula": formula,
    }


def certificate_for(texts):
    """Returns what `check --plan` writes about these texts, or an empty certificate if the formula can have none."""
    try:
        return checked(files_of(texts), texts["formula"], ROUNDS, True)[1]
    except Refusal:
        return "certificate 2 0\n"


def files_of(texts):
    return read_files(texts["tra"], texts["lab"], texts["own"])


def damaged(draw, text, is_formula, fields=FIELDS):
    """Returns the text cut off, or with another byte, another line, or one of these fields in place of another."""
    place, kind = draw.randrange(len(text) + 1), draw.random()
    if kind < 0.4:
        byte = draw.choice(BYTES)
        changed = text[:place] + draw.choice((byte, "")) + text[place + draw.choice((0, 1)) :]
    elif kind < 0.5:
        changed = text[:place]
    else:
        mark = "\n" if kind > 0.8 else " "
        parts = text.split(mark)
        changed = mark.join(changed_parts(draw, parts, mark, fields))
    return as_word(changed) if is_formula else changed


def as_word(text):
    """Returns a text that can be a word of a command line and is no option."""
    return ("" if text[:1] != "-" else " ") + text.replace("\0", "@").encode("utf-8").decode("latin-1")


def spoken(formula):
    """Returns the word of a command line whose bytes are the characters of this text."""
    return formula.encode("latin-1").decode("utf-8")


def changed_parts(draw, parts, mark, fields):
    """Changes, removes, repeats or moves one of the fields or lines."""
    place, kind = draw.randrange(len(parts)), draw.random()
    if kind < 0.5:
        other = draw.choice(fields) if mark == " " else draw.choice(("", " ", "x", draw.choice(parts)))
        return [*parts[:place], other, *parts[place + 1 :]]
    if kind < 0.65:
        return parts[:place] + parts[place + 1 :]
    return [*parts[:place], draw.choice(parts), *parts[place:]]


def expected(texts, command, plan, room):
    """Returns the status and the output, which is empty if the game is too large or the steps are too many to try."""
    try:
        files = files_of(texts)
        if command == "audit":
            return audited(files, texts["formula"], room / "m.certificate")
        formula = read_formula(texts["formula"])
        steps = max(one.horizon() or 0 for one in (formula, *formula.inside()))
        if len(files.game) > MOST_STATES or steps > MOST_STEPS:
            return 0, ""
        return checked(files, texts["formula"], ROUNDS, plan)
    except Refusal as refusal:
        return 8 if str(refusal).startswith("cert ") else 4, f"refused {refusal}\n"
