"""Command lines: options anywhere, in both forms, twice, unknown or without a value, numbers, empty names, and `--`.

They are read by a plain reading of docs/COMMANDS.md: the usage line with status 3, and one line on standard error, or
the run that the words ask for.
"""

import re
from pathlib import Path

from answers import checked, read_files
from audits import audited
from core import Found, run
from paid import ENDINGS, paid_audit, posed
from sure import listed
from texts import Refusal
from toolbox.reward_certificates import certificate_of, certificate_text
from workers import kept, made

COUNT, MANY, FEW = 400, 10_000, 100
EXAMPLES = Path(__file__).resolve().parents[2] / "examples"
USAGE = (
    "usage: stogame check TRA LAB FORMULA [--own FILE] [--rounds R] [--workers W] [--plan] [--traps] | "
    "audit TRA LAB FORMULA CERT [--own FILE] | make SEED STATES [--rounds R] [--workers W] | "
    "sure TRA LAB FORMULA [--own FILE]\n"
)
REFUSED = re.compile("stogame: [^\n]+; commands: check, audit, solve, make, sure\n")
PLACES = {"check": "tlf", "audit": "tlfc", "solve": "tlf", "sure": "tlf", "make": "sn"}
OPTIONS = {
    "check": ("--own", "--rounds", "--workers", "--plan", "--traps"),
    "audit": ("--own", "--rewards"),
    "solve": ("--own", "--values", "--plan", "--rewards"),
    "sure": ("--own",),
    "make": ("--rounds", "--workers"),
}
FLAGS = ("--plan", "--traps")
LIMITS = {"--rounds": (0, 1_000_000), "--workers": (1, 64), "s": (1, 2**31 - 2), "n": (3, 1_000_000)}
THRESHOLD = 'P>=0.5 [ F "goal" ]'
FORMULAS = (
    *('<<p1>> Pmax=? [ F "goal" ]', 'Pmin=? [ F "goal" ]', f"<<p1>> {THRESHOLD}", '<<p2>> Pmin=? [ G !"goal" ]'),
    *('P>=0.5 [ X "goal" ]', 'Pmax=? [ F "gaol" ]', "", "-"),
)
PAID_FORMULAS = ('<<p1>> Rmin=? [ F "goal" ]', 'Rmax=? [ F "goal" ]', 'R{"x"}<=1/3 [ F "goal" ]', FORMULAS[0])
RIGHT = {
    **{"t": ("g.tra",), "l": ("g.lab",), "f": FORMULAS, "c": ("certificate", "bad"), "--own": ("g.own",)},
    **{"--rounds": ("0", "0", "1", "3", "+2", "007", "1000000"), "--workers": ("1", "1", "1", "+1", "4", "64")},
    **{"s": ("1", "7", "+42", "2147483646"), "n": ("3", "5", "008"), "--values": ("bad", "values")},
    "--rewards": ("paid", "paid", "bad"),
}
RIGHT_PAID = {"f": PAID_FORMULAS, "c": ("granted", "granted", "certificate", "bad")}
WRONG = ("", "-1", "+", "1.0", "0x1", "4294967296", "1000001", "65", "2147483647", "2", "-0", "x", " 1", "١")
ODD = (
    *("", "-", "--", "--", "--help", "-h", "--plan=", "--plan=true", "--pla", "--own", "--rounds=1", "--traps"),
    *("--plan", "---", "x", "--workers", "--rewards", "--rewards="),
)


def trial(draw, room):
    """One list of words over the game in which both sides may stay."""
    found = Found()
    texts = [(EXAMPLES / f"to_and_fro.{ending}").read_text(encoding="ascii") for ending in ("tra", "lab", "own")]
    certificate = checked(read_files(*texts), FORMULAS[0], 3, True)[1]
    contents = dict(zip(("g.tra", "g.lab", "g.own", "certificate"), (*texts, certificate)))
    contents.update({"bad": "\n\n0 0\n", "values": "0.7\n" * 5, "paid": "rewards 5 2\n0 1\n1 0 1/3\n"})
    right = posed({**dict(zip(ENDINGS, (*texts, contents["paid"]))), "formula": PAID_FORMULAS[0]})
    contents["granted"] = certificate_text(certificate_of(right.problem, right.rewards, 3))
    for name, text in contents.items():
        (room / name).write_text(text, encoding="ascii")
    words = drawn_words(draw)
    asked = reading(words)
    found.counts["refused" if asked is None else words[0]] += 1
    if asked is None:
        status, output, errors = run(room, *words)
        found.compare(words, (3, USAGE), (status, output))
        if not REFUSED.fullmatch(errors):
            found.note(words, [f"{errors!r} does not say why the words are no command"])
    else:
        compare_answer(found, room, words, asked, contents)
    return found


def drawn_words(draw):
    """The words of a command, of which some may be left out, wrong, odd, or twice there."""
    command = draw.choice((*PLACES, "check", "check"))
    is_paid = draw.random() < (0.4 if "--rewards" in OPTIONS[command] else 0.05)
    right = {**RIGHT, **(RIGHT_PAID if is_paid else {})}
    groups = [[draw.choice(right[place])] for place in PLACES[command]]
    shares = {"--own": 0.8, "--rewards": 0.1, "--values": 0.1 if is_paid else 0.4}
    drawn = [option for option in OPTIONS[command] if draw.random() < shares.get(option, 0.4)]
    for option in (*drawn, *["--rewards"] * is_paid):
        value = draw.choice(right.get(option, ("",)))
        group = [option] if option in FLAGS else draw.choice(([option, value], [f"{option}={value}"]))
        groups.insert(draw.randint(0, len(groups)), group)
    words = [command, *(word for group in groups for word in group)]
    for _ in range(draw.choice((0, 0, 1, 1, 2))):
        place, kind = draw.randint(1, len(words)), draw.random()
        if kind < 0.3:
            words[place : place + 1] = [draw.choice(WRONG)]
        elif kind < 0.6:
            words.insert(place, draw.choice((*ODD, draw.choice(words))))
        elif kind < 0.8:
            words.insert(place, "--")
        else:
            del words[place:place + 1]
    return words if draw.random() < 0.98 else draw.choice(([], [""], ["--help"], ["Check", *words[1:]], words[1:]))


def reading(words):
    """The command, its places and its options by name, or none where the words are no command."""
    if not words or words[0] not in PLACES:
        return None
    places, options, waiting, ended = [], {}, None, False
    for word in words[1:]:
        if ended or len(word) < 2 or word[0] != "-":
            if waiting:
                options[waiting], waiting = word, None
            else:
                places.append(word)
            continue
        name, equals, value = word.partition("=")
        ended = word == "--"
        is_known = ended or (name in OPTIONS[words[0]] and name not in options and not (equals and name in FLAGS))
        if waiting or not is_known:
            return None
        if not ended:
            options[name] = value
            waiting = None if equals or name in FLAGS else name
    asked = {**dict(zip(PLACES[words[0]], places)), **options}
    if {"--values", "--rewards"} <= set(options):
        return None
    if waiting or len(places) != len(PLACES[words[0]]) or not all(is_right(*said) for said in asked.items()):
        return None
    return {"command": words[0], **asked}


def is_right(name, value):
    """Whether a value may stand for a place or an option."""
    if name in LIMITS:
        least, most = LIMITS[name]
        return re.fullmatch(r"\+?[0-9]+", value) is not None and least <= int(value) <= most
    return bool(value) or name in FLAGS or name == "f"


def compare_answer(found, room, words, asked, contents):
    """Compares the run with what these words ask for."""
    status, output, errors = run(room, *words)
    names = [asked[name] for name in ("t", "l", "--own", "--rewards", "c", "--values") if name in asked]
    missing = [name for name in names if name not in contents]
    if missing:
        fine = (status, output, errors) == (5, "", f"stogame: cannot read {missing[0]}: no such file or directory\n")
        found.note(words, [] if fine or status == 4 else [f"{status} {output} {errors}, with no {missing[0]}"])
        return
    by_rounds = asked["command"] in ("check", "make") and int(asked.get("--workers", 4)) > 1
    if by_rounds and (int(asked.get("--rounds", MANY)) < FEW or asked.get("f", "").endswith(THRESHOLD)):
        found.note(words, [] if status <= 4 else [f"status {status}"])
        return
    answer, shape = expected(room, asked, contents), kept if by_rounds else str
    found.compare(words, (answer[0], shape(answer[1]), ""), (status, shape(output), errors))


def expected(room, asked, contents):
    """The status and the output of a command."""
    rounds = int(asked.get("--rounds", MANY))
    if asked["command"] == "make":
        return made(int(asked["s"]), int(asked["n"]), min(rounds, MANY))
    try:
        if "--rewards" in asked:
            return paid_answer(room, asked, contents)
        files = read_files(*(contents[asked[name]] for name in ("t", "l", "--own") if name in asked))
        if asked["command"] == "check":
            return checked(files, asked["f"], min(rounds, MANY), "--plan" in asked, "--traps" in asked)
        if asked["command"] == "audit":
            return audited(files, asked["f"], room / asked["c"])
        if asked["command"] == "sure":
            return listed(files, asked["f"])
        return solved_plainly(room, asked)
    except Refusal as refusal:
        return 8 if str(refusal).startswith("cert ") else 4, f"refused {refusal}\n"


def paid_answer(room, asked, contents):
    """The status and the output of a command on expected rewards."""
    places = zip(ENDINGS, ("t", "l", "--own", "--rewards"))
    texts = {ending: contents[asked[name]] for ending, name in places if name in asked}
    texts["formula"] = asked["f"]
    if asked["command"] == "audit":
        return paid_audit(texts, contents[asked["c"]])
    posed(texts)
    return solved_plainly(room, asked)


def solved_plainly(room, asked):
    """What `solve` writes of the same words in their plainest order."""
    rest = [word for name in ("--own", "--values", "--rewards") if name in asked for word in (name, asked[name])]
    return run(room, "solve", *rest, *["--plan"] * ("--plan" in asked), "--", asked["t"], asked["l"], asked["f"])[:2]
