"""The gallery's answers as a printed table, as stored lines, and as the page of answers."""

import os
import re
import string
import textwrap

from toolbox.endings import Refusal
from toolbox.rewards import INFINITE

MOST_OF_A_DENOMINATOR = 10**9
PLACES = 18
COLUMNS = 120
HEAD = "| Question | Value | Bracket | Verdict | Width by `solve` |\n|---|---|---|---|---|\n"


def shown(value):
    """A value as a fraction where it is short, else its first decimals, cut off."""
    if value == INFINITE:
        return "infinite"
    if value.denominator < MOST_OF_A_DENOMINATOR:
        return str(value)
    whole, rest = divmod(value.numerator, value.denominator)
    return f"{whole}.{rest * 10**PLACES // value.denominator:0{PLACES}d}.."


def printed(answer):
    """A line of the table, and one for each fault."""
    cells = f"{answer.name:<23} {answer.states:>6}  {answer.question.title():<50} {shown(answer.value):<22}"
    ends = f" {' '.join(answer.bracket()):<35} {answer.summary():<14} {answer.seconds:6.2f} s"
    if answer.solved:
        ends += f"  solve {answer.solved.summary():<19} {answer.solved.seconds:6.2f} s"
    return "\n".join([cells + ends] + [f"    {fault}" for fault in answer.faults])


def key_of(name, question):
    return f"{name}\t{question.title()}"


def solved_key_of(name, question):
    return f"{name}\tsolve '{question.formula()}'"


def read_lines(path):
    """The stored line of each question, behind the model and the question; a file that is not there has none."""
    if not path.exists():
        return {}
    return dict(line.rsplit("\t", 1) for line in path.read_text(encoding="ascii").splitlines())


def write_lines(path, keys, lines):
    known = (key for key in dict.fromkeys(keys) if key in lines)
    path.write_text("".join(f"{key}\t{lines[key]}\n" for key in known), encoding="ascii")


def write_markdown(path, size, answers, models):
    """Writes a section for each model of a size; a model has its name, what it is known as and how large it is."""
    write_between(path, size, "".join(section(*model, answers) for model in models))


def write_contents(path):
    """Writes the table of contents of the page of answers."""
    names = re.findall("(?m)^### (.*)$", path.read_text(encoding="utf-8"))
    write_between(path, "contents", contents(names))


def contents(names):
    """A line for each family of these models, with links to their sections."""
    families = {}
    for name in names:
        families.setdefault(name.split("-")[0], []).append(f"[{name}](#{name.replace('.', '')})")
    lines = (f"- {family}: {', '.join(links)}" for family, links in families.items())
    wrapped = (textwrap.fill(line, COLUMNS, subsequent_indent="  ", break_on_hyphens=False) for line in lines)
    return "".join(f"{line}\n" for line in wrapped)


def write_between(path, mark, text):
    """Puts a text between the two marks of this name."""
    begin, end = f"<!-- {mark} -->\n", f"<!-- end of {mark} -->\n"
    before, found, rest = path.read_text(encoding="utf-8").partition(begin)
    if not found or end not in rest:
        raise Refusal(path.name, None, f"no marks '{mark}'")
    path.write_text(before + begin + text + end + rest.split(end, 1)[1], encoding="utf-8")


def section(name, known, counts, answers):
    """The heading of a model, what it is and where its values come from, and a table of its answers."""
    given = [answer for answer in answers if answer.name == name]
    marks = marks_of(dict.fromkeys(source(answer.question) for answer in given))
    values = "; ".join(f"{mark} {words}".strip() for words, mark in marks.items())
    about = " ".join([*about_model(known, counts), f"Values: {values}."])
    wrapped = textwrap.fill(about, COLUMNS, break_long_words=False, break_on_hyphens=False)
    rows = "".join(markdown(answer, marks[source(answer.question)]) for answer in given)
    return f"\n### {name}\n\n{wrapped}\n\n{HEAD}{rows}"


def about_model(known, counts):
    """A sentence on how large a model is, and one on what it is known as, where it is."""
    states, choices, moves = counts
    sizes = f"{states} states, {choices} choices, {moves} moves"
    return [f"{words}." for words in (sizes, known.words()) if words]


def source(question):
    """Where the value of a question comes from, and the published one."""
    return question.source + (f", published as {question.published}" if question.published else "")


def marks_of(sources):
    """A letter in brackets for each source where there are several, and for one alone nothing."""
    letters = [f"({letter})" for letter in string.ascii_lowercase] if len(sources) > 1 else [""]
    return dict(zip(sources, letters))


def markdown(answer, mark):
    """The row of an answer; where it would be too long a row of the question stands above it."""
    asked = " ".join(f"`{words}`" for words in (answer.question.formula(), " ".join(answer.question.options)) if words)
    cells = f"{shown(answer.value)} {mark}".strip(), joined(answer.bracket()), answer.summary(), solved_cell(answer)
    whole = row(asked, *cells)
    return whole if len(whole) <= COLUMNS + 1 else row(asked, "", "", "", "") + row("", *cells)


def row(*cells):
    return f"| {' | '.join(map(str, cells))} |\n"


def joined(bracket):
    """Both bounds, with the first digits that they share written once: 0.16[1,3] is 0.161 and 0.163."""
    shared = os.path.commonprefix(list(bracket))
    rests = [bound[len(shared) :] for bound in bracket]
    return shared + (f"[{','.join(rests)}]" if any(rests) else "")


def solved_cell(answer):
    """The width by `solve`, and its verdict where it is another one than that of `check`."""
    if not answer.solved:
        return ""
    width, _, verdict = answer.solved.summary().partition(", ")
    return width if verdict in ("", answer.verdict()) else f"{width}, {verdict}"
