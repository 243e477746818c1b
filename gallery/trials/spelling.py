"""Files of a game in spellings that are drawn: lines in any order, numbers in all their forms, blanks and line ends."""

from fractions import Fraction

BLANKS, ENDS = (" ", " ", " ", "  ", "\t", " \t "), ("\n", "\n", "\n", "\r\n")


def spelt_number(draw, number):
    """A number as a fraction or, where it has one, as a decimal, with or without an exponent."""
    number = Fraction(number)
    if 10**6 % number.denominator or draw.random() < 0.2:
        times = draw.choice((1, 1, 2, 10, 10**6))
        return f"{number.numerator * times}/{number.denominator * times}"
    whole = f"{int(number * 10**6):07}"
    plain = f"{'0' * draw.choice((0, 0, 2))}{whole[:-6]}.{whole[-6:].rstrip('0')}"
    small = f"{int(number * 10**6)}{draw.choice('eE')}-{draw.choice(('6', '06', '006'))}"
    great = f"0.00{whole}{draw.choice(('e', 'E+'))}{len(whole) - 4}"
    return draw.choice((plain, plain, plain.rstrip("."), small, great))


def spelt_game(draw, model):
    """The transition file of a model, some of whose probabilities stand in two lines."""
    chain = model.is_chain() and draw.random() < 0.8
    rows, named = [], draw.random() < 0.3
    for state, choices in enumerate(model.choices):
        for number, choice in enumerate(choices):
            source, action = (str(state), "") if chain else (f"{state} {number}", f" act{number}" * named)
            for successor, part in parts_of(draw, choice):
                rows.append(f"{source} {successor} {spelt_number(draw, part)}{action}")
    if draw.random() < 0.4:
        draw.shuffle(rows)
    counts = [len(model), len(rows)] if chain else [len(model), sum(map(len, model.choices)), len(rows)]
    return joined(draw, [" ".join(map(str, counts)), *rows])


def parts_of(draw, choice):
    """The parts of a choice, at times one of them in two, and one of probability 0."""
    parts = list(choice.items())
    if draw.random() < 0.2:
        successor, part = parts.pop()
        parts += [(successor, part / 2), (successor, part / 2)]
    if draw.random() < 0.2:
        parts.append((draw.choice(parts)[0], 0))
    return parts


def spelt_marks(draw, names, marks):
    """A label file or an owner file, with indices that do not follow one another."""
    indices = [2 * place for place in range(len(names))] if draw.random() < 0.2 else list(range(len(names)))
    lines = [" ".join(f'{index}="{name}"' for index, name in zip(indices, names))]
    colon = draw.choice((": ", ": ", ":", " : "))
    lines += [f"{state}{colon}{' '.join(str(indices[place]) for place in places)}" for state, places in marks]
    return joined(draw, lines)


def joined(draw, lines):
    """Lines with their blanks and their ends."""
    blank, end = draw.choice(BLANKS), draw.choice(ENDS)
    text = end.join(line.replace(" ", blank) for line in lines)
    return draw.choice(("", "", blank)) + text + draw.choice((end, end, "", end + blank + end))
