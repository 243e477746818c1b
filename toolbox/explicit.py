"""PRISM's explicit files, owner files and lists of states, read strictly and written.

What can't be read is refused with the name of the file, the line and the cause. The rules are those of the program's
own readers, or stricter; `stogame` stays the judge of what a file means.

Probabilities are exact: the weights of a choice are whole numbers, and the probability of a successor is its weight
over the total. Lists are flat: the choices of state s are those from choice_start[s] to choice_start[s + 1], and the
edges of choice c those from edge_start[c] to edge_start[c + 1].
"""

import os
import re
import tempfile
from array import array
from collections import namedtuple
from math import gcd, lcm

from toolbox.endings import OUTPUT, Refusal, pairs_of, unread, unwritten

MOST_STATES = 1_000_000
MOST_CHOICES = 16_384
MOST_DENOMINATOR = 10**23
MOST_DIGITS = 30
ONLY_PLAYER = "p0"

# a sum of probabilities may miss 1 by one part in so many, since decimals are rounded
SUM_TOLERANCE = 100_000

# how compressed files begin
COMPRESSED = {b"\x1f\x8b": "gzip (.gz)", b"\xfd7zXZ\0": "xz (.xz)"}
MOST_MAGIC = max(map(len, COMPRESSED))

BLOCK_BYTES = 1 << 18

LABEL_NAME = re.compile(rb'[!#-~]{1,255}\Z')
PLAYER_NAME = re.compile(rb"[A-Za-z_][A-Za-z0-9_]{0,254}\Z")
HEADER_ITEM = re.compile(rb'([0-9]+)="([^"]*)"\Z')
DECIMAL = re.compile(rb"([0-9]+)(?:\.([0-9]*))?(?:[eE]([+-]?[0-9]{1,3}))?\Z")
FRACTION = re.compile(rb"([0-9]+)/([0-9]+)\Z")


def shown(field):
    """Bytes of a file as they stand in a message."""
    text = field.decode("ascii", "backslashreplace")
    return f"'{text}'" if len(text) <= 40 else f"'{text[:40]}..'"


# Files


def open_bytes(name):
    """A file to be read, which is not compressed."""
    try:
        file = open(name, "rb")
        first = file.peek(MOST_MAGIC)
    except OSError as error:
        raise unread(name, error) from error
    for magic, compressor in COMPRESSED.items():
        if first.startswith(magic):
            file.close()
            raise Refusal(name, 1, f"the file is compressed by {compressor}; unpack it first")
    return file


def field_blocks(name):
    """Blocks of lines, each split into its fields, with the number of the first line.

    Blank lines are passed over at the end of the file; any other is refused.
    """
    with open_bytes(name) as file:
        yield from blocks_of(name, file)


def blocks_of(name, file):
    number, blank = 1, None
    while lines := file.readlines(BLOCK_BYTES):
        rows = [line.split() for line in lines]
        if blank is not None or [] in rows:
            rows, blank = without_blanks(name, number, rows, blank)
        yield number, rows
        number += len(lines)


def field_rows(name):
    """The fields of each line, with its number."""
    with open_bytes(name) as file:
        yield from rows_of(name, file)


def rows_of(name, file):
    for number, rows in blocks_of(name, file):
        yield from enumerate(rows, number)


def without_blanks(name, number, rows, blank):
    """The rows before the first blank one and its line; refused where a row that is not blank follows it."""
    for offset, row in enumerate(rows):
        if not row and blank is None:
            blank = number + offset
        elif row and blank is not None:
            raise Refusal(name, blank, "a blank line before the end")
    return [row for row in rows if row], blank


def write_files(texts):
    """Writes pairs of a name and pieces of text: all to temporary names first, and renames them at the end."""
    written = []
    try:
        for name, pieces in texts:
            written.append((write_beside(name, pieces), name))
        for temporary, name in written:
            os.replace(temporary, name)
    except OSError as error:
        raise unwritten(name, error) from error
    finally:
        for temporary, _ in written:
            if os.path.exists(temporary):
                os.remove(temporary)


def write_beside(name, pieces):
    """Writes a temporary file in the folder of this name, and gives its own name."""
    handle, temporary = tempfile.mkstemp(prefix=".", suffix=".part", dir=os.path.dirname(name) or ".")
    try:
        mask = os.umask(0)
        os.umask(mask)
        os.fchmod(handle, 0o666 & ~mask)
        with open(handle, "w", encoding="ascii", errors="surrogateescape", newline="\n") as file:
            file.writelines(pieces)
    except BaseException:
        os.remove(temporary)
        raise
    return temporary


def write_output(data):
    """Writes bytes to standard output, without a buffer that would fail at the end."""
    try:
        while data:
            data = data[os.write(1, data) :]
    except OSError as error:
        raise unwritten(OUTPUT, error) from error


def header_line(names):
    """The first line of a label or owner file, in which these names have the indices 0, 1 and so on."""
    return " ".join(f'{index}="{name}"' for index, name in enumerate(names)) + "\n"


# Probabilities


def fraction_of(spelling):
    """The exact value of a probability as numerator and denominator in lowest terms; ValueError says the fault."""
    numerator, denominator = number_of(spelling)
    common = gcd(numerator, denominator)
    if denominator // common > MOST_DENOMINATOR:
        raise ValueError("finer than 10^-23")
    if numerator > denominator:
        raise ValueError("above 1")
    return numerator // common, denominator // common


def number_of(spelling, kind="probability"):
    """The numerator and the denominator of a decimal or a fraction; ValueError says why it is none."""
    found = FRACTION.match(spelling)
    if not found:
        return decimal_of(spelling, kind)
    numerator, denominator = checked_digits(found[1]), checked_digits(found[2])
    if denominator == 0:
        raise ValueError("a denominator of 0")
    return numerator, denominator


def decimal_of(spelling, kind):
    found = DECIMAL.match(spelling)
    if not found:
        raise ValueError(f"no {kind}")
    places = found[2] or b""
    exponent = int(found[3] or 0) - len(places)
    numerator = checked_digits(found[1] + places)
    return (numerator * 10**exponent, 1) if exponent >= 0 else (numerator, 10**-exponent)


def whole(digits):
    """A whole number; one of more than forty digits stands for those above every limit."""
    return int(digits.lstrip(b"0")[:40] or b"0")


def checked_digits(digits):
    if len(digits) > MOST_DIGITS:
        raise ValueError("too many digits")
    return int(digits)


def weights_of(fractions):
    """Weights over a common denominator, and their sum; ValueError says where they make no distribution."""
    common = lcm(*(denominator for _, denominator in fractions))
    weights = [numerator * (common // denominator) for numerator, denominator in fractions]
    total = sum(weights)
    if abs(total - common) * SUM_TOLERANCE > common:
        raise ValueError(f"probabilities sum to {total / common:.9g}")
    if max(total, common) > MOST_DENOMINATOR:
        raise ValueError("finer than 10^-23 together")
    return weights, total


# Models


class Model:
    """A Markov decision process in flat lists; `weights` has those of each choice by its edges, and their total."""

    def __init__(self):
        self.choice_start = array("i", [0])
        self.edge_start = array("i", [0])
        self.successor = array("i")
        self.weights = []

    @property
    def states(self):
        return len(self.choice_start) - 1

    def choices_of(self, state):
        return range(self.choice_start[state], self.choice_start[state + 1])

    def successors(self, choice):
        return self.successor[self.edge_start[choice] : self.edge_start[choice + 1]]

    def add_choice(self, successors, weighted):
        """Adds a choice of the state under way, with its weights and their total."""
        self.weights.append(weighted)
        self.successor.extend(successors)
        self.edge_start.append(len(self.successor))

    def end_state(self):
        self.choice_start.append(len(self.weights))


class Rows:
    """The lines of a transition file in columns; a probability is a place in the list of the fractions that were
    met."""

    def __init__(self, name, header):
        self.name = name
        self.header = header
        self.sources = array("i")
        self.choices = array("i")
        self.targets = array("i")
        self.shares = array("i")
        self.fractions = []
        self.places = {}

    def add(self, number, rows):
        """Adds a block of lines, of which the first has this number."""
        left = self.header.lines - len(self.sources)
        if len(rows) > left:
            self.add(number, rows[:left])
            raise Refusal(self.name, number + left, f"more lines than the {self.header.lines} that the header states")
        if not rows:
            return
        fields = self.header.fields
        if not set(map(len, rows)) <= {fields, fields + 1}:
            self.blame(number, rows)
        columns = list(zip(*[row[:fields] for row in rows] if len(rows[0]) > fields else rows))
        if not all(b"".join(column).isdigit() for column in columns[: fields - 1]):
            self.blame(number, rows)
        numbers = [list(map(int, column)) for column in columns[: fields - 1]]
        if max(numbers[0]) >= self.header.states or max(numbers[-1]) >= self.header.states:
            self.blame(number, rows)
        if not self.header.is_chain and max(numbers[1]) >= MOST_CHOICES:
            self.blame(number, rows)
        try:
            places = list(map(self.places.__getitem__, columns[fields - 1]))
        except KeyError:
            places = [self.place_of(number + offset, row[fields - 1]) for offset, row in enumerate(rows)]
        self.sources.extend(numbers[0])
        self.choices.extend([0] * len(rows) if self.header.is_chain else numbers[1])
        self.targets.extend(numbers[-1])
        self.shares.extend(places)

    def place_of(self, number, spelling):
        place = self.places.get(spelling)
        if place is None:
            try:
                self.fractions.append(fraction_of(spelling))
            except ValueError as fault:
                raise Refusal(self.name, number, f"probability {shown(spelling)}: {fault}") from fault
            place = self.places[spelling] = len(self.fractions) - 1
        return place

    def blame(self, number, rows):
        """Refuses the first line of a block that has a fault other than in its probability."""
        for offset, row in enumerate(rows):
            fault = self.fault_of(row)
            if fault:
                raise Refusal(self.name, number + offset, fault)
        raise AssertionError("a block without a fault was blamed")

    def fault_of(self, row):
        fields = self.header.fields
        if len(row) not in (fields, fields + 1):
            return f"{len(row)} fields in place of {fields}"
        for field in row[: fields - 1]:
            if not field.isdigit():
                return f"{shown(field)} is no whole number"
        for role, field in (("source", row[0]), ("destination", row[fields - 2])):
            if int(field) >= self.header.states:
                return f"{role} {int(field)} is no state"
        if not self.header.is_chain and int(row[1]) >= MOST_CHOICES:
            return f"choice {int(row[1])} is above {MOST_CHOICES - 1}"
        return None

    def sort(self):
        """Sorts the lines by source and choice; lines of one choice stay in their order.
        Tells whether they were not so sorted."""
        places = [MOST_CHOICES * source + choice for source, choice in zip(self.sources, self.choices)]
        order = sorted(range(len(places)), key=places.__getitem__)
        if order == list(range(len(places))):
            return False
        for name in ("sources", "choices", "targets", "shares"):
            setattr(self, name, array("i", map(getattr(self, name).__getitem__, order)))
        return True


class Header(namedtuple("Header", "states choices lines")):
    """What the first line of a transition file states; a Markov chain has no number of choices."""

    @property
    def is_chain(self):
        return self.choices is None

    @property
    def fields(self):
        return 3 if self.is_chain else 4


def header_of(name, row=None):
    """The header of a transition file, whose first line may have been read."""
    row = next(field_rows(name), (1, []))[1] if row is None else row
    if len(row) not in (2, 3) or not b"".join(row).isdigit():
        raise Refusal(name, 1, "the header is not two or three whole numbers")
    numbers = [int(field) for field in row]
    header = Header(numbers[0], numbers[1] if len(numbers) == 3 else None, numbers[-1])
    if not 0 < header.states <= MOST_STATES:
        raise Refusal(name, 1, f"{header.states} states; 1 to {MOST_STATES} can be read")
    return header


def read_transitions(name):
    """The model of a transition file of an MDP or of a Markov chain."""
    blocks = field_blocks(name)
    number, block = next(blocks, (1, []))
    if not block:
        raise Refusal(name, 1, "no header")
    rows = Rows(name, header_of(name, block[0]))
    rows.add(2, block[1:])
    for number, block in blocks:
        rows.add(number, block)
    if len(rows.sources) < rows.header.lines:
        raise Refusal(name, None, f"{len(rows.sources)} lines; the header states {rows.header.lines}")
    return model_of(rows)


def model_of(rows):
    """The model of lines that were read, which may stand in any order."""
    try:
        return model_of_sorted(rows)
    except Refusal:
        if not rows.sort():
            raise
        return model_of_sorted(rows)


def model_of_sorted(rows):
    """The model of lines sorted by source and choice; a state without a line moves to itself."""
    sources, choices, made, model = rows.sources, rows.choices, {}, Model()
    count, edge, stated = len(sources), 0, 0
    for state in range(rows.header.states):
        choice = 0
        while edge < count and sources[edge] == state:
            if choices[edge] != choice:
                raise Refusal(rows.name, None, f"state {state} has no line of choice {choice}")
            end = edge + 1
            while end < count and choices[end] == choice and sources[end] == state:
                end += 1
            add_distribution(model, rows, made, state, choice, slice(edge, end))
            edge = end
            choice += 1
        stated += choice
        if choice == 0:
            model.add_choice([state], ([1], 1))
        model.end_state()
    if edge < count:
        raise Refusal(rows.name, None, f"the lines of state {sources[edge]} are not together")
    if rows.header.choices not in (None, stated):
        raise Refusal(rows.name, None, f"{stated} choices; the header states {rows.header.choices}")
    return model


def add_distribution(model, rows, made, state, choice, edges):
    """Adds a choice of these lines; its weights are those that were made of the same probabilities before."""
    targets, places = rows.targets[edges], rows.shares[edges]
    weighted = made.get(places.tobytes())
    if weighted is None:
        try:
            weighted = made[places.tobytes()] = weights_of([rows.fractions[place] for place in places])
        except ValueError as fault:
            raise Refusal(rows.name, None, f"state {state} choice {choice}: {fault}") from fault
    if 0 in weighted[0]:
        kept = [place for place, weight in enumerate(weighted[0]) if weight]
        targets, weights = ([column[place] for place in kept] for column in (targets, weighted[0]))
        weighted = weights, weighted[1]
    model.add_choice(targets, weighted)


# Labels and owners


def read_header_items(name, row, is_name, kind):
    """The names in the first line of a label or owner file, by their indices."""
    names = {}
    for item in row:
        found = HEADER_ITEM.match(item)
        if not found or not is_name.match(found[2]):
            raise Refusal(name, 1, f"{shown(item)} is no index and name of a {kind}")
        index = int(found[1])
        if index in names or found[2] in names.values():
            raise Refusal(name, 1, f"{shown(item)} is named a second time")
        names[index] = found[2]
    if not names:
        raise Refusal(name, 1, f"no header with {kind}s")
    return names


def read_state_lines(name, states, is_name, kind):
    """The names of the header; then for each line its number, its state and the names that stand behind the colon."""
    rows = field_rows(name)
    names = read_header_items(name, next(rows, (1, []))[1], is_name, kind)
    yield names
    for number, row in rows:
        yield number, *state_line(name, number, row, states, names, kind)


def state_line(name, number, row, states, names, kind):
    head, colon, rest = b" ".join(row).partition(b":")
    head = head.strip()
    if not colon or not head.isdigit():
        raise Refusal(name, number, "no state and colon")
    if int(head) >= states:
        raise Refusal(name, number, f"{int(head)} is no state")
    found = []
    for field in rest.split():
        if not field.isdigit() or int(field) not in names:
            raise Refusal(name, number, f"{shown(field)} is no index of a {kind} of the header")
        found.append(names[int(field)])
    return int(head), found


def read_labels(name, states):
    """A map from the name of each label to a byte for each state: 1 where it holds."""
    lines = read_state_lines(name, states, LABEL_NAME, "label")
    labels = {label: bytearray(states) for label in next(lines).values()}
    for _, state, found in lines:
        for label in found:
            labels[label][state] = 1
    return labels


Owners = namedtuple("Owners", "players owner")
Owners.__doc__ = "The names of the players, and for each state the place of its owner among them."


def read_owners(name, states):
    """The owners of a file; without one all states are those of one player."""
    if not name:
        return Owners([ONLY_PLAYER.encode()], bytearray(states))
    lines = read_state_lines(name, states, PLAYER_NAME, "player")
    players = list(next(lines).values())
    owner = array("i", [-1]) * states
    for number, state, found in lines:
        for place in map(players.index, found):
            if owner[state] not in (-1, place):
                raise Refusal(name, number, f"state {state} has a second owner")
            owner[state] = place
    return Owners(players, array("i", [max(place, 0) for place in owner]))


def names_of(text):
    """Names by value, as `1=anna,2=bert` has them."""
    pairs = pairs_of(text, "VALUE=NAME", lambda name: PLAYER_NAME.match(name.encode()))
    return {value.encode(): name.encode() for value, name in pairs.items()}


def player_name(value, names, variable=b""):
    """The name of a player: the one that was asked for;
    else the value behind its variable, and a mere number behind `p`."""
    if value in names:
        return names[value]
    return (variable or (b"p" if value[:1].isdigit() else b"")) + value


def owner_lines(owners, names):
    """The lines of an owner file of a map from states to names of players, in the order of the values that have names.
    States left out belong to the first player."""
    values = {name: value for value, name in names.items()}
    players = sorted(set(owners.values()), key=lambda player: place_of(values.get(player, player)))
    players = players or [ONLY_PLAYER.encode()]
    numbers = {player: number for number, player in enumerate(players)}
    yield header_line(map(bytes.decode, players))
    for state in sorted(owners):
        yield f"{state}: {numbers[owners[state]]}\n"


def place_of(value):
    """What a value is sorted by: the number at its end, if it has one, and then its text."""
    number = re.search(rb"[0-9]*\Z", value)[0]
    return int(number or 0), len(value), value


# Lists of states

HEADER = re.compile(r"\(([^()]*)\)\Z")
VALUED = re.compile(r"([0-9]+)\s*:\s*\(([^()]*)\)\Z")

Valuations = namedtuple("Valuations", "variables values")
Valuations.__doc__ = "The names of the variables, and for each state the list of their values, as they are written."


def parts(text):
    return [part.strip() for part in text.split(",")]


def read_valuations(name, states):
    """The variables and their values, of a list of states as PRISM exports it; each state stands once, in any order.
    Without a list there are none."""
    if not name:
        return None
    with open_bytes(name) as file:
        lines = [line.strip() for line in file.read().decode("ascii", "backslashreplace").split("\n")]
    head = HEADER.match(lines[0])
    if not head:
        raise Refusal(name, 1, "no names of variables in brackets")
    variables = parts(head[1])
    values = [None] * states
    for number, line in enumerate(lines[1:], 2):
        if line:
            state, found = valued_state(name, number, line, variables)
            if state >= states or values[state] is not None:
                raise Refusal(
                    name, number, f"state {state} stands a second time" if state < states else f"{state} is no state"
                )
            values[state] = found
    if None in values:
        raise Refusal(name, None, f"no values of state {values.index(None)}")
    return Valuations(variables, values)


def valued_state(name, number, line, variables):
    found = VALUED.match(line)
    values = parts(found[2]) if found else []
    if len(values) != len(variables):
        raise Refusal(name, number, f"no state with {len(variables)} values")
    return int(found[1]), values
