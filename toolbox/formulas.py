"""Formulas of PCTL and rPATL: what they ask, how they are printed and put in words, and how they are read.

A state formula is a tuple: `("true",)`, `("false",)`, `("label", name)`, `("!", x)`, `("&", x, y)` and so on, or it is
a formula. Formulas are read as docs/FORMATS.md says them, apart from the program.
"""

import operator
import re
from dataclasses import dataclass, replace
from fractions import Fraction
from typing import Optional

from toolbox.endings import Refusal
from toolbox.explicit import fraction_of

OPPOSITES = {">=": "<=", "<=": ">=", ">": "<", "<": ">", "Pmax": "Pmin", "Pmin": "Pmax"}
MOST = ("Pmax", "Rmax")
FAILS = {">=": "<", ">": "<=", "<=": ">", "<": ">="}
COMPARED = {">=": operator.ge, "<=": operator.le, ">": operator.gt, "<": operator.lt}
LEVELS = ("=>", "|", "&")
TRUE = ("true",)
SIGNS = {">=": "at least", ">": "more than", "<=": "at most", "<": "less than"}
JOINTS = {"&": "and", "|": "or", "=>": "implies"}

MOST_NAME, MOST_OPEN, MOST_STEPS = 255, 64, 1_000_000
SKIPPED = re.compile("(?:[ \t\n]|\r\n)*")
WORD, NUMBER = re.compile("[A-Za-z_][A-Za-z0-9_]*"), re.compile("[0-9](?:[A-Za-z0-9./]|(?<=[eE])[+-])*")
SIGN = re.compile(r"<<|>>|>=|<=|=>|=\?|[><,\[\]()!&|]")
FORMS = {WORD: "a word", NUMBER: "a number"}


class Spelt(Fraction):
    """A number that is printed as it was written."""

    def __new__(cls, text):
        number = super().__new__(cls, text)
        number.text = text
        return number

    def __str__(self):
        return self.text


@dataclass(frozen=True)
class Formula:
    """A formula, whose path is `U`, of `F` too, or `X` or `G`; a threshold is none where a value is asked for.

    The bound is a sign such as `>=`, or `Pmax` or `Pmin`.
    """

    coalition: Optional[tuple]
    bound: str
    limit: Optional[Fraction]
    path: str
    left: tuple
    right: tuple
    steps: Optional[int] = None

    def dual(self):
        """How likely the right side of `G` ever fails, which answers a formula with `G`: its value is what is left of
        1."""
        bound, limit = OPPOSITES[self.bound], None if self.limit is None else 1 - self.limit
        return replace(self, bound=bound, limit=limit, path="U", left=TRUE, right=("!", self.right))

    def maximises(self, player):
        """Whether a player, or everybody in a model without players, wants the path (Chen, Forejt, Kwiatkowska, Parker
        and Simaitis, TACAS 2012).

        A coalition maximises under >=, > and Pmax, and minimises else, against all others. Without one, a threshold
        speaks of all strategies.
        """
        if self.coalition is None:
            return self.bound in ("<=", "<", *MOST)
        return (player in self.coalition) == (self.bound in (">=", ">", *MOST))

    def is_true_of(self, value):
        return COMPARED[self.bound](value, self.limit)

    def horizon(self):
        """How many steps are looked at, or none where all are."""
        return 1 if self.path == "X" else self.steps

    def inside(self):
        """The formulas inside, at any depth, each behind those inside it."""
        return [one for one in nodes_of(self) if isinstance(one, Formula)][:0:-1]

    def formula(self):
        """The one spelling."""
        team = "" if self.coalition is None else f"<<{','.join(self.coalition)}>> "
        within = "" if self.steps is None else f"<={self.steps}"
        sign = "F" if self.path == "U" and self.left == TRUE else self.path
        left = f"{spelt(self.left)} " if sign == "U" else ""
        return f"{team}{self.bound_text()} [ {left}{sign}{within} {spelt(self.right)} ]"

    def bound_text(self):
        return f"{self.bound}=?" if self.limit is None else f"P{self.bound}{self.limit}"

    def certified(self):
        """What a certificate of this formula is of: the question itself, or of `G` its dual."""
        asked = self.dual() if self.path == "G" else self
        coalition = None if self.coalition is None else frozenset(self.coalition)
        return replace(asked, coalition=coalition, left=plainly(asked.left), right=plainly(asked.right))

    def words(self):
        """The question as a sentence. For nobody's coalition all strategies are the others'."""
        asked, path, team = self.asked_words(), self.path_words(), ", ".join(self.coalition or ())
        most = self.bound in MOST
        if self.limit is not None:
            bound = f"{SIGNS[self.bound]} {Fraction(self.limit)}"
            if team:
                return f"Can {team}, whatever the others do, make sure that the {asked} is {bound} {path}?"
            return f"Is the {asked} {bound}, under every strategy, {path}?"
        if team:
            kind = "greatest" if most else "least"
            return f"What is the {kind} {asked} that {team} can bring about, whatever the others do, {path}?"
        kind = "greatest" if most == (self.coalition is None) else "least"
        return f"What is the {kind} {asked}, over all strategies, {path}?"

    def asked_words(self):
        return "probability"

    def path_words(self):
        if self.path == "G":
            return f"that at every time {state_words(self.right)}"
        steps = self.horizon()
        within = f"{'after' if self.path == 'X' else 'within'} {steps} step{'s' * (steps != 1)}"
        reached = f"that {'at some time' if steps is None else within} {state_words(self.right)}"
        return reached if self.left == TRUE else f"{reached}, and at each time before {state_words(self.left)}"


# State formulas


def spelt(tree):
    """The one spelling of a state formula."""
    if isinstance(tree, Formula):
        return tree.formula()
    if tree[0] == "label":
        return f'"{tree[1]}"'
    if tree[0] == "!":
        return "!" + bracketed(tree[1], head_of(tree[1]) in LEVELS)
    if tree[0] not in LEVELS:
        return tree[0]
    first, second = (LEVELS.index(head) if head in LEVELS else 3 for head in map(head_of, tree[1:]))
    here = LEVELS.index(tree[0])
    return f"{bracketed(tree[1], first < here)} {tree[0]} {bracketed(tree[2], second <= here)}"


def bracketed(tree, is_needed):
    return f"({spelt(tree)})" if is_needed else spelt(tree)


def head_of(tree):
    return "formula" if isinstance(tree, Formula) else tree[0]


def parts_of(tree):
    """The state formulas that a state formula, or a formula, is made of, in the order of its text."""
    return (tree.left, tree.right) if isinstance(tree, Formula) else () if tree[0] == "label" else tree[1:]


def nodes_of(tree):
    """A formula or a state formula, and all that it is made of, in the order of its text."""
    return [tree, *(node for part in parts_of(tree) for node in nodes_of(part))]


def plainly(tree):
    """A state formula without double negations."""
    if tree[0] == "!" and tree[1][0] == "!":
        return plainly(tree[1][1])
    return tree if tree[0] == "label" else (tree[0], *map(plainly, tree[1:]))


def spelt_plainly(text):
    """The text of a formula without double negations, as that of a dual has them."""
    return re.sub(r'("[^"]*")|!\s*!\s*', lambda found: found[1] or "", text)


def state_words(tree):
    """A state formula in words."""
    kind = tree[0]
    if kind == "label":
        return f'"{tree[1]}" holds'
    if kind in ("true", "false"):
        return "anything holds" if kind == "true" else "nothing holds"
    if kind == "!":
        if tree[1][0] == "label":
            return f'"{tree[1][1]}" does not hold'
        return f"it is not so that ({state_words(tree[1])})"
    parts = [state_words(part) if part[0] not in JOINTS else f"({state_words(part)})" for part in tree[1:]]
    return f" {JOINTS[kind]} ".join(parts)


def holds(tree, labels, states):
    """A byte for each state: 1 where the state formula holds."""
    kind = tree[0]
    if kind in ("true", "false"):
        return bytearray([kind == "true"]) * states
    if kind == "label":
        return labels_named(labels, tree[1])
    parts = [holds(part, labels, states) for part in tree[1:]]
    if kind == "!":
        return bytearray(1 - bit for bit in parts[0])
    if kind == "=>":
        return bytearray(map(operator.le, *parts))
    return bytearray(map(operator.and_ if kind == "&" else operator.or_, *parts))


def met(sign, everywhere, parts):
    """The states that meet a connective of sets of states."""
    if sign in "&|":
        return parts[0] & parts[1] if sign == "&" else parts[0] | parts[1]
    return everywhere - parts[0] if sign == "!" else everywhere - parts[0] | parts[1]


def labels_named(labels, label):
    try:
        return labels[label.encode("ascii")]
    except KeyError:
        raise Refusal("formula", None, f'the label file has no label "{label}"') from None


def sides_of(formula, owners):
    """A byte for each state: 1 where the maximiser chooses."""
    for name in formula.coalition or ():
        if name.encode("ascii") not in owners.players:
            raise Refusal("formula", None, f"there is no player {name}")
    sides = [formula.maximises(player.decode("ascii")) for player in owners.players]
    return bytearray(map(sides.__getitem__, owners.owner))


# Reading


class Reader:
    """A text, where the next token begins, and how many `(`, `!` and `[` of formulas inside are open."""

    def __init__(self, text):
        self.text, self.place, self.open = text, SKIPPED.match(text).end(), 0

    def refuse(self, cause, words):
        """Ends with what is wrong at this place: the cause that the program prints, and the words for it here."""
        raise Refusal("formula", None, f"place {self.place}: {words}")

    def whole(self):
        """The formula that the text spells."""
        formula = self.formula(False)
        if self.token():
            self.refuse("Unexpected", "more behind the formula")
        return formula

    def token(self):
        """The next token, or nothing at the end of the text."""
        if self.place == len(self.text):
            return ""
        if self.text[self.place] == '"':
            return self.quoted()
        for form in (WORD, NUMBER, SIGN):
            found = form.match(self.text, self.place)
            if found:
                return found[0]
        return self.refuse("Unexpected", "no token of a formula")

    def quoted(self):
        for count, byte in enumerate(self.text[self.place + 1 :]):
            if byte == '"' and count > 0:
                return self.text[self.place : self.place + count + 2]
            if not "!" <= byte <= "~" or byte == '"' or count == MOST_NAME:
                self.refuse("Unexpected", "no token of a formula")
        return self.refuse("End", "no token of a formula")

    def tokens(self):
        """The tokens from here on, each with what stands before it."""
        end = self.place
        while self.token():
            start, token = self.place, self.take()
            yield self.text[end:start], token
            end = start + len(token)

    def take(self, wanted="more"):
        """The next token, which is passed; a text that ends here is refused."""
        token = self.token()
        if not token:
            self.refuse("End", f"the formula ends before {wanted}")
        self.place = SKIPPED.match(self.text, self.place + len(token)).end()
        return token

    def expect(self, *fits):
        """The next token, which has to be one of these, or in a form."""
        token, wanted = self.token(), FORMS.get(fits[0]) or " or ".join(fits)
        if token and not (token in fits or fits[0] in FORMS and fits[0].fullmatch(token)):
            self.misplaced(token, wanted)
        return self.take(wanted)

    def misplaced(self, token, wanted):
        name = token.strip('"')
        self.refuse("Unexpected", f"'{name}' in place of {wanted}")

    def opening(self):
        """Passes a token that opens something."""
        if self.open == MOST_OPEN:
            self.refuse("TooDeep", f"more than {MOST_OPEN} brackets and negations, one in another")
        self.open += 1
        return self.take()

    def formula(self, is_inside):
        coalition = self.coalition() if self.token() == "<<" else None
        if is_inside and self.token() in ("Pmax", "Pmin"):
            self.refuse("AskInside", "a formula inside asks for a value")
        word = self.expect("P", "Pmax", "Pmin")
        bound = self.expect(">=", ">", "<=", "<") if word == "P" else word
        limit = self.limit() if word == "P" else self.expect("=?") and None
        if is_inside and self.token() == "[":
            self.opening()
        else:
            self.expect("[")
        path, left, steps, right = self.path()
        self.expect("]")
        self.open -= is_inside
        return Formula(coalition, bound, limit, path, left, right, steps)

    def coalition(self):
        self.take()
        names = []
        while self.token() != ">>" or names:
            names.append(self.expect(WORD))
            if self.token() != ",":
                break
            self.take()
        self.expect(">>")
        return tuple(names)

    def limit(self):
        number = self.limit_of(self.token()) if NUMBER.fullmatch(self.token()) else None
        self.expect(NUMBER)
        return number

    def limit_of(self, token):
        """The number of a threshold."""
        try:
            fraction_of(token.encode("ascii"))
        except ValueError as fault:
            self.refuse("BadNumber", f"threshold '{token}': {fault}")
        return Spelt(token)

    def path(self):
        if self.token() in ("X", "G"):
            return self.take(), TRUE, None, self.state()
        if self.token() == "F":
            self.take()
            return "U", TRUE, self.steps(), self.state()
        left = self.state()
        self.expect("U")
        return "U", left, self.steps(), self.state()

    def steps(self):
        if self.token() != "<=":
            return None
        self.take()
        token = self.token()
        if NUMBER.fullmatch(token) and (not token.isdigit() or int(token) > MOST_STEPS):
            self.refuse("BadSteps", f"'{token}' in place of a number of steps")
        return int(self.expect(NUMBER))

    def state(self, level=0):
        """A state formula of operators that bind at least so strongly."""
        if level == len(LEVELS):
            return self.unary()
        tree = self.state(level + 1)
        while self.token() == LEVELS[level]:
            self.take()
            tree = (LEVELS[level], tree, self.state(level + 1))
        return tree

    def unary(self):
        token = self.token()
        if token in ("!", "("):
            self.opening()
            tree = ("!", self.unary()) if token == "!" else self.state()
            if token == "(":
                self.expect(")")
            self.open -= 1
            return tree
        if token in ("P", "Pmax", "Pmin", "<<"):
            return self.formula(True)
        if token and token not in ("true", "false") and not token.startswith('"'):
            self.misplaced(token, "a name")
        self.take("a name")
        return ("label", token[1:-1]) if token.startswith('"') else (token,)


class CertifiableReader(Reader):
    """Reads formulas of which there are certificates: without `X`, a bound on the steps, and formulas inside."""

    def path(self):
        if self.token() == "X":
            self.refuse("WrongKind", "X is not read here")
        return super().path()

    def steps(self):
        if self.token() == "<=":
            self.refuse("WrongKind", "a bound on the steps is not read here")

    def formula(self, is_inside):
        if is_inside:
            self.refuse("WrongKind", "a formula inside a formula is not read here")
        return super().formula(is_inside)


def asked(text):
    """The formula of a text, of which there are certificates."""
    return CertifiableReader(text).whole()
