"""Properties as PRISM, PRISM-games and Storm write them, rewritten as formulas of `stogame` where they have a spelling
here.

docs/INTEROP.md has the table of dialects; a function here has a row of it, or says what there is not. A property that
is rewritten by its dual has its bounds 1 less and exchanged (`mirrored`); one that is rewritten by its opposite has
True for False (`negated`). Of rewards the file is told, too.
"""

import re
from collections import namedtuple
from fractions import Fraction
from itertools import count

from toolbox.formulas import FAILS, OPPOSITES
from toolbox.model import spelt
from toolbox.rewards import spelt as spelt_reward

COMPARED = ("=", "!=", "<", "<=", ">", ">=")
PATHS = ("F", "G", "X", "U", "W", "R")
FILTERS = {"min", "max", "forall", "exists", "range", "state", "first", "print", "printall"}

TOKEN = re.compile(
    r"""\s*(?:(?P<name>"[!#-~]*")
          |(?P<number>(?:[0-9]+(?:\.[0-9]*)?|\.[0-9]+)(?:[eE][+-]?[0-9]+)?)
          |(?P<word>[A-Za-z_][A-Za-z0-9_]*)
          |(?P<sign><=>|<<|>>|<=|>=|=>|!=|=\?|\|\||[][(){}<>=!&|?:,*+/-])
          |(?P<end>\Z))""",
    re.VERBOSE | re.ASCII,
)

# signs, and their words in plain names
SIGN_WORDS = {
    "<=>": "iff",
    "=>": "implies",
    "!=": "ne",
    "<=": "le",
    ">=": "ge",
    "=": "eq",
    "<": "lt",
    ">": "gt",
    "&": "and",
    "|": "or",
    "!": "not",
    "+": "plus",
    "-": "minus",
    "*": "times",
    "/": "over",
}
# longer operators come first, since they begin with shorter ones
OPERATOR = re.compile("|".join(map(re.escape, SIGN_WORDS)))
MOST_SIGNS = 200

BOUNDS = ("P", "Pmax", "Pmin")
REWARD_BOUNDS = ("R", "Rmax", "Rmin")

NOT_HERE = {
    "S": "the steady state",
    "multi": "several objectives",
    "C": "cumulative rewards",
    "I": "instantaneous rewards",
    "label": "a label of this form",
    "formula": "an expression with a name",
}
REWARD_PATHS = {"Fc": "that are paid", "F0": "that are 0"}

Rewritten = namedtuple("Rewritten", "formula negated mirrored states rewards", defaults=[None, None])
Rewritten.__doc__ = """A formula of `stogame`; whether its True is the property's False, and its bounds 1 less the
property's; the state formula of the states that are asked, or None for the initial ones; and the file of the rewards,
or None where it is about a probability."""

Atom = namedtuple("Atom", "variable sign value")
Atom.__doc__ = "A comparison of a variable with a value, as both are written."


class NoSpelling(Exception):
    """Why a property has no spelling here."""


Surroundings = namedtuple("Surroundings", "constants players labels is_chain defined rewards", defaults=[{}, {}])
Surroundings.__doc__ = """What a property is read with: the texts of constants by name, the names of all players and
labels, whether the model is a Markov chain, the expressions of further labels by name, and the files of rewards by
name, the first one first; a structure without a name has the empty one."""


class Rewriter:
    """Rewrites a property by recursive descent. The comparisons of variables that it names are in `atoms`,
    by their label."""

    def __init__(self, text, around):
        self.around, self.atoms, self.is_paid = around, {}, False
        self.tokens = list(self.cut(text))
        self.all_tokens = list(self.tokens)

    def cut(self, text):
        place = 0
        while True:
            found = TOKEN.match(text, place)
            if not found:
                raise NoSpelling(f"place {place}: no token of a property")
            yield found.lastgroup, found[found.lastgroup]
            if found.lastgroup == "end":
                return
            place = found.end()

    def ahead(self, *texts, at=0):
        """Whether the next token is one of these; a name in quotes is none."""
        kind, text = self.tokens[min(at, len(self.tokens) - 1)]
        return kind != "name" and text in texts

    def take(self, *wanted):
        kind, text = self.tokens[0]
        if wanted and not self.ahead(*wanted):
            raise NoSpelling(f"{shown(text)} in place of '{wanted[0]}'")
        if kind != "end":
            self.tokens.pop(0)
        return text

    def whole(self):
        """The whole property."""
        made = self.filtered() if self.ahead("filter") else self.outermost()
        if self.tokens[0][0] != "end":
            one_by_one = "; ask each property by itself" if self.ahead("&", "|", "=>", "<=>") else ""
            raise NoSpelling(f"'{self.tokens[0][1]}' behind the formula{one_by_one}")
        return made

    def filtered(self):
        """A filter: there is a line for each of its states, which are all where it names none."""
        self.take("filter")
        self.take("(")
        kind = self.take()
        if kind not in FILTERS:
            raise NoSpelling(f"a filter '{kind}': it says nothing of a single state")
        self.take(",")
        made, states = self.outermost(), "true"
        if self.ahead(","):
            self.take(",")
            states = self.operand()
        self.take(")")
        return made._replace(states=None if states == '"init"' else states)

    def outermost(self):
        self.refuse_kinds()
        if not self.begins_formula():
            raise NoSpelling("a property begins with P, R, a coalition or a quantifier")
        return self.bounded(is_outermost=True)

    def refuse_kinds(self):
        kind, text = self.tokens[0]
        if kind == "word" and text in NOT_HERE:
            raise NoSpelling(f"{NOT_HERE[text]} ({text}): there is none here")

    def begins_formula(self):
        is_opposed = self.ahead("[") and self.ahead("[", at=1)
        return is_opposed or self.ahead(*BOUNDS, *REWARD_BOUNDS, "<<", "A", "E")

    # Bounds and players

    def bounded(self, is_outermost):
        """A formula with a bound, as the outermost or inside one."""
        if self.is_paid:
            raise NoSpelling("a formula inside one of rewards")
        if self.ahead("A", "E"):
            return self.quantified()
        coalition, opposed = self.coalition()
        self.refuse_kinds()
        self.is_paid = self.ahead(*REWARD_BOUNDS)
        if self.is_paid and not is_outermost:
            raise NoSpelling("rewards (R) inside a formula")
        word, name, rewards = self.rewards() if self.is_paid else (self.take(*BOUNDS), None, None)
        sign, threshold = self.bound(word, is_outermost)
        if word not in ("P", "R") and threshold is not None:
            coalition = self.some_strategy(word, sign, coalition)
        if opposed and threshold is None:
            raise NoSpelling("[[..]] with a value")
        self.take("[")
        path, dual = (self.reward_path(), False) if self.is_paid else self.path()
        self.take("]")
        if opposed:
            sign = FAILS[sign]
        bound = spelt_rewards(name, word, sign, threshold) if self.is_paid else spelt_bound(word, sign, threshold, dual)
        return Rewritten(f"{coalition}{bound} [ {path} ]", opposed, dual, rewards=rewards)

    def rewards(self):
        """The word of a bound of rewards, the name of their structure and its file."""
        word, names = self.take(*REWARD_BOUNDS), list(self.around.rewards)
        name, asked, option = names[0] if names else None, "", ""
        if word == "R" and self.ahead("{"):
            self.take("{")
            name, asked, option = self.structure(names)
            self.take("}")
            word += self.take() if self.ahead("max", "min") else ""
        if name not in names:
            raise NoSpelling(f"no file of the rewards{asked}; give it by --rewards {option}FILE")
        return word, name, self.around.rewards[name]

    def structure(self, names):
        """The name of a structure of rewards, which is told by name or by number, the first one being 1; and how the
        property and the option tell it."""
        if self.tokens[0][0] == "name":
            name = self.take().strip('"')
            return name, f' "{name}"', f"{name}="
        number = self.number()
        found = names[int(number) - 1 : int(number)] if number.denominator == 1 and number else []
        return next(iter(found), None), f" {number}", ""

    def quantified(self):
        """`A [ G a ]` and `E [ F a ]`; the others count paths of probability 0."""
        word = self.take("A", "E")
        path = "G" if word == "A" else "F"
        self.take("[")
        if not self.ahead(path):
            raise NoSpelling(f"{word} [ .. ] of another path than {path}: paths of probability 0 count for it")
        self.take(path)
        state = self.operand()
        self.take("]")
        bound = "P>=1 [ G" if word == "A" else "P<=0 [ F"
        return Rewritten(f"{bound} {state} ]", word == "E", False)

    def coalition(self):
        """The coalition as it is written here, or nothing; and whether it is the one that can't avoid."""
        if self.ahead("["):
            self.take("[")
            self.take("[")
            names = self.players("]")
            self.take("]")
            self.take("]")
            return f"<<{names}>> ", True
        if not self.ahead("<<"):
            return "", False
        self.take("<<")
        names = self.players(">>")
        self.take(">>")
        return f"<<{names}>> ", False

    def players(self, end):
        """Names of players: the number 1 is the player p1, and * all."""
        names = []
        while not self.ahead(end):
            kind, text = self.tokens.pop(0)
            if kind not in ("word", "number", "name") and text != "*":
                raise NoSpelling(f"'{text}' in place of a player")
            names += self.around.players if text == "*" else [f"p{text}" if kind == "number" else text.strip('"')]
            if not self.ahead(end):
                self.take(",")
        return ",".join(names)

    def bound(self, word, is_outermost):
        """The sign and the threshold; none where a value is asked for."""
        if self.ahead("=?"):
            self.take("=?")
            if not is_outermost:
                raise NoSpelling(f"{word}=? inside a formula: only thresholds stand there")
            if word in ("P", "R") and not self.around.is_chain:
                raise NoSpelling(f"{word}=? of a model with choices: ask for {word}max=? or {word}min=?")
            return None, None
        return self.take(">=", ">", "<=", "<"), self.number()

    def some_strategy(self, word, sign, coalition):
        """`Pmin>=p` asks it of every strategy, as `P>=p` does; `Pmax>=p` of some, which is all players' together."""
        if word.endswith("min") == (sign in (">=", ">")):
            if coalition:
                raise NoSpelling(f"a coalition with {word}{sign}")
            return coalition
        return coalition or f"<<{','.join(self.around.players)}>> "

    def number(self):
        """A number, a constant or a fraction of whole numbers, exactly."""
        spelling = self.constant()
        if self.ahead("/"):
            spelling += self.take("/") + self.constant()
        try:
            value, *divisor = map(Fraction, spelling.split("/"))
            return value / divisor[0] if divisor else value
        except (ValueError, ZeroDivisionError):
            raise NoSpelling(f"{spelling} is no number") from None

    def constant(self):
        """The digits of a number or of a constant."""
        kind, text = self.tokens[0]
        if kind not in ("number", "word"):
            raise NoSpelling(f"{shown(text)} in place of a number or constant")
        self.tokens.pop(0)
        if kind == "number":
            return text
        if text not in self.around.constants:
            raise NoSpelling(f"the constant {text} has no value; give it by --const {text}=..")
        return self.around.constants[text]

    # Paths

    def path(self):
        """A path as it is written here, and whether it is the one that is avoided."""
        if self.ahead("F", "G", "X"):
            return self.unary_path(self.take())
        left = self.operand()
        if not self.ahead("U", "W", "R"):
            self.refuse_formula_of_paths()
        word = self.take("U", "W", "R")
        steps = self.steps()
        right = self.operand()
        if word == "U":
            return f"{left} U{steps} {right}", False
        if steps:
            raise NoSpelling(f"{word} with a bound on the steps")
        if word == "W":
            return f"({left} & !{right}) U (!{left} & !{right})", True
        return f"!{left} U !{right}", True

    def unary_path(self, word):
        steps = self.steps() if word != "X" else ""
        if self.ahead("F", "G", "X"):
            raise NoSpelling(f"{word} {self.take()} ..: a path inside a path is LTL")
        state = self.operand()
        self.refuse_formula_of_paths()
        return (f"F{steps} !{state}", True) if word == "G" and steps else (f"{word}{steps} {state}", False)

    def reward_path(self):
        """Up to where rewards are paid."""
        self.refuse_kinds()
        if self.ahead(*REWARD_PATHS):
            word = self.take()
            raise NoSpelling(f"{word}: rewards {REWARD_PATHS[word]} where no goal is reached; here they are infinite")
        self.take("F")
        if self.steps():
            raise NoSpelling("rewards with a bound on the steps")
        return self.unary_path("F")[0]

    def refuse_formula_of_paths(self):
        if self.ahead("||"):
            raise NoSpelling("a conditional probability")
        if self.ahead(*PATHS):
            raise NoSpelling(f"'{self.take()}': a path inside a path is LTL")

    def steps(self):
        """A bound on the steps."""
        if self.ahead("[") and not self.ahead("[", at=1):
            self.take("[")
            if Fraction(self.constant()) != 0:
                raise NoSpelling("a bound on the steps from below")
            self.take(",")
            steps = self.number()
            self.take("]")
        elif self.ahead("<=", "<"):
            steps = self.number() if self.take() == "<=" else self.number() - 1
        elif self.ahead(">=", ">", "=", "{"):
            raise NoSpelling("a bound on the steps from below, or on rewards")
        else:
            return ""
        if steps < 0 or steps.denominator != 1:
            raise NoSpelling(f"{steps} is no number of steps")
        return f"<={steps}"

    # State formulas; each gives a text that binds as tightly as a label

    def operand(self):
        """A state formula of a path; over variables it is the label of its plain name, where there is one."""
        start, atoms = len(self.tokens), dict(self.atoms)
        state = self.state()
        label = plain(" ".join(text for _, text in self.all_tokens[-start : -len(self.tokens)]).encode()).decode()
        if self.atoms == atoms or label not in self.around.labels:
            return state
        self.atoms = atoms
        return f'"{label}"'

    def state(self):
        """`c ? a : b`, which binds weakest."""
        condition = self.chained("=>", lambda: self.equal_sides())
        if not self.ahead("?"):
            return condition
        self.take("?")
        yes = self.state()
        self.take(":")
        return f"(({condition} => {yes}) & (!{condition} => {self.state()}))"

    def chained(self, sign, operand):
        """Operands with one sign between them, to the left."""
        held = operand()
        while self.ahead(sign):
            self.take(sign)
            held = f"({held} {sign} {operand()})"
        return held

    def equal_sides(self):
        held = self.either()
        while self.ahead("<=>"):
            self.take("<=>")
            other = self.either()
            held = f"(({held} => {other}) & ({other} => {held}))"
        return held

    def either(self):
        return self.chained("|", lambda: self.chained("&", self.unary))

    def unary(self):
        kind, text = self.tokens[0]
        if self.ahead("!"):
            self.take("!")
            return f"!{self.unary()}"
        self.refuse_kinds()
        if self.begins_formula():
            made = self.bounded(is_outermost=False)
            return f"!({made.formula})" if made.negated else f"({made.formula})"
        if self.ahead("("):
            self.take("(")
            held = self.state()
            self.take(")")
            return held
        if kind == "name" and text.strip('"') in set(self.around.defined) - self.around.labels:
            return self.defined(self.take().strip('"'))
        if kind == "name" or text in ("true", "false"):
            return self.take()
        return self.comparison()

    def defined(self, label):
        """The expression of a label, in which the label itself is not known."""
        others = {name: text for name, text in self.around.defined.items() if name != label}
        inner = Rewriter(self.around.defined[label], self.around._replace(defined=others))
        inner.is_paid = self.is_paid
        state = inner.operand()
        if inner.tokens[0][0] != "end":
            raise NoSpelling(f"'{inner.tokens[0][1]}' behind the expression of the label \"{label}\"")
        self.atoms.update(inner.atoms)
        return state

    def comparison(self):
        """A variable compared with a value, or one that is true: a label of its own."""
        kind, text = self.tokens.pop(0)
        if text in PATHS:
            raise NoSpelling(f"'{text}' inside a state formula is LTL")
        if kind != "word":
            raise NoSpelling(f"{shown(text)} in place of a state formula")
        if self.ahead("("):
            raise NoSpelling(f"{text}(..): functions are not read")
        atom = Atom(text, "=", "true")
        if self.ahead(*COMPARED):
            atom = Atom(text, self.take(), self.value())
        if self.ahead("+", "-", "*", "/"):
            raise NoSpelling(f"{text} {self.take()} ..: variables are compared with single values")
        label = "".join(atom)
        self.atoms[label] = atom
        return f'"{label}"'

    def value(self):
        sign = self.take("-") if self.ahead("-") else ""
        kind, text = self.tokens.pop(0)
        if kind not in ("word", "number"):
            raise NoSpelling(f"{shown(text)} in place of a value")
        return sign + self.around.constants.get(text, text)


def shown(token):
    return f"'{token}'" if token else "the end"


def spelt_bound(word, sign, threshold, dual):
    """The bound as it is written here; that of the dual where a path is the one that is avoided."""
    if threshold is None:
        most = word != "Pmin"
        return "Pmax=?" if most != dual else "Pmin=?"
    if not 0 <= threshold <= 1:
        raise NoSpelling(f"{threshold} is no probability")
    return f"P{OPPOSITES[sign]}{spelt(1 - threshold)}" if dual else f"P{sign}{spelt(threshold)}"


def spelt_rewards(name, word, sign, threshold):
    """The bound of rewards as it is written here."""
    named = f'{{"{name}"}}' if name else ""
    if threshold is None:
        return f"R{named}{'min' if word.endswith('min') else 'max'}=?"
    try:
        return f"R{named}{sign}{spelt_reward(threshold)}"
    except ValueError as fault:
        raise NoSpelling(f"a threshold {fault}") from None


def rewritten(text, around):
    """A property as it is written here, and the comparisons that are its labels; NoSpelling says why there is none."""
    rewriter = Rewriter(text, around)
    try:
        return rewriter.whole(), rewriter.atoms
    except RecursionError:
        raise NoSpelling("too many brackets, one in another") from None


# Plain names


def plain(name):
    """The plain name of a name that a file has no room for, as that of an expression: `s_eq_7_and_d_eq_1` for
    `((s = 7) & (d = 1))`.

    The rule: each operator is a word; whatever is neither a letter nor a digit parts words, and words are joined by
    `_`.
    """
    text = OPERATOR.sub(lambda sign: f" {SIGN_WORDS[sign[0]]} ", name.decode("ascii", "replace"))
    words = re.findall("[A-Za-z0-9]+", text)
    return "_".join(words)[:MOST_SIGNS].encode("ascii") or b"unnamed"


def renamed(names, may_stand):
    """A map from each name, in their order, to itself where it may stand, and else to a plain name that no other one
    has: where the name is taken, `_2`, `_3` and so on follow it."""
    new = {name: name for name in names if may_stand(name)}
    taken = set(new)
    for name in names:
        if name not in new:
            new[name] = free_name(plain(name), taken)
            taken.add(new[name])
    return {name: new[name] for name in names}


def free_name(name, taken):
    """The name, or the first of its numbered ones that is not taken."""
    numbered = (b"%s_%d" % (name, number) for number in count(2))
    return name if name not in taken else next(other for other in numbered if other not in taken)
