"""Readers of explicit files and formulas: what they give, and what they refuse with which line."""

from collections import Counter
from fractions import Fraction

from toolbox import explicit
from toolbox.formulas import asked, holds, sides_of
from toolbox.testing import InFolder

COIN = "3 3 5\n0 0 0 0.5\n0 0 1 0.25\n0 0 2 0.25\n1 0 1 1\n2 0 2 1\n"

PROBABILITIES = [
    (b"0.25", Fraction(1, 4)),
    (b"1.", Fraction(1)),
    (b"1E-5", Fraction(1, 10**5)),
    (b"1e-05", Fraction(1, 10**5)),
    (b"0e-50", Fraction(0)),
    (b"2/6", Fraction(1, 3)),
    (b"1e-23", Fraction(1, 10**23)),
    (b"1e-24", "finer than 10^-23"),
    (b"2.1", "above 1"),
    (b"1/0", "a denominator of 0"),
    (b"1e1000", "no probability"),
    (b"0.1234567890123456789012345678901", "too many digits"),
    (b".5", "no probability"),
    (b"+1", "no probability"),
    (b"-0.5", "no probability"),
    (b"0,5", "no probability"),
    (b"", "no probability"),
]

# a transition file, the line that is refused, and the cause
REFUSED_TRANSITIONS = [
    ("", 1, "no header"),
    ("3 x 5\n", 1, "the header is not two or three whole numbers"),
    ("0 0 0\n", 1, "0 states; 1 to 1000000 can be read"),
    (COIN.replace("0 0 1 0.25", "0 0 1"), 3, "3 fields in place of 4"),
    (COIN.replace("0 0 1 0.25", "0 0 1 0.25 a b"), 3, "6 fields in place of 4"),
    (COIN.replace("0 0 1 0.25", "0 0 -1 0.25"), 3, "'-1' is no whole number"),
    (COIN.replace("0 0 1 0.25", "0 0 1_0 0.25"), 3, "'1_0' is no whole number"),
    (COIN.replace("0 0 1 0.25", "3 0 1 0.25"), 3, "source 3 is no state"),
    (COIN.replace("0 0 1 0.25", "0 0 3 0.25"), 3, "destination 3 is no state"),
    (COIN.replace("0 0 1 0.25", "0 16384 1 0.25"), 3, "choice 16384 is above 16383"),
    (COIN.replace("0 0 1 0.25", "0 0 1 ,25"), 3, "probability ',25': no probability"),
    (COIN.replace("0 0 1 0.25", "0 0 1 0.26"), None, "state 0 choice 0: probabilities sum to 1.01"),
    (COIN.replace("0 0 1 0.25", "\n0 0 1 0.25"), 3, "a blank line before the end"),
    (COIN.replace("1 0 1 1", "1 1 1 1"), None, "state 1 has no line of choice 0"),
    (COIN.replace("3 3 5", "3 4 5"), None, "3 choices; the header states 4"),
    (COIN.replace("3 3 5", "3 3 6"), None, "5 lines; the header states 6"),
    (COIN + "2 0 1 0\n", 7, "more lines than the 5 that the header states"),
]

REFUSED_LABELS = [
    ("", 1, "no header with labels"),
    ('0="a" 1=b\n', 1, "'1=b' is no index and name of a label"),
    ('0="a" 0="b"\n', 1, "'0=\"b\"' is named a second time"),
    ('0="a"\n0 0\n', 2, "no state and colon"),
    ('0="a"\n3: 0\n', 2, "3 is no state"),
    ('0="a"\n0: 0\n1: 1\n', 3, "'1' is no index of a label of the header"),
    ('0="a"\n\n0: 0\n', 2, "a blank line before the end"),
]

FORMULAS = [
    ('Pmax=? [ F "goal" ]', (None, "Pmax", ("true",), ("label", "goal"))),
    ('P>=0.5[F"a"]', (None, ">=", ("true",), ("label", "a"))),
    ('<<p1, p2>> P<1/3 [ !"a" U "b" & "c" ]',
     (("p1", "p2"), "<", ("!", ("label", "a")), ("&", ("label", "b"), ("label", "c")))),
    ('<<>> Pmin=? [ F true ]', ((), "Pmin", ("true",), ("true",))),
    (
        'P>0 [ F "a" | "b" & !("c" => "d" => false) ]',
        (
            None,
            ">",
            ("true",),
            (
                "|",
                ("label", "a"),
                ("&", ("label", "b"), ("!", ("=>", ("=>", ("label", "c"), ("label", "d")), ("false",)))),
            ),
        ),
    ),
]

REFUSED_FORMULAS = [
    ("", "place 0: the formula ends before P or Pmax or Pmin"),
    ("Pmax=?", "place 6: the formula ends before ["),
    ('Pmax=? [ F "goal" ] x', "place 20: more behind the formula"),
    ('Pmax=? [ F<=3 "goal" ]', "place 10: a bound on the steps is not read here"),
    ('Pmax=? [ X "goal" ]', "place 9: X is not read here"),
    ('Pmax=? [ F P>0.5 [ F "a" ] ]', "place 11: a formula inside a formula is not read here"),
    ('P>=1.5 [ F "a" ]', "place 3: threshold '1.5': above 1"),
    ('P>= [ F "a" ]', "place 4: '[' in place of a number"),
    ('Pmax=? [ F "" ]', "place 11: no token of a formula"),
    ('Pmax=? [ F goal ]', "place 11: 'goal' in place of a name"),
    ("Pmax=? [ F " + "(" * 65 + "true" + ")" * 65 + " ]",
     "place 75: more than 64 brackets and negations, one in another"),
    ('P = 1 [ F "a" ]', "place 2: no token of a formula"),
]


class Transitions(InFolder):
    def read(self, text):
        return explicit.read_transitions(str(self.write("m.tra", text)))

    def choices(self, text):
        """For each state its choices, as maps from successors to probabilities."""
        model = self.read(text)
        found = []
        for state in range(model.states):
            found.append([])
            for choice in model.choices_of(state):
                weights, total = model.weights[choice]
                self.assertEqual(sum(weights), total)
                moves = Counter()
                for successor, weight in zip(model.successors(choice), weights):
                    moves[successor] += Fraction(weight, total)
                found[-1].append(dict(moves))
        return found

    def test_probabilities(self):
        for spelling, value in PROBABILITIES:
            with self.subTest(spelling):
                if isinstance(value, str):
                    with self.assertRaisesRegex(ValueError, value.replace("^", r"\^")):
                        explicit.fraction_of(spelling)
                else:
                    self.assertEqual(Fraction(*explicit.fraction_of(spelling)), value)

    def test_models(self):
        half, quarter, third = Fraction(1, 2), Fraction(1, 4), Fraction(1, 3)
        coin = [[{0: half, 1: quarter, 2: quarter}], [{1: 1}], [{2: 1}]]
        lines = COIN.splitlines(keepends=True)
        for text, choices in (
            (COIN, coin),
            (COIN.replace("\n", "\r\n") + "\n\n", coin),
            (lines[0] + "".join(reversed(lines[1:])), coin),
            ("3 5\n0 0 0.5 a\n0 1 0.25\n0 2 0.25\n1 1 1\n2 2 1\n", coin),
            ("2 1 3\n0 0 1 1/3\n0 0 1 1/3\n0 0 0 1/3\n", [[{1: 2 * third, 0: third}], [{1: 1}]]),
            ("2 1 2\n0 0 1 1\n0 0 0 0\n", [[{1: 1}], [{1: 1}]]),
        ):
            with self.subTest(text):
                self.assertEqual(self.choices(text), choices)

    def test_wide_choices(self):
        wide = self.read("1 1 2\n0 0 0 0.00000000000000000000001\n0 0 0 0.99999999999999999999999\n")
        self.assertEqual(wide.weights[0], ([1, 10**23 - 1], 10**23))

    def test_refusals(self):
        for text, line, cause in REFUSED_TRANSITIONS:
            with self.subTest(text=text, cause=cause):
                self.refused(line, cause, self.read, text)


class Labels(InFolder):
    def test_labels(self):
        name = self.write("m.lab", '0="init" 2="goal"\n0: 0 2\n2:2\n0 :\n')
        self.assertEqual(explicit.read_labels(name, 3), {b"init": b"\1\0\0", b"goal": b"\1\0\1"})

    def test_owners(self):
        name = self.write("m.own", '3="a" 0="b"\n1: 0\n2:\n1: 0 0\n')
        owners = explicit.read_owners(name, 4)
        self.assertEqual((owners.players, list(owners.owner)), ([b"a", b"b"], [0, 1, 0, 0]))

    def test_refusals(self):
        for text, line, cause in REFUSED_LABELS:
            with self.subTest(text):
                self.refused(line, cause, explicit.read_labels, self.write("m.lab", text), 3)

    def test_two_owners(self):
        name = self.write("m.own", '0="a" 1="b"\n1: 0\n1: 1\n')
        self.refused(3, "state 1 has a second owner", explicit.read_owners, name, 3)


class Formulas(InFolder):
    LABELS = {b"init": b"\1\0\0\0", b"a": b"\0\1\0\1", b"b": b"\0\0\1\1"}
    OWNERS = explicit.Owners([b"x", b"y"], bytes([0, 1, 0, 1]))

    def test_trees(self):
        for text, tree in FORMULAS:
            with self.subTest(text):
                formula = asked(text)
                self.assertEqual((formula.coalition, formula.bound, formula.left, formula.right), tree)

    def test_refusals(self):
        for text, cause in REFUSED_FORMULAS:
            with self.subTest(text):
                self.refused(None, cause, asked, text)

    def test_states(self):
        for text, states in (
            ('"a"', b"\0\1\0\1"),
            ('!"a"', b"\1\0\1\0"),
            ('"a" & "b"', b"\0\0\0\1"),
            ('"a" | "b"', b"\0\1\1\1"),
            ('"a" => "b"', b"\1\0\1\1"),
            ("true", b"\1\1\1\1"),
            ("false", b"\0\0\0\0"),
        ):
            with self.subTest(text):
                formula = asked(f"Pmax=? [ F {text} ]")
                self.assertEqual(holds(formula.right, self.LABELS, 4), states)

    def test_sides(self):
        for text, sides in (
            ("Pmax=?", b"\1\1\1\1"),
            ("Pmin=?", b"\0\0\0\0"),
            ("P>=0.5", b"\0\0\0\0"),
            ("P<0.5", b"\1\1\1\1"),
            ("<<x>> Pmax=?", b"\1\0\1\0"),
            ("<<x>> P>0.5", b"\1\0\1\0"),
            ("<<x>> P<=0.5", b"\0\1\0\1"),
            ("<<y>> Pmin=?", b"\1\0\1\0"),
            ("<<>> Pmax=?", b"\0\0\0\0"),
            ("<<x,y>> Pmax=?", b"\1\1\1\1"),
        ):
            with self.subTest(text):
                formula = asked(f'{text} [ F "a" ]')
                self.assertEqual(sides_of(formula, self.OWNERS), sides)

    def test_unknown_names(self):
        formula = asked('<<z>> Pmax=? [ F "c" ]')
        self.refused(None, 'the label file has no label "c"', holds, formula.right, self.LABELS, 4)
        self.refused(None, "there is no player z", sides_of, formula, self.OWNERS)
