"""Properties of other tools: how each is rewritten or refused, what is written of a file of them, and plain names."""

import json
import unittest

from toolbox.dialects import NoSpelling, Surroundings, plain, renamed, rewritten
from toolbox.testing import EXAMPLES, SAMPLES, InFolder, call_tool, load, needs_program

DEFINED = {"bad": 'x>1 | "a"', "a": "x=7", "round": 'x=1 & "round"', "done": "(s=7) & done"}
REWARDS = {"time": "time.rewards", "": "plain.rewards"}
CHAIN = Surroundings({"N": "5", "p": "0.9", "T": "true"}, ["p0"], {"a", "s_eq_7_and_done"}, True, DEFINED, REWARDS)
GAME = Surroundings({}, ["p1", "anna"], {"a"}, False)

# a property of a Markov chain, and the formula here, marked where its True is False or its bounds are 1 less
REWRITTEN = [
    ('P=? [ F "a" ]', 'Pmax=? [ F "a" ]', ""),
    ('Pmin=? [ F "a" ]', 'Pmin=? [ F "a" ]', ""),
    ('P>=p [F"a"]', 'P>=0.9 [ F "a" ]', ""),
    ('P<1/3 [ X !"a" ]', 'P<1/3 [ X !"a" ]', ""),
    ('Pmin>=0.5 [ F "a" ]', 'P>=0.5 [ F "a" ]', ""),
    ('Pmax<0.5 [ F "a" ]', 'P<0.5 [ F "a" ]', ""),
    ('Pmax>=0.5 [ F "a" ]', '<<p0>> P>=0.5 [ F "a" ]', ""),
    ('Pmin<=0.5 [ F "a" ]', '<<p0>> P<=0.5 [ F "a" ]', ""),
    ('<<1>> P>=0.5 [ F "a" ]', '<<p1>> P>=0.5 [ F "a" ]', ""),
    ('<<1,bert>> Pmax=? [ F "a" ]', '<<p1,bert>> Pmax=? [ F "a" ]', ""),
    ('<<>> Pmax=? [ F "a" ]', '<<>> Pmax=? [ F "a" ]', ""),
    ('<<*>> Pmax=? [ F "a" ]', '<<p0>> Pmax=? [ F "a" ]', ""),
    ('<<1>> Pmax>=0.5 [ F "a" ]', '<<p1>> P>=0.5 [ F "a" ]', ""),
    ('[[1]] P>=0.5 [ F "a" ]', '<<p1>> P<0.5 [ F "a" ]', "negated"),
    ('P=? [ F<N "a" ]', 'Pmax=? [ F<=4 "a" ]', ""),
    ('P=? [ "a" U[0,N] "b" ]', 'Pmax=? [ "a" U<=5 "b" ]', ""),
    ('P>=0.9 [ G<=N "a" ]', 'P<=0.1 [ F<=5 !"a" ]', "mirrored"),
    ('P>1/3 [ G<=3 "a" ]', 'P<2/3 [ F<=3 !"a" ]', "mirrored"),
    ('P>=0.9 [ "a" W "b" ]', 'P<=0.1 [ ("a" & !"b") U (!"a" & !"b") ]', "mirrored"),
    ('Pmax=? [ "a" R "b" ]', 'Pmin=? [ !"a" U !"b" ]', "mirrored"),
    ('P=? [ G "a" ]', 'Pmax=? [ G "a" ]', ""),
    ('P>=1 [ F "a" | "b" & "c" ]', 'P>=1 [ F ("a" | ("b" & "c")) ]', ""),
    ('P>=1 [ F "a" <=> "b" ]', 'P>=1 [ F (("a" => "b") & ("b" => "a")) ]', ""),
    ('P>=1 [ F "a" ? "b" : "c" ]', 'P>=1 [ F (("a" => "b") & (!"a" => "c")) ]', ""),
    ('P>=1 [ G P>=0.5 [ F<=6 "a" ] ]', 'P>=1 [ G (P>=0.5 [ F<=6 "a" ]) ]', ""),
    ('P>=1 [ G P>=0.5 [ G<=6 "a" ] ]', 'P>=1 [ G (P<=0.5 [ F<=6 !"a" ]) ]', ""),
    ('P>=1 [ F[[1]] P>=0.5 [ F "a" ] ]', 'P>=1 [ F !(<<p1>> P<0.5 [ F "a" ]) ]', ""),
    ('A [ G "a" ]', 'P>=1 [ G "a" ]', ""),
    ('E [ F "a" ]', 'P<=0 [ F "a" ]', "negated"),
    ('filter(forall, P>=0.5 [ F "a" ], "init")', 'P>=0.5 [ F "a" ]', ""),
    ("P=? [ F bad=1 & \"bad\" ]", 'Pmax=? [ F ("bad=1" & ("x>1" | "a")) ]', ""),
    ("P>=p [ F s=7 & d!=-1 ]", 'P>=0.9 [ F ("s=7" & "d!=-1") ]', ""),
    ("P=? [ F !done ]", 'Pmax=? [ F !"done=true" ]', ""),
    ("P=? [ F s<N ]", 'Pmax=? [ F "s<5" ]', ""),
    ("P=? [ (s=7)&done U !(s=7 & done) ]", 'Pmax=? [ "s_eq_7_and_done" U !("s=7" & "done=true") ]', ""),
]

# a property of rewards, the formula here and the file
REWRITTEN_REWARDS = [
    ('R{"time"}=? [ F "a" ]', 'R{"time"}max=? [ F "a" ]', "time.rewards"),
    ('R{"time"}min=? [ F !"a" ]', 'R{"time"}min=? [ F !"a" ]', "time.rewards"),
    ('Rmin=? [ F "a" ]', 'R{"time"}min=? [ F "a" ]', "time.rewards"),
    ('R{2}>=11/3 [ F "a" ]', 'R>=11/3 [ F "a" ]', "plain.rewards"),
    ('R{"time"}max>N [ F "a" ]', '<<p0>> R{"time"}>5 [ F "a" ]', "time.rewards"),
    ('<<1>> R{2}max=? [ F "a" ]', '<<p1>> Rmax=? [ F "a" ]', "plain.rewards"),
    ('[[1]] R{2}>=2.5 [ F "a" ]', '<<p1>> R<2.5 [ F "a" ]', "plain.rewards"),
]

# a property, and a part of why it has no spelling
REFUSED = [
    ('R{"cost"}=? [ F "a" ]', 'no file of the rewards "cost"; give it by --rewards cost=FILE'),
    ('R{3}=? [ F "a" ]', "no file of the rewards 3; give it by --rewards FILE"),
    ('R=? [ F<=5 "a" ]', "rewards with a bound on the steps"),
    ('R=? [ Fc "a" ]', "Fc: rewards that are paid where no goal is reached; here they are infinite"),
    ('R=? [ F P>0 [ F "a" ] ]', "a formula inside one of rewards"),
    ('P>0 [ F R>0 [ F "a" ] ]', "rewards (R) inside a formula"),
    ('R>1e16 [ F "a" ]', "a threshold above 10^15"),
    ("Rmin=? [ C<=5 ]", "cumulative rewards (C)"),
    ('S>=0.5 [ "a" ]', "the steady state (S)"),
    ('multi(P>=0.5 [ F "a" ], P>=0.5 [ F "b" ])', "several objectives"),
    ('P=? [ F "a" || F "b" ]', "a conditional probability"),
    ('P=? [ G F "a" ]', "LTL"),
    ('P=? [ (F "a") & (G "b") ]', "'F' inside a state formula is LTL"),
    ('P=? [ F>=3 "a" ]', "from below"),
    ('P=? [ F[2,3] "a" ]', "from below"),
    ('P=? [ F=3 "a" ]', "from below"),
    ('P=? [ F<=1.5 "a" ]', "3/2 is no number of steps"),
    ('P=? [ F<0 "a" ]', "-1 is no number of steps"),
    ('P>=1.5 [ F "a" ]', "3/2 is no probability"),
    ('P>=1/0 [ F "a" ]', "1/0 is no number"),
    ('R<=T/2 [ F "a" ]', "true/2 is no number"),
    ('P>=M [ F "a" ]', "the constant M has no value; give it by --const M=.."),
    ('P>=1 [ F Pmax=? [ F "a" ] ]', "only thresholds stand there"),
    ('A [ F "a" ]', "paths of probability 0 count"),
    ('E [ G "a" ]', "paths of probability 0 count"),
    ('filter(avg, P=? [ F "a" ], "init")', "a filter 'avg': it says nothing of a single state"),
    ('filter(max, P=? [ F "a" ], "b"', "the end in place of ')'"),
    ("P=? [ F mod(x,2)=0 ]", "mod(..): functions are not read"),
    ("P=? [ F " + "(" * 3000 + '"a"' + ")" * 3000 + " ]", "too many brackets"),
    ('label done = s=7', "a label of this form (label): there is none here"),
    ("P=? [ F x+1>3 ]", "variables are compared with single values"),
    ('[[1]] Pmax=? [ F "a" ]', "[[..]] with a value"),
    ('P=? [ F "a" ', "the end in place of ']'"),
    ('P=? [ F "a" ] x', "'x' behind the formula"),
    ('P>0 [ F "a" ] & P>0 [ F "b" ]', "'&' behind the formula; ask each property by itself"),
    ('P=? [ F "a b" ]', "no token"),
    ('"a"', "a property begins with P, R, a coalition or a quantifier"),
]

# texts of files, and the line and the cause that ends the reading of all
NO_FILE = [
    ("const int N = x;\n", "line 1: 'const int N = x' is no constant with a number"),
    ("\nconst int K = 3;\n", "line 2: the constant K has a value here and another by --const"),
]


# a name and its plain one, by the rule
PLAIN = [
    (b"((s = 7) & (d = 1))", b"s_eq_7_and_d_eq_1"),
    (b"s=7&d=1", b"s_eq_7_and_d_eq_1"),
    (b"!(x <= 3) | (y != 2)", b"not_x_le_3_or_y_ne_2"),
    (b"a => b <=> c", b"a_implies_b_iff_c"),
    (b"(x < 1) & (y > 2) & (z >= 3)", b"x_lt_1_and_y_gt_2_and_z_ge_3"),
    (b"(x + y) - (2 * z) / 3", b"x_plus_y_minus_2_times_z_over_3"),
    (b"two  words", b"two_words"),
    (b"wet__floor ", b"wet_floor"),
    ("wet caf\u00e9".encode("utf-8"), b"wet_caf"),
    (b"( )", b"unnamed"),
    (b"x " * 200, b"_".join([b"x"] * 100)),
]

# names, and what they are renamed to, where names without a blank may stand
RENAMED = [
    ([b"init", b"s = 7"], [b"init", b"s_eq_7"]),
    ([b"s = 7", b"(s = 7)", b"s  = 7"], [b"s_eq_7", b"s_eq_7_2", b"s_eq_7_3"]),
    ([b"s = 7", b"s_eq_7"], [b"s_eq_7_2", b"s_eq_7"]),
    ([b"s = 7", b"(s = 7)", b"s_eq_7_2"], [b"s_eq_7", b"s_eq_7_3", b"s_eq_7_2"]),
    ([b"(s=7)"], [b"(s=7)"]),
]


class Names(unittest.TestCase):
    def test_plain(self):
        for name, wanted in PLAIN:
            with self.subTest(name):
                self.assertEqual(plain(name).rstrip(b"_"), wanted)

    def test_renamed(self):
        for names, wanted in RENAMED:
            with self.subTest(names):
                found = renamed(names, lambda name: b" " not in name)
                self.assertEqual((list(found), list(found.values())), (names, wanted))


class Dialects(unittest.TestCase):
    def test_rewritten(self):
        for text, formula, mark in REWRITTEN:
            with self.subTest(text=text):
                made, _ = rewritten(text, CHAIN)
                self.assertEqual(
                    (made.formula, made.negated, made.mirrored), (formula, mark == "negated", mark == "mirrored")
                )

    def test_rewards(self):
        for text, formula, file in REWRITTEN_REWARDS:
            with self.subTest(text=text):
                made, _ = rewritten(text, CHAIN)
                self.assertEqual((made.formula, made.rewards), (formula, file))

    def test_refused(self):
        for text, cause in REFUSED:
            with self.subTest(text=text):
                with self.assertRaises(NoSpelling) as caught:
                    rewritten(text, CHAIN)
                self.assertIn(cause, str(caught.exception))

    def test_defined_labels(self):
        """A label of the label file comes first, one of a plain name too, and none is known in its own expression."""
        for text, formula in (
            ('"done"', '"s_eq_7_and_done"'),
            ('"round"', '("x=1" & "round")'),
            ('"a"', '"a"'),
        ):
            self.assertEqual(rewritten(f"P=? [ F {text} ]", CHAIN)[0].formula, f"Pmax=? [ F {formula} ]")

    def test_states_of_filters(self):
        for states, text in (
            ("", "true"),
            (', "init"', None),
            (", s=3", '"s=3"'),
            (', "a" & "bad"', '("a" & ("x>1" | "a"))'),
        ):
            self.assertEqual(rewritten(f'filter(forall, P>=0.5 [ F "a" ]{states})', CHAIN)[0].states, text)

    def test_models_with_choices(self):
        with self.assertRaises(NoSpelling):
            rewritten('P=? [ F "a" ]', GAME)
        self.assertEqual(rewritten('Pmax>0.5 [ F "a" ]', GAME)[0].formula, '<<p1,anna>> P>0.5 [ F "a" ]')

    def test_comparisons(self):
        _, atoms = rewritten("P=? [ x<=N U done ]", CHAIN)
        self.assertEqual(
            {label: tuple(atom) for label, atom in atoms.items()},
            {"x<=5": ("x", "<=", "5"), "done=true": ("done", "=", "true")},
        )

    def test_worst(self):
        worst = load("properties").worst
        for statuses, status in (((), 0), ((0, 2), 2), ((0, 2, 1), 1), ((1, 4, 2), 4), ((8, 4), 8)):
            self.assertEqual(worst(statuses), status)


@needs_program
class Files(InFolder):
    """The game of two players, whose value is 0.65 for player 1, and the coin,
    with one half and 7/16 within 3 steps."""

    def ask(self, text, *more, model="two_players"):
        file, own = str(self.write("file.props", text)), EXAMPLES / f"{model}.own"
        words = [EXAMPLES / f"{model}.tra", EXAMPLES / f"{model}.lab", file, *(["--own", own] if own.exists() else [])]
        return call_tool("properties", *words, *more)

    def rows(self, text, *more, model="two_players"):
        """State, bounds and answer of each row, and the status."""
        status, output, _ = self.ask(text, "--csv", *more, model=model)
        return [line.split(",")[2:6] for line in output.splitlines()[1:]], status

    def test_answers(self):
        half, sixteenths = "0.500000000000000", "0.437500000000000"
        for text, row, status in (
            ('Pmax=? [ F "goal" ]\n', ["0", half, half, "Bracket"], 0),
            ('"half": P>=0.5 [ F "goal" ] // met in the limit\n', ["0", half, half, "True"], 0),
            ('P>0.5 [ F "goal" ];\n', ["0", half, half, "False"], 1),
            ('Pmax=? [ F<=3 "goal" ]\n', ["0", sixteenths, sixteenths, "Bracket"], 0),
            ('Pmax=? [ G<=3 !"goal" ]\n', ["0", "0.562500000000000", "0.562500000000000", "Bracket"], 0),
            ('P>=0.5625 [ G<=3 !"goal" ]\n', ["0", "0.562500000000000", "0.562500000000000", "True"], 0),
            ('Pmax=? [ !"goal" W false ]\n', ["0", half, half, "Bracket"], 0),
            ('P>=.5 [ F "goal" ]\n', ["0", half, half, "True"], 0),
            ('[[0]] P>=0.6 [ F "goal" ]\n', ["0", half, half, "False"], 1),
            ('E [ F "goal" ]\n', ["0", half, "1.000000000000000", "True"], 0),
        ):
            with self.subTest(text=text):
                rows, ended = self.rows(text, model="coin_loop")
                if text.startswith(("E", "[[")):
                    rows, row = [[*rows[0][:1], rows[0][-1]]], [row[0], row[-1]]
                self.assertEqual((rows, ended), ([row], status))

    def test_a_filter_with_an_unknown_label(self):
        """It is refused by its line, and the rest is answered."""
        text = 'filter(state, Pmax=? [ F "goal" ], "none")\nPmax=? [ F "goal" ]\n'
        status, output, errors = self.ask(text, "--csv", model="coin_loop")
        self.assertEqual((status, len(output.splitlines())), (4, 3))
        self.assertEqual(
            errors,
            f"properties: {self.folder / 'file.props'}: line 1: the filter: the label file has no label \"none\"\n",
        )

    def test_the_sample(self):
        """Names, comments, constants and variables; the rewards are refused by line, and the rest is answered."""
        tra, props, sta = (SAMPLES / f"named_game.{ending}" for ending in ("tra", "props", "sta"))
        lab, own = (EXAMPLES / f"two_players.{ending}" for ending in ("lab", "own"))
        words = [tra, lab, props, "--own", own, "--sta", sta, "--const", "K=1", "--json"]
        status, output, errors = call_tool("properties", *words)
        made = json.loads(output)
        cause = 'no file of the rewards "steps"; give it by --rewards steps=FILE'
        self.assertEqual((status, errors), (4, f"properties: {props}: line 7: {cause}\n"))
        self.assertEqual([one["line"] for one in made], [4, 5, 6, 7])
        self.assertEqual([one["name"] for one in made], ["reach", None, "soon", None])
        self.assertEqual([one["states"][0]["lower"] for one in made[:3]], ["0.650000000000000"] * 3)
        self.assertEqual([one["status"] for one in made], [0, 0, 0, 4])
        self.assertEqual(made[1]["formula"], '<<p1>> Pmax=? [ F ("over=true" & "turn=1") ]')
        self.assertEqual([one["by"] for one in made], ["check"] * 3 + [None])

    def test_labels_and_filters(self):
        """Labels of expressions, and a row for each state of a filter, in which `init` is where it was."""
        text = (
            'label "over" = over=true;\nfilter(forall, <<1>> P>=0.2 [ F "over" & "goal" ], turn=1)\n'
            '<<1>> Pmax=? [ F turn=1 & "over" ]\nfilter(print, <<1>> Pmax=? [ F "init" ])\n'
            'filter(state, <<1>> P>0.3 [ F "goal" ], !"over" & turn=2)\nfilter(max, P>0 [ F true ], turn=3)\n'
        )
        rows, status = self.rows(text, "--sta", SAMPLES / "named_game.sta")
        whole, none, most, least = ("1.000000000000000", "0.000000000000000", "0.650000000000000", "0.200000000000000")
        self.assertEqual(rows[:1], [["0", most, most, "True"]])
        self.assertEqual(rows[1], ["2", whole, whole, "True"])
        self.assertEqual(rows[2], ["0", most, most, "Bracket"])
        self.assertEqual(rows[3], ["0", whole, whole, "Bracket"])
        self.assertEqual(rows[4:7], [[str(state), none, none, "Bracket"] for state in (1, 2, 3)])
        self.assertEqual(rows[7], ["1", least, least, "False"])
        self.assertEqual((rows[8][3], status), ("refused", 4))

    def test_within(self):
        """One third is no multiple of a unit, so its bracket is a unit wide."""
        model = [self.write("m.tra", "3 2\n0 1 1/3\n0 2 2/3\n"), self.write("m.lab", '0="init" 1="goal"\n0: 0\n1: 1\n')]
        asked = self.write("file.props", 'P=? [ F "goal" ]\nP<1/2 [ F "goal" ]\n')
        for options, verdict, status in (
            ([], "Bracket", 0),
            (["--within", "1e-15"], "Bracket", 0),
            (["--within", "1e-16"], "Undecided", 2),
        ):
            with self.subTest(options=options):
                ended, output, _ = call_tool("properties", *model, asked, "--csv", *options)
                rows = [line.split(",") for line in output.splitlines()[1:]]
                self.assertEqual((rows[0][5], rows[1][5], ended), (verdict, "True", status))

    def test_by_others(self):
        """A bound on the steps takes no `--traps`, so `check` answers. Within one step player 1 keeps off the goal by
        passing, and reaches it by throwing."""
        throws, passes = (["0", bound, bound, "True"] for bound in ("0.650000000000000", "0.000000000000000"))
        text = '<<1>> P>=0.65 [ F "goal" ]\n<<1>> P>=0.65 [ F<=1 "goal" ]\n<<1>> P<1 [ F<=1 "goal" ]\n'
        for asker in ("traps", "solve"):
            with self.subTest(asker=asker):
                self.assertEqual(self.rows(text, "--by", asker), ([throws, throws, passes], 0))
                askers = [line.split(",")[6] for line in self.ask(text, "--csv", "--by", asker)[1].splitlines()[1:]]
                self.assertEqual(askers, {"traps": ["traps", "check", "check"], "solve": ["solve"] * 3}[asker])

    def test_refusals(self):
        for text, cause in NO_FILE:
            with self.subTest(text=text):
                name = self.folder / "file.props"
                self.assertEqual(self.ask(text, "--const", "K=2"), (4, "", f"properties: {name}: {cause}\n"))
        status, output, errors = self.ask('Pmax=? [ F "gaol" ]\nPmax=? [ F x=1 ]\n')
        self.assertEqual((status, output.count("refused")), (4, 2))
        said = [
            "line 1: refused question line 0 UnknownLabel gaol",
            "line 2: x=1 compares a variable: use a label, or name the list of states by --sta",
        ]
        self.assertEqual(errors, "".join(f"properties: {self.folder / 'file.props'}: {line}\n" for line in said))
