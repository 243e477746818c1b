"""Tables and strategies of certificates are read back and compared with the certificate; strategies of one's own are
valued."""

import csv
import io
import json
import re
import sys
from fractions import Fraction
from pathlib import Path

from toolbox import explicit
from toolbox.exact import determinacy
from toolbox.strategies import read_choice_names, read_strategy
from toolbox.testing import CERTIFICATE, FORMULA, GAME, SAMPLES, TOOLS, InFolder, call_tool, certified_models
from toolbox.testing import needs_program, program, run, run_tool

from answers import read_files

SCHEMA = TOOLS.parent / "docs" / "table.schema.json"
NAMED = [str(SAMPLES / f"named_game.{ending}") for ending in ("tra", "sta")]
SAID = f'formula <<p1>> P>=3/5 [ F "goal" ]\n{CERTIFICATE}'

TABLE = """state,turn,over,owner,labels,lower,upper,mover,choice,action,rank
0,1,false,p1,init,0.650000000000000,0.650000000000000,maximiser,1,throw,1
1,2,false,p2,,0.200000000000000,0.200000000000000,minimiser,1,right,1
2,1,true,p1,goal,1.000000000000000,1.000000000000000,maximiser,,,0
3,2,true,p1,,0.000000000000000,0.000000000000000,maximiser,,,0
"""

# These are the commands, each with the number of words that it takes.
COMMANDS = {
    "table": 1, "strategy": 1, "guarantee": 3, "properties": 3, "dossier": 3, "reaudit": 4,
    "respell": 1, "owners": 2, "from_drn": 2, "measure": 0, "refuse_memory": 0,
}

# Each row has options behind the certificate, and what they write about the strategy.
WRITTEN = [
    (["--side", "maximiser", "--prism-actions"], "0:throw\n2:0\n3:0\n"),
    (["--side", "minimiser", "--prism-actions"], "1:right\n"),
    (["--side", "maximiser", "--prism-actions", "--sta", NAMED[1]], "(1,false):throw\n(1,true):0\n(2,true):0\n"),
    (["--side", "minimiser", "--storm-json"],
     '[\n    {"c": [{"index": 3, "prob": 1, "labels": ["right"]}], "s": 1}\n]\n'),
    (["--side", "minimiser", "--storm-json", "--sta", NAMED[1]],
     '[\n    {"c": [{"index": 3, "prob": 1, "labels": ["right"]}], "s": {"turn": 2, "over": false}}\n]\n'),
]

# Each row has a side, and the transitions of the game that are left.
INDUCED = [
    ("maximiser",
     "4 5 8\n0 0 2 0.65 throw\n0 0 3 0.35 throw\n1 0 2 0.5 left\n1 0 3 0.5 left\n1 1 2 0.2 right\n1 1 3 0.8 right\n"
     "2 0 2 1\n3 0 3 1\n"),
    ("minimiser",
     "4 5 7\n0 0 1 1 pass\n0 1 2 0.65 throw\n0 1 3 0.35 throw\n1 0 2 0.2 right\n1 0 3 0.8 right\n2 0 2 1\n3 0 3 1\n"),
]

# Each row has a tool, the text of a certificate, further words, and the one line that the tool writes.
REFUSED = [
    ("table", "nothing\n", [], "no line begins with 'certificate' or 'rewards'"),
    ("table", "certificate 3 4\n", [], "line 1: 'certificate 3 4' is no 'certificate 2 N' and no 'certificate 1 N'"),
    ("table", SAID.replace("\n3 0", "\n4 0"), [],
     "line 6: no line of state 3: number, lower bound, choice, rank, upper bound, reply"),
    ("table", SAID.replace("0.650000000000000 1 1", "0.65 1 1"), [],
     "line 3: no line of state 0: number, lower bound, choice, rank, upper bound, reply"),
    ("table", SAID.replace("650000000000000 1 1", "650000000000000 16384 1"), [],
     "line 3: a number of state 0 is above its limit"),
    ("table", SAID.replace(" 1 1 0.65", " 1 " + "9" * 5000 + " 0.65"), [],
     "line 3: a number of state 0 is above its limit"),
    ("table", SAID + "4\n", [], "line 7: more behind the line of the last state, 3"),
    ("table", "\n".join(SAID.split("\n")[:4]), [], "lines of 2 states; the first line states 4"),
    ("table", SAID.replace(" 1 1 0.65", " 2 1 0.65"), ["--tra", NAMED[0]],
     "line 3: state 0 has 2 choices, counted from 0, and no choice 2"),
    ("table", SAID.replace("000 1\n", "000 2\n"), ["--tra", NAMED[0]],
     "line 4: state 1 has 2 choices, counted from 0, and no choice 2"),
    ("strategy", SAID, ["--tra", NAMED[0], "--own", GAME[2], "--prism-actions"],
     "both sides move; --side maximiser or --side minimiser says whose choices are meant"),
    ("strategy", SAID.replace("certificate 2 4", "certificate 2 3"), ["--tra", NAMED[0], "--prism-actions"],
     "line 6: more behind the line of the last state, 2"),
]

# These lines are said about a strategy of either side.
MOST = "state 0 maximiser guarantees at least {0} and no more than {0} audited {1}\n"
LEAST = "state 0 minimiser guarantees at most {0} and no less than {0} audited {1}\n"

# Each row has a strategy, the status, and what is said about it.
GUARANTEED = [
    ("0:throw\n", 0, MOST.format("0.650000000000000", "True")),
    ("0=1\n", 0, MOST.format("0.650000000000000", "True")),
    ("0 pass\n", 1, MOST.format("0.200000000000000", "False")),
    ("(1,false):pass\n", 1, MOST.format("0.200000000000000", "False")),
    ("1:left\n", 0, LEAST.format("0.650000000000000", "True")),
    ('[{"s": 0, "c": [{"index": 0, "prob": 1}]}]', 1, MOST.format("0.200000000000000", "False")),
]

# Each row has a strategy that is refused, and why.
NO_STRATEGY = [
    ("0:2\n", "line 1: state 0 has 2 choices, counted from 0, and no choice 2"),
    ("0:jump\n", "line 1: state 0 has no choice of the name jump"),
    ("0:throw\n0:throw\n", "line 2: state 0 stands a second time"),
    ("7:0\n", "line 1: 7 is no state"),
    ("0:throw\n1:left\n", "line 2: state 1 is of another side than state 0; a strategy is of one side"),
    ("3:0\n", "state 0 is reached, has 2 choices, and is not named"),
    ("(9,9):0\n", "line 1: no state has the values (9,9); --sta names the list of states"),
    ("throw\n", "line 1: no state and choice"),
    ("\n", "no state is named"),
    ("[{]", "line 1: no JSON: Expecting property name enclosed in double quotes"),
    ('[{"s": 0, "c": [{"index": 0, "prob": 0.5}, {"index": 1, "prob": 0.5}]}]', "object 1: no state with one choice"),
]


def fits(schema, value):
    """Says whether a value fits a schema, which may be of the few kinds that the table's has."""
    kinds = {"object": dict, "array": list, "string": str, "integer": int, "boolean": bool, "null": type(None)}
    kind = schema.get("type", [])
    if not any(isinstance(value, kinds[one]) for one in ([kind] if isinstance(kind, str) else kind)):
        return "enum" in schema and value in schema["enum"]
    if isinstance(value, dict):
        known, other = schema.get("properties", {}), schema.get("additionalProperties", False)
        if not set(schema.get("required", ())) <= set(value):
            return False
        return all(
            fits(known.get(name) or other, one) if name in known or other else False for name, one in value.items()
        )
    if isinstance(value, list):
        return all(fits(schema["items"], one) for one in value)
    return "pattern" not in schema or re.search(schema["pattern"], value) is not None


class Small(InFolder):
    """The game of two players, with names of actions and variables."""

    def setUp(self):
        super().setUp()
        self.cert = str(self.write("cert", SAID))

    def test_table_as_csv(self):
        words = ["--tra", NAMED[0], "--sta", NAMED[1], "--lab", GAME[1], "--own", GAME[2]]
        self.assertEqual(call_tool("table", self.cert, *words, "--csv"), (0, TABLE, ""))
        plain = call_tool("table", self.cert, *words)[1].splitlines()
        self.assertEqual(
            [line.split() for line in plain],
            [
                [field or "-" for field in line.split(",")]
                for line in TABLE.replace("turn,over", "(turn),(over)").splitlines()
            ],
        )

    def test_variables_with_names_of_columns(self):
        sta = self.write("m.sta", "(lower)\n0:(1)\n1:(2)\n2:(3)\n3:(4)\n")
        self.assertTrue(call_tool("table", self.cert, "--sta", sta, "--csv")[1].startswith("state,lower_,lower,"))

    def test_table_of_a_certificate_alone(self):
        text = call_tool("table", self.cert, "--csv")[1]
        self.assertEqual(
            text.splitlines()[:2],
            ["state,lower,upper,mover,choice,rank", "0,0.650000000000000,0.650000000000000,maximiser,1,1"],
        )

    def test_who_moves_has_to_be_known(self):
        text = "certificate 2 1\n0 0.000000000000000 0 0 1.000000000000000 0\n"
        cert, tra, lab = str(self.write("both", text)), self.write("m.tra", "1 1 1\n0 0 0 1\n"), None
        status, output, errors = call_tool("table", cert)
        self.assertEqual((status, output), (4, ""))
        self.assertEqual(
            errors,
            f"table: {cert}: line 2: state 0 has a choice and a reply, so it takes --formula, and --own of a game, to "
            "say who moves\n",
        )
        self.assertIn("maximiser", call_tool("table", cert, "--formula", 'Pmax=? [ F "a" ]')[1])
        self.assertIn("minimiser", call_tool("table", cert, "--formula", 'Pmin=? [ G "a" ]')[1])

    def test_of_always(self):
        """A certificate of `G` is of its dual. Of the dual it is shown as it is, without double negations; of the `G`
        of a dossier, or of --formula, its bounds are 1 less and its sides exchanged, which is told."""
        tra = self.write("m.tra", "3 4 6\n0 0 0 1\n0 1 0 0.5\n0 1 1 0.5\n1 0 1 1\n2 0 0 0.25\n2 0 1 0.75\n")
        entries = (
            "certificate 2 3\n0 0.000000000000000 - 0 0.000000000000000 0\n"
            "1 1.000000000000000 - 0 1.000000000000000 -\n2 0.500000000000000 - 1 0.750000000000000 0\n"
        )
        dual, asked = 'formula Pmin=? [ F !!"bad" ]\n', 'formula Pmax=? [ G !"bad" ]\n'
        for head, words, formula, bounds, mover in (
            (dual, [], 'Pmin=? [ F "bad" ]', ["0.500000000000000", "0.750000000000000"], "minimiser"),
            (asked, [], 'Pmax=? [ G !"bad" ]', ["0.250000000000000", "0.500000000000000"], "maximiser"),
            (dual, ["--formula", 'Pmax=? [ G !"bad" ]'], 'Pmax=? [ G !"bad" ]',
             ["0.250000000000000", "0.500000000000000"], "maximiser"),
        ):
            with self.subTest(head=head, words=words):
                cert, mirrored = str(self.write("always", head + entries)), mover == "maximiser"
                status, output, errors = call_tool("table", cert, "--tra", tra, *words, "--json")
                made = json.loads(output)
                self.assertEqual((status, made["formula"], made["mirrored"]), (0, formula, mirrored))
                self.assertTrue(fits(json.loads(SCHEMA.read_text()), made))
                row = made["states"][2]
                self.assertEqual([row["lower"], row["upper"], row["mover"], row["choice"]], [*bounds, mover, 0])
                said = f"table: {cert}: the certificate is of the dual of {formula}; " if mirrored else ""
                self.assertTrue(errors.startswith(said) and errors.count("\n") == mirrored, errors)
                for form in ([], ["--csv"]):
                    self.assertIn(bounds[0], call_tool("table", cert, "--tra", tra, *words, *form)[1].splitlines()[3])
                for side in ("maximiser", "minimiser"):
                    words_of_side = ["--tra", tra, "--side", side, "--prism-actions", *words]
                    status, output, errors = call_tool("strategy", cert, *words_of_side)
                    self.assertEqual((status, output), (0, "0:0\n1:0\n2:0\n" if side == mover else ""))
                    self.assertTrue(errors.startswith(said.replace("table", "strategy")), errors)

    def test_written_strategies(self):
        for options, text in WRITTEN:
            with self.subTest(options=options):
                self.assertEqual(
                    call_tool("strategy", self.cert, "--tra", NAMED[0], "--own", GAME[2], *options), (0, text, "")
                )

    def test_induced_models(self):
        for side, text in INDUCED:
            with self.subTest(side=side):
                out = str(self.folder / side)
                words = ["--tra", NAMED[0], "--lab", GAME[1], "--own", GAME[2], "--side", side, "--induced", out]
                self.assertEqual(call_tool("strategy", self.cert, *words)[1], f"{out}.tra\n{out}.lab\n{out}.own\n")
                written = self.written()
                self.assertEqual(written[f"{side}.tra"], text)
                self.assertEqual(
                    [written[f"{side}.{ending}"] for ending in ("lab", "own")],
                    [Path(name).read_text() for name in GAME[1:]],
                )

    def test_the_model_is_not_written_over(self):
        tra, lab = self.write("m.tra", "1 1 1\n0 0 0 1\n"), self.write("m.lab", '0="init"\n0: 0\n')
        cert = self.write("one", "certificate 2 1\n0 0.000000000000000 - 0 0.000000000000000 -\n")
        status, _, errors = call_tool("strategy", cert, "--tra", tra, "--lab", lab, "--induced", self.folder / "m")
        self.assertEqual(
            (status, errors), (4, f"strategy: {self.folder / 'm'}: this would write over a file of the model\n")
        )

    def test_refusals(self):
        for tool, text, words, cause in REFUSED:
            with self.subTest(cause=cause):
                cert = str(self.write("changed", text))
                status, output, errors = call_tool(tool, cert, *words)
                self.assertEqual((status, output, errors), (4, "", f"{tool}: {cert}: {cause}\n"))

    def test_a_second_action_is_refused(self):
        tra = str(self.write("m.tra", Path(NAMED[0]).read_text().replace("0 1 3 0.35 throw", "0 1 3 0.35 jump")))
        status, _, errors = call_tool("table", self.cert, "--tra", tra)
        self.assertEqual((status, errors), (4, f"table: {tra}: line 4: state 0 choice 1 has a second action, 'jump'\n"))

    def test_lists_of_states(self):
        for text, cause in (
            ("turn\n", "line 1: no names of variables in brackets"),
            ("(turn)\n0:(1)\n1:(1,2)\n", "line 3: no state with 1 values"),
            ("(turn)\n0:(1)\n0:(1)\n", "line 3: state 0 stands a second time"),
            ("(turn)\n4:(1)\n", "line 2: 4 is no state"),
            ("(turn)\n0:(1)\n2:(1)\n3:(1)\n", "no values of state 1"),
        ):
            with self.subTest(text=text):
                name = str(self.write("m.sta", text))
                self.assertEqual(call_tool("table", self.cert, "--sta", name)[2], f"table: {name}: {cause}\n")

    def test_help_and_closed_pipes(self):
        for tool in COMMANDS:
            with self.subTest(tool=tool):
                status, output, errors = run_tool(tool, "--help")
                self.assertEqual((status, errors), (0, ""))
                self.assertIn(f"\n    {tool} ", output)
                said = f"{tool}: unrecognized arguments: --other; {tool} --help says more\n"
                status, output, errors = run_tool(tool, *["x"] * COMMANDS[tool], "--other")
                self.assertEqual((status, output), (3, ""))
                self.assertTrue(errors == said or "are required" in errors, errors)
        self.write(
            "long",
            "certificate 2 20000\n" + "".join(
                f"{state} 0.000000000000000 - 0 0.000000000000000 -\n" for state in range(20000)
            ),
        )
        ended = run("bash", "-c", f"{sys.executable} {TOOLS / 'table'} {self.folder / 'long'} --csv | head -n 1")
        self.assertEqual(
            ended[1:], ("state,lower,upper,mover,choice,rank\n", "table: cannot write the output: broken pipe\n")
        )
        for output, cause in ((">/dev/full", "no storage space"), (">&-", "bad file descriptor")):
            ended = run("bash", "-c", f"{sys.executable} {TOOLS / 'table'} {self.cert} {output}")
            self.assertEqual(ended, (6, "", f"table: cannot write the output: {cause}\n"))


@needs_program
class Guarantees(InFolder):
    """What strategies for the game of two players guarantee: 0.65 by throwing, else what the other player leaves."""

    def ask(self, text, *more):
        words = [NAMED[0], GAME[1], FORMULA, "--own", GAME[2], "--sta", NAMED[1]]
        return call_tool("guarantee", *words, "--strategy", self.write("mine", text), *more)

    def test_rows(self):
        for text, status, line in GUARANTEED:
            with self.subTest(text=text):
                self.assertEqual(self.ask(text), (status, line, ""))

    def test_by_check_and_with_files(self):
        out = str(self.folder / "out")
        self.assertEqual(self.ask(GUARANTEED[0][0], "--by", "check", "--out", out), (0, GUARANTEED[0][2], ""))
        self.assertEqual(sorted(self.written()), ["mine", "out.cert", "out.lab", "out.own", "out.tra"])
        words = [f"{out}.tra", f"{out}.lab", FORMULA, f"{out}.cert", "--own", f"{out}.own"]
        self.assertEqual(run(program(), "audit", *words)[0], 0)

    def test_what_is_never_reached_need_not_be_named(self):
        """One player at state 0, where it leaves for the goal or for state 1, in which it would have a choice."""
        tra = self.write("m.tra", "4 5 6\n0 0 2 1\n0 1 1 1\n1 0 2 0.5\n1 0 3 0.5\n1 1 3 1\n2 0 2 1\n")
        lab = self.write("m.lab", '0="init" 1="goal"\n0: 0\n2: 1\n')
        words, name = [tra, lab, 'Pmax=? [ F "goal" ]', "--strategy"], self.folder / "mine"
        for text, value in (("0:0\n", "1.000000000000000"), ("0:1\n1:0\n", "0.500000000000000")):
            done = call_tool("guarantee", *words, self.write("mine", text))
            self.assertEqual(done, (0, MOST.format(value, "Bracket"), ""))
        errors = call_tool("guarantee", *words, self.write("mine", "0:1\n"))[2]
        self.assertEqual(errors, f"guarantee: {name}: state 1 is reached, has 2 choices, and is not named\n")

    def test_always(self):
        """Of G the side that wants it is the maximiser; the goals of the dual are where it fails."""
        tra = self.write("m.tra", "2 3 4\n0 0 0 1\n0 1 0 0.5\n0 1 1 0.5\n1 0 1 1\n")
        lab = self.write("m.lab", '0="init" 1="bad"\n0: 0\n1: 1\n')
        for text, value in (("0:0\n", "1.000000000000000"), ("0:1\n", "0.000000000000000")):
            words = [tra, lab, 'Pmax=? [ G !"bad" ]', "--strategy", self.write("mine", text)]
            self.assertEqual(call_tool("guarantee", *words), (0, MOST.format(value, "Bracket"), ""))

    def test_refusals(self):
        for text, cause in NO_STRATEGY:
            with self.subTest(text=text):
                self.assertEqual(self.ask(text), (4, "", f"guarantee: {self.folder / 'mine'}: {cause}\n"))


@needs_program
class OfTheGallery(InFolder):
    """Each small model: tables and strategies are read back, and the induced models have values within the bounds."""

    def test_tables(self):
        schema = json.loads(SCHEMA.read_text())
        for one in certified_models():
            with self.subTest(model=one.name):
                cert = self.write("cert", one.text)
                rows = list(csv.DictReader(io.StringIO(call_tool("table", cert, *one.files(), "--csv")[1])))
                made = json.loads(call_tool("table", cert, *one.files(), "--json")[1])
                self.assertTrue(fits(schema, made))
                self.assertEqual(made["formula"], one.formula)
                self.assertEqual([as_csv(row) for row in made["states"]], rows)
                self.assertEqual([entry_of(row) for row in rows], one.entries)
                for label, states in one.model.labels.items():
                    self.assertEqual(
                        [state for state, row in enumerate(rows) if label in row["labels"].split()], sorted(states)
                    )
                owners = [one.model.players[owner] for owner in one.model.owners]
                self.assertEqual([row["owner"] for row in rows if "owner" in row], owners)

    def test_strategies(self):
        for one in certified_models():
            for side, wanted in strategies_of(one).items():
                with self.subTest(model=one.name, side=side):
                    cert, words = self.write("cert", one.text), [*one.files(), "--side", side]
                    actions = call_tool("strategy", cert, *words, "--prism-actions")[1]
                    scheduler = call_tool("strategy", cert, *words, "--storm-json")[1]
                    self.assertEqual([tuple(map(int, line.split(":"))) for line in actions.splitlines()], wanted)
                    model = explicit.read_transitions(one.words[0])
                    choices = [(row["s"], row["c"][0]["index"]) for row in json.loads(scheduler)]
                    self.assertEqual([(state, index - model.choice_start[state]) for state, index in choices], wanted)
                    names = read_choice_names(one.words[0], model)
                    for text in (actions, scheduler):
                        found = read_strategy(str(self.write("mine", text)), names)
                        self.assertEqual([(state, number) for state, (number, _) in sorted(found.items())], wanted)

    def test_induced_models(self):
        for one in certified_models():
            for side in strategies_of(one):
                with self.subTest(model=one.name, side=side):
                    out = str(self.folder / "induced")
                    call_tool("strategy", self.write("cert", one.text), *one.files(), "--side", side, "--induced", out)
                    words = [f"{out}.tra", f"{out}.lab", one.words[2]] + (
                        ["--own", f"{out}.own"] if len(one.words) > 3 else []
                    )
                    _, output, _ = run(program(), "check", *words, "--workers", "1", "--rounds", "300")
                    self.within(one, output)
                    if one.states() <= 60:
                        self.exactly_within(one, [*words[:2], *words[4:]])

    def within(self, one, output):
        """The printed bracket of the initial state has a number in common with the certificate's."""
        fields = output.split()
        lower, upper = (Fraction(one.entries[0][place]) for place in (1, 4))
        self.assertTrue(Fraction(fields[3]) <= upper and lower <= Fraction(fields[5]), output)

    def exactly_within(self, one, names):
        """The exact values of the induced model of these files lie between the bounds at every state."""
        values = determinacy(read_files(*(Path(name).read_text() for name in names)).plain(), one.question)
        for state, value in enumerate(values):
            lower, upper = (Fraction(one.entries[state][place]) for place in (1, 4))
            self.assertTrue(lower <= value <= upper, (state, value))


def as_csv(row):
    """Returns a row of the JSON as CSV has it."""
    return {
        name: " ".join(value) if isinstance(value, list) else "" if value is None else str(value)
        for name, value in row.items()
    }


def entry_of(row):
    """Returns the fields of the line of a certificate from which a row of the table was made."""
    move = row["choice"] or "-"
    choice, reply = ("-", move) if row["mover"] == "minimiser" else (move, "-")
    return [row["state"], row["lower"], choice, row["rank"], row["upper"], reply]


def strategies_of(one):
    """The states of each side with the choices of a certificate, the first where none is named;
    of the sides that move."""
    sides = {"maximiser": [], "minimiser": []}
    players = [one.model.players[owner] for owner in one.model.owners] or ["p0"] * one.states()
    for state, (player, entry) in enumerate(zip(players, one.entries)):
        maximises = one.question.maximises(player)
        named = entry[2 if maximises else 5]
        sides["maximiser" if maximises else "minimiser"].append((state, 0 if named == "-" else int(named)))
    return {side: pairs for side, pairs in sides.items() if pairs}
