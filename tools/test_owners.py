"""Owner files from what PRISM and PRISM-games export."""

from toolbox.testing import SAMPLES, InFolder, call_tool, needs_program

STATES = SAMPLES / "documented_states.sta"
PLAYERS = SAMPLES / "documented_players.pla"
GAME = SAMPLES / "documented_game.tra"

PLAIN_GAME = (
    "4 6 8\n0 0 1 1 left\n0 1 2 0.5 right\n0 1 3 0.5 right\n1 0 0 1 back\n1 1 2 0.6 on\n1 1 3 0.4 on\n2 0 2 1\n"
    "3 0 3 1\n"
)

OWNERS_BY_TURN = '0="turn1" 1="turn2"\n0: 0\n1: 1\n2: 0\n3: 1\n'
OWNERS_BY_NAME = '0="anna" 1="bert"\n0: 0\n1: 1\n2: 0\n3: 1\n'
OWNERS_BY_NUMBER = '0="p1" 1="p2"\n0: 0\n1: 1\n2: 0\n3: 1\n'

# a text, options, and the owner file
MADE = [
    ("(turn,x)\n0:(1,0)\n1:(2,0)\n", ["--turn", "turn"], '0="turn1" 1="turn2"\n0: 0\n1: 1\n'),
    ("(a,up)\n0:(0,true)\n1:(0,false)\n", ["--turn", "up"], '0="uptrue" 1="upfalse"\n0: 0\n1: 1\n'),
    ("(turn)\n0:(1)\n1:(2)\n", ["--turn", "turn", "--names", "1=x,2=y"], '0="x" 1="y"\n0: 0\n1: 1\n'),
    ('1="one" 2="two"\n0: 2\n1:\n2: 1\n', [], '0="one" 1="two"\n0: 1\n1: 0\n2: 0\n'),
    ("0:1\n1:2\n\n", [], '0="p1" 1="p2"\n0: 0\n1: 1\n'),
    ("1=2\n0=1\n", [], '0="p1" 1="p2"\n0: 0\n1: 1\n'),
    ("0 anna\n1 bert\n", [], '0="anna" 1="bert"\n0: 0\n1: 1\n'),
    ("2 2 2\n0 7 0 1 1\n1 8 0 0 1 a\n", ["--column"], '0="p7" 1="p8"\n0: 0\n1: 1\n'),
]

# a sample of rows, and its transitions
ROWS = {
    "documented_link_rows.tra": "4 5 7\n0 0 2 0.1 fast\n0 0 3 0.9 fast\n0 1 1 1 safe\n1 0 2 0.05 send\n"
    "1 0 3 0.95 send\n"
    "2 0 2 1 stay\n3 0 3 1 stay\n",
    "documented_coin_rows.tra": "3 5\n0 0 0.5\n0 1 0.25\n0 2 0.25\n1 1 1\n2 2 1\n",
}

# rows, the line that is refused and the cause
REFUSED_ROWS = [
    ("1 1 1\n0 1:0 a b\n", 2, "no state with its PROBABILITY:SUCCESSOR .."),
    ("2 2 3\n0 1:0\n1 0.5:0 x 0.5:1\n", 3, "no state with its PROBABILITY:SUCCESSOR .."),
    ("2 2 2\n0 1:0\n0 go\n", 3, "no state with its PROBABILITY:SUCCESSOR .."),
    ("2 2 2\n0 1:0\n0:1 1:0\n", 3, "no state with its PROBABILITY:SUCCESSOR .."),
    ("2 2\n0 1:0\n0 1:1\n", 3, "a second row of state 0 of a chain"),
    ("2 2 3\n0 1:0\n1 1:1\n", None, "2 rows and 2 moves; the header states 2 and 3"),
    ("2 1 2\n0 1:0\n1 1:1\n", None, "2 rows and 2 moves; the header states 1 and 2"),
    ("2 3\n0 1:0\n1 1:1\n", None, "2 moves; the header states 3"),
]

# a text, options, the line that is refused and the cause
REFUSED = [
    ("(turn,x)\n0:(1,0)\n", [], None, "a list of states says who owns them only by a variable"),
    ("(turn,x)\n0:(1,0)\n", ["--turn", "y"], 1, "no variable y; the variables are turn, x"),
    ("(turn,x)\n0:(1,0)\n1:(2)\n", ["--turn", "turn"], 3, "no state with 2 values"),
    ("(turn,x)\n0:(1,0)\n0:(2,0)\n", ["--turn", "turn"], 3, "state 0 has a second owner"),
    ("(turn,x)\n0:(-1,0)\n", ["--turn", "turn"], 2, "'turn-1' can't name a player"),
    ('0="a" b\n', [], 1, "'b' is no number and name of a player"),
    ('0="a"\n0: 1\n', [], 2, "1 is no number of the header"),
    ('0="a"\nzero: 0\n', [], 2, "no state and number of a player"),
    ("0:1\n1\n", [], 2, "no state and player"),
    ("2 2 2\n0:1 0 1 1\n1 0 0 1\n", [], 3, "'1' has no player behind the state"),
    ("2 2 2\n0 0 1 1\n", ["--column"], 2, "no state, player, choice, state and probability"),
    ("hello\n", [], 1, "'hello' begins no list of states or players, and no transitions of a game"),
    ("\n", [], None, "nothing in it"),
]


class OwnerFiles(InFolder):
    def convert(self, *words):
        """What is told of the files that were not used, and what was written."""
        told = call_tool("owners", self.folder / "out", *words)[2]
        return told, self.written()

    def not_used(self, told, *words):
        """Requires that nothing is written, and that a line which begins so is told before the last one."""
        said, written = self.convert(self.write("in", words[0]), *words[1:])
        self.assertIn(f"owners: not used: {self.folder / 'in'}: {told}", said)
        self.assertEqual((said.count("\n"), list(written)), (2, ["in"]))

    def test_texts(self):
        for text, options, owners in MADE:
            with self.subTest(text):
                _, written = self.convert(self.write("in", text), *options)
                self.assertEqual(written["out.own"], owners)

    def test_samples(self):
        for sample, options, owners in (
            (STATES, ["--turn", "turn"], OWNERS_BY_TURN),
            (PLAYERS, [], OWNERS_BY_NAME),
            (GAME, [], OWNERS_BY_NUMBER),
        ):
            with self.subTest(sample.name):
                told, written = self.convert(sample, *options)
                self.assertEqual(told, "")
                self.assertEqual(written["out.own"], owners)
                self.assertEqual(written.get("out.tra"), PLAIN_GAME if sample is GAME else None)

    def test_rows(self):
        for name, transitions in ROWS.items():
            with self.subTest(name):
                self.setUp()
                told, written = self.convert(SAMPLES / name)
                self.assertEqual(
                    told, f"owners: no file says who owns the states; {self.folder}/out.tra alone is written\n"
                )
                self.assertEqual(written, {"out.tra": transitions})

    def test_rows_with_owners(self):
        told, written = self.convert(SAMPLES / "documented_link_rows.tra", PLAYERS)
        self.assertEqual(told, "")
        self.assertEqual(written, {"out.tra": ROWS["documented_link_rows.tra"], "out.own": OWNERS_BY_NAME})

    def test_transitions_twice(self):
        rows = SAMPLES / "documented_link_rows.tra"
        self.assertEqual(self.convert(GAME, rows), (f"owners: {rows}: transitions, which {GAME} has already\n", {}))

    def test_the_first_that_can_be_used(self):
        told, written = self.convert(STATES, PLAYERS)
        self.assertEqual(written["out.own"], OWNERS_BY_NAME)
        self.assertIn(f"not used: {STATES}: a list of states", told)

    def test_files_that_agree(self):
        told, written = self.convert(GAME, STATES, "--turn", "turn", "--names", "1=p1,2=p2")
        self.assertEqual(told, "")
        self.assertEqual(written["out.own"], OWNERS_BY_NUMBER)

    def test_files_that_do_not_agree(self):
        other = self.write("other", "0:1\n1:1\n")
        told, written = self.convert(GAME, other)
        self.assertEqual(told, f"owners: {other}: state 1 belongs to p1, and by {GAME} to p2\n")
        self.assertEqual(list(written), ["other"])

    def test_faults(self):
        rows = ((text, [], line, f"{cause}\n") for text, line, cause in REFUSED_ROWS)
        for text, options, line, cause in [*REFUSED, *rows]:
            with self.subTest(text):
                self.not_used(cause if line is None else f"line {line}: {cause}", text, *options)

    def test_status(self):
        name = self.write("in", "hello\n")
        status, output, errors = call_tool("owners", self.folder / "out", name)
        self.assertEqual((status, output), (4, ""))
        self.assertEqual(errors.count("\n"), 2)
        self.assertTrue(errors.endswith("no file says who owns the states; nothing is written\n"))
        status, _, errors = call_tool("owners", self.folder / "out", STATES, "--turn", "turn", "--names", "1=anna")
        self.assertEqual((status, errors), (0, ""))
        self.assertEqual(self.written()["out.own"], '0="anna" 1="turn2"\n0: 0\n1: 1\n2: 0\n3: 1\n')

    def test_the_order_of_players_is_that_of_their_values(self):
        for names in ("1=zoe,2=al", "1=al,2=zoe", "2=a"):
            call_tool("owners", self.folder / "out", STATES, "--turn", "turn", "--names", names)
            self.assertEqual(self.written()["out.own"].split("\n", 1)[1], "0: 0\n1: 1\n2: 0\n3: 1\n")

    @needs_program
    def test_the_program_reads_them(self):
        self.convert(GAME)
        labels = self.write("out.lab", '0="init" 1="goal"\n0: 0\n2: 1\n')
        words = [self.folder / "out.tra", labels, '<<p1>> Pmax=? [ F "goal" ]', "--own", self.folder / "out.own"]
        self.answered("state 0 lower 0.500000000000000 upper 0.500000000000000", *words)
