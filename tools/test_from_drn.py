"""Models of Storm's explicit format, turned into PRISM's explicit files."""

import gzip

from toolbox.testing import SAMPLES, InFolder, call_tool, needs_program, run_tool

DIE = {
    "out.tra": "7 11\n0 1 0.5\n0 2 0.5\n1 0 0.5\n1 3 1/2\n2 4 0.25\n2 5 2.5e-1\n2 6 0.5\n3 3 1\n4 4 1\n5 5 1\n6 6 1\n",
    "out.lab": '0="init" 1="deadlock" 2="done" 3="one" 4="two" 5="three" 6="four"\n'
    "0: 0\n3: 1 2 3\n4: 1 2 4\n5: 1 2 5\n6: 1 2 6\n",
    "out.sta": "(s,d)\n0:(0,0)\n1:(1,0)\n2:(2,0)\n3:(3,1)\n4:(3,2)\n5:(3,3)\n6:(3,4)\n",
}
CHOICES = {
    "out.tra": "4 5 7\n0 0 0 0.9 wait\n0 0 1 0.1 wait\n0 1 2 0.30000000000000004 go\n0 1 3 0.7 go\n1 0 0 1\n"
    "2 0 2 1 stay\n3 0 3 1 stay\n",
    "out.lab": '0="init" 1="goal" 2="lost"\n0: 0\n1: 0\n2: 1\n3: 2\n',
}
PLACEHOLDERS = {
    "out.tra": "3 4 6\n0 0 1 0.25\n0 0 2 0.75\n0 1 1 0.75\n0 1 2 0.25\n1 0 1 1\n2 0 2 1\n",
    "out.lab": '0="init" 1="goal"\n0: 0\n1: 1\n',
}
GAME = {
    "out.tra": "4 6 8\n0 0 1 1 left\n0 1 2 0.5 right\n0 1 3 0.5 right\n1 0 0 1 back\n1 1 2 0.6 on\n1 1 3 0.4 on\n"
    "2 0 2 1\n3 0 3 1\n",
    "out.lab": '0="init" 1="goal"\n0: 0\n2: 1\n',
    "out.own": '0="p0" 1="p1"\n0: 0\n1: 1\n2: 0\n3: 1\n',
}
LINK = {
    "out.tra": "4 5 7\n0 0 1 0.90000000000000002 fast\n0 0 2 0.10000000000000001 fast\n0 1 3 1 safe\n1 0 1 1 stay\n"
    "2 0 2 1 stay\n"
    "3 0 1 0.94999999999999996 send\n3 0 2 0.050000000000000003 send\n",
    "out.lab": '0="init" 1="s_eq_7_and_d_eq_1"\n0: 0\n1: 1\n',
    "out.sta": "(s,d)\n0:(0,0)\n1:(7,1)\n2:(7,0)\n3:(3,0)\n",
}
EXACT = {
    "out.tra": "4 5 7\n0 0 1 9/10 fast\n0 0 2 1/10 fast\n0 1 3 1 safe\n1 0 1 1\n2 0 2 1\n3 0 1 19/20 send\n"
    "3 0 2 1/20 send\n",
    "out.lab": '0="init" 1="(s=0)" 2="s_eq_7_and_done" 3="s_eq_7" 4="deadlock" 5="s_eq_7_2"\n0: 0 1\n1: 2 3\n2: 4 5\n',
    "out.sta": "(s,done)\n0:(0,false)\n1:(7,true)\n2:(7,false)\n3:(3,false)\n",
}
NOBODY = {
    "out.tra": "4 5 6\n0 0 1 1 left\n0 1 3 1 right\n1 0 2 0.5 toss\n1 0 3 0.5 toss\n2 0 2 1 stay\n2 1 3 1 leave\n",
    "out.lab": '0="init" 1="goal" 2="deadlock"\n0: 0\n2: 1\n3: 2\n',
    "out.own": '0="p1" 1="p2"\n0: 0\n2: 1\n',
}
SAMPLE_TEXTS = {
    "die": DIE,
    "choices": CHOICES,
    "placeholders": PLACEHOLDERS,
    "game": GAME,
    "link": LINK,
    "exact": EXACT,
    "nobody": NOBODY,
}

# a sample, an edit of its text, and what is told on standard error
TOLD = [
    ("link", "", "", "the label ((s = 7) & (d = 1)) is named s_eq_7_and_d_eq_1"),
    ("link", '"((s = 7) & (d = 1))"', "((s = 7) & (d = 1)) goal",
     "the label ((s = 7) & (d = 1)) is named s_eq_7_and_d_eq_1"),
    ("link", '"((s = 7) & (d = 1))"', '!(s = 7) "(d = 1)"',
     "the label !(s = 7) is named not_s_eq_7\nthe label (d = 1) is named d_eq_1"),
    ("exact", "", "",
     "the label (s = 7) & done is named s_eq_7_and_done\nthe label (s = 7) is named s_eq_7\n"
     "the label s = 7 is named s_eq_7_2"),
    ("nobody", "", "", "state 3 has no action and stays where it is"),
    ("nobody", "\taction stay\n\t\t2 : 1\n\taction leave\n\t\t3 : 1\n", "",
     "state 2 has no action and stays where it is, and so 1 more"),
    ("die", "//[s=1\t& d=0]\n", "", "no OUT.sta: state 1 has no values, or more than once"),
    ("die", "//[s=3\t& d=4]\n", "", "no OUT.sta: state 6 has no values"),
    ("die", "//[s=1\t& d=0]\n", "//[s=1\t& d=0]\n//[s=1\t& d=0]\n",
     "no OUT.sta: state 1 has no values, or more than once"),
    ("die", "//[s=1\t& d=0]\n", "//[s=1]\n", "no OUT.sta: state 1 has other variables"),
    ("die", "//[s=1\t& d=0]\n", "//[s=1\t& d=0]\n// any other comment\n", ""),
    ("choices", "action wait", 'action "wait & see"', "the action wait & see is named wait_and_see"),
]

# a sample, an edit of its text, a line of the text that is refused, and the cause
REFUSED = [
    ("die", "@type: DTMC", "@type: CTMC", "@type", "a model of type 'CTMC'; DTMC, MDP and SMG are read"),
    ("die", "@type: DTMC", "@type: POMDP", "@type", "a model of type 'POMDP'; DTMC, MDP and SMG are read"),
    ("die", "DTMC\n@par", "Markov Automaton\n@par", "@type",
     "a model of type 'Markov Automaton'; DTMC, MDP and SMG are read"),
    ("die", "@parameters\n", "@parameters\np q", "p q", "parameters 'p q' are not read"),
    ("die", "@nr_states\n7", "@nr_states\nseven", "seven", "'seven' is no whole number"),
    ("link", "@value_type: double", "@value_type: parametric", "@value_type",
     "values of type 'parametric'; double and rational are read"),
    ("link", "@value_type: double", "@value_type: double-interval", "@value_type",
     "values of type 'double-interval'; double"),
    ("rare", "", "", "1.0000000000000001e-09", "probability '1.0000000000000001e-09': finer than 10^-23"),
    ("die", "@nr_states\n7\n", "", "@model", "@model before @type and @nr_states"),
    ("die", "@nr_states\n7", "@nr_states\n8", None, "7 states; the header states 8"),
    ("die", "@nr_choices\n7", "@nr_choices\n9", None, "7 choices; the header states 9"),
    ("die", "@model", "@odel", "@odel", "'@odel' is no part of a header"),
    ("die", "state 1 [1]", "state 2 [1]", "state 2", "state 2 in place of 1"),
    ("die", "state 1 [1]", "state 1 !3.5 [1]", "state 1", "rates and observations are not read"),
    ("die", "state 1 [1]", "state 1 {4} [1]", "state 1", "rates and observations are not read"),
    ("die", "state 1 [1]", "state 1 <0> [1]", "state 1", "a player in a model that is no game"),
    ("die", "state 1 [1]", 'state 1 [1] "two words', "state 1", "no state that can be read"),
    ("die", "state 1 [1]", "state 1 [1] s = 1", "state 1", "'=' is no label; a label with blanks stands in quotes"),
    ("die", "state 1 [1]", "state 1 [1] ((s = 1)", "state 1",
     "the brackets of the label '((s = 1)' don't match; a label with blanks"),
    ("die", "state 1 [1]", "state 1 [1] (s = 1))", "state 1", "the brackets of the label '(s = 1))' don't match"),
    ("die", "state 1 [1]", 'state 1 [1] (s = "one" )', "state 1", "the brackets of the label '(s = one' don't match"),
    ("die", "state 1 [1]", "state one", "state one", "no state that can be read"),
    ("die", "1 : 0.5", "7 : 0.5", "7 : 0.5", "destination 7 is no state"),
    ("die", "1 : 0.5", "1 : 0.6", "action 0", "moves from here on: probabilities sum to 1.1"),
    ("die", "1 : 0.5", "1 : -0.5", "1 : -0.5", "probability '-0.5': no probability"),
    ("die", "1 : 0.5", "1 : (p)/2", "1 : (p)/2", "probability '(p)/2': no probability"),
    ("die", "1 : 0.5", "1 : [0.4, 0.5]", "1 : [0.4", "probability '[0.4, 0.5]': no probability"),
    ("die", "1 : 0.5", "1 : 5e-25", "1 : 5e-25", "probability '5e-25': finer than 10^-23"),
    ("die", "1 : 0.5", "1 0.5", "1 0.5", "'1 0.5' is no state, action or move"),
    ("die", "\taction 0", "\taction none\n\taction 0", "action none", "an action without moves"),
    ("die", "\taction 0 [0]\n\t\t3 : 1\n", "", None, "6 choices; the header states 7"),
    ("die", "\t\t3 : 1\n", "\t\t3 : 1\n\taction 1\n\t\t3 : 1\n", "state 3", "state 3 of a DTMC has 2 actions"),
    ("die", " init", "", None, "no state has the label init"),
    ("placeholders", "1 : $0", "1 : $7", "1 : $7", "'$7' is no placeholder of the header"),
    ("placeholders", "$0 : 0.25", "$0", "$0", "no placeholder and value"),
    ("game", "state 1 <1>", "state 1", "state 1", "state 1 of a game has choices and no player"),
    ("nobody", "state 0 <1>", "state 0 <18446744073709551615>", "state 0",
     "state 0 of a game has choices and no player"),
    ("game", "state 1 <1>", "state 1 <-1>", "state 1", "'-1' can't be a player: neither a number nor a name"),
]

# the rewards that samples have
REWARDS = {"die": "coin_flips", "choices": "steps cost", "exact": "time energy"}


def sample(name):
    return (SAMPLES / f"documented_{name}.drn").read_text(encoding="ascii")


def line_with(text, place):
    """The number of the first line that has a text, or of the last line."""
    lines = text.splitlines()
    return next((number for number, line in enumerate(lines, 1) if place and place in line), len(lines))


class Documented(InFolder):
    """The samples, which were written from the documentation of the format."""

    def convert(self, name, *words):
        """What is told of a model of this text, and what was written."""
        told = call_tool("from_drn", name, self.folder / "out", *words)[2]
        return told, {name: text for name, text in self.written().items() if name.startswith("out.")}

    def test_texts(self):
        for name, texts in SAMPLE_TEXTS.items():
            with self.subTest(name):
                self.setUp()
                _, written = self.convert(SAMPLES / f"documented_{name}.drn")
                self.assertEqual(written, texts)

    def test_carriage_returns(self):
        for name, texts in SAMPLE_TEXTS.items():
            with self.subTest(name):
                self.setUp()
                text = sample(name).replace("\n", "\r\n").encode("ascii")
                path = self.folder / "in.drn"
                path.write_bytes(text)
                self.assertEqual(self.convert(path)[1], texts)

    def test_names_of_players(self):
        _, written = self.convert(SAMPLES / "documented_game.drn", "--names", "0=anna,1=bert")
        self.assertEqual(written["out.own"], GAME["out.own"].replace("p0", "anna").replace("p1", "bert"))

    def test_what_is_told(self):
        for name, old, new, lines in TOLD:
            with self.subTest(name=name, new=new):
                self.setUp()
                self.assertIn(old, sample(name))
                path = self.write("in.drn", sample(name).replace(old, new, 1).replace("@nr_choices\n5\n", ""))
                told, written = self.convert(path)
                out, rewards = str(self.folder / "out"), REWARDS.get(name)
                said = [*lines.splitlines(), *([f"rewards are passed over: {rewards}"] if rewards else [])]
                self.assertEqual(told.replace(out, "OUT"), "".join(f"from_drn: {line}\n" for line in said))
                self.assertEqual("out.sta" in written, "OUT.sta" not in lines and name in ("die", "link", "exact"))

    @needs_program
    def test_the_program_reads_them(self):
        for name, formula, line in (
            ("die", 'Pmax=? [ F "two" ]', "state 0 lower 0.166666666666666 upper 0.166666666666667"),
            ("choices", 'Pmin=? [ F "goal" ]', "state 0 lower 0.000000000000000 upper 0.000000000000000"),
            ("placeholders", 'Pmax=? [ F "goal" ]', "state 0 lower 0.750000000000000 upper 0.750000000000000"),
            ("game", '<<p0>> Pmax=? [ F "goal" ]', "state 0 lower 0.500000000000000 upper 0.500000000000000"),
            ("exact", 'P>=0.9 [ F "s_eq_7_and_done" ]', "state 0 lower 0.900000000000000 upper 0.900000000000000"),
            ("nobody", '<<p1>> Pmax=? [ F "goal" ]', "state 0 lower 0.500000000000000 upper 0.500000000000000"),
        ):
            with self.subTest(name):
                out = self.folder / name
                self.assertEqual(run_tool("from_drn", SAMPLES / f"documented_{name}.drn", out)[:2], (0, ""))
                owners = ["--own", f"{out}.own"] if name in ("game", "nobody") else []
                self.answered(line, f"{out}.tra", f"{out}.lab", formula, *owners)


class Refused(InFolder):
    """Each fault is told with its line, and nothing is written."""

    def test_faults(self):
        for name, old, new, place, cause in REFUSED:
            with self.subTest(new=new, cause=cause):
                text = sample(name)
                self.assertIn(old, text)
                text = text.replace(old, new, 1)
                path = self.write("bad.drn", text)
                status, _, errors = call_tool("from_drn", path, self.folder / "out")
                self.assertIn(f"from_drn: {path}: line {line_with(text, place)}: {cause}", errors)
                self.assertEqual((status, list(self.written())), (4, ["bad.drn"]))

    def test_status(self):
        name = self.write("bad.drn", "@type: DTMC\n@model\n")
        ended = run_tool("from_drn", name, self.folder / "out")
        self.assertEqual(ended, (4, "", f"from_drn: {name}: line 2: @model before @type and @nr_states\n"))

    def test_an_empty_file(self):
        name = self.write("empty.drn", "")
        self.assertEqual(run_tool("from_drn", name, self.folder / "out"), (4, "", f"from_drn: {name}: nothing in it\n"))

    def test_a_compressed_file(self):
        name = self.folder / "m.drn.gz"
        name.write_bytes(gzip.compress(b"@type: DTMC\n"))
        said = f"from_drn: {name}: line 1: the file is compressed by gzip (.gz); unpack it first\n"
        self.assertEqual(run_tool("from_drn", name, self.folder / "out"), (4, "", said))

    def test_words(self):
        status, output, errors = run_tool("from_drn", "model.drn", "out", "--names", "0")
        self.assertEqual((status, output), (3, ""))
        self.assertIn("'0' is no list of VALUE=NAME", errors)

    def test_no_file(self):
        status, output, errors = run_tool("from_drn", self.folder / "none.drn", self.folder / "out")
        self.assertEqual((status, output), (5, ""))
        self.assertEqual(errors, f"from_drn: cannot read {self.folder / 'none.drn'}: no such file or directory\n")

    def test_a_file_that_can_not_be_written(self):
        status, _, errors = run_tool("from_drn", SAMPLES / "documented_die.drn", self.folder / "none" / "out")
        self.assertEqual(status, 6)
        name = self.folder / "none" / "out.tra"
        self.assertEqual(errors, f"from_drn: cannot write {name}: no such file or directory\n")
        self.assertEqual(self.written(), {})
