"""Files of rewards from what PRISM, PRISM-games and Storm export."""

import unittest
from fractions import Fraction

from toolbox.explicit import read_transitions
from toolbox.rewards import Refused, Rewards, number_of, read_rewards, spelt
from toolbox.testing import SAMPLES, InFolder, call_tool

CHAIN = "3 6\n0 0 0.5\n0 1 0.25\n0 2 0.25\n1 1 1\n2 0 1/3\n2 1 2/3\n"
# the second state has no line, and two lines are of the same move
MDP = "3 3 6\n0 0 1 0.5 go\n0 0 2 0.25 go\n0 0 2 0.25 go\n0 1 0 1 stay\n2 0 0 0.3\n2 0 1 0.7\n"
NAMED = '# Reward structure "cost"\n'
OF_STATES, OF_MOVES = "# State rewards\n", "# Transition rewards\n"

# transitions, files, options and the lines behind the header
MADE = [
    (CHAIN, ["3 2\n0 1\n2 0.10000000000000001\n"], [], ["0 1", "2 0.10000000000000001"]),
    (CHAIN, [NAMED + OF_STATES + "3 2\n2 1.5E-3\n0 1e3\n"], [], ["0 1000", "2 0.0015"]),
    (CHAIN, ["3 0\n"], [], []),
    (CHAIN, [OF_STATES + "3 1\n1 0.0\n"], [], []),
    (CHAIN, ["3 3\n0 0 1\n0 1 2\n2 0 1\n"], [], ["0 0 1", "2 0 1/3"]),
    (CHAIN, [NAMED + OF_MOVES + "3 1\n1 1 7\n"], [], ["1 0 7"]),
    (CHAIN, [OF_MOVES + "3 0\n"], [], []),
    (CHAIN, ["3 3 2\n0 0 1 1\n0 0 2 1/3\n"], [], ["0 0 1/3"]),
    (CHAIN, ["3 1\n0 2\n", "3 1\n0 2 2\n"], [], ["0 2", "0 0 0.5"]),
    (CHAIN, ["3 1\n0 2 2\n", NAMED + OF_STATES + "3 1\n0 2\n"], [], ["0 2", "0 0 0.5"]),
    (MDP, ["3 3 4\n0 0 1 1\n0 0 2 0.2\n1 0 1 1\n2 0 1 10\n"], [], ["0 0 0.6", "1 0 1", "2 0 7"]),
    (MDP, [NAMED + OF_MOVES + "3 3 1\n0 1 0 2.5\n"], ["--name", "cost"], ["0 1 2.5"]),
    (MDP, [NAMED + OF_STATES + "# any other comment\n3 1\n1 0.125\n"], ["--name", "cost"], ["1 0.125"]),
]

# what was asked for, and what is told of it
ROUNDED = [
    ("3 1\n0 1e-30\n", "3", ["0 0"], "1 reward rounded to 3 places, by 1.0e-30 at most"),
    ("3 2\n0 1e-24\n1 0.33333333333333333333333335\n", "20", ["0 0", "1 0.33333333333333333333"],
     "2 rewards rounded to 20 places, by 3.4e-21 at most"),
    ("3 1\n0 1/3\n", "2", ["0 1/3"], ""),
]

# transitions, a file, the line that is refused, and the cause
REFUSED = [
    (CHAIN, "", 1, "the header is not two or three whole numbers"),
    (CHAIN, "three\n", 1, "the header is not two or three whole numbers"),
    (CHAIN, NAMED + "0 1 2 3\n", 2, "the header is not two or three whole numbers"),
    (CHAIN, NAMED, 1, "the header is not two or three whole numbers"),
    (CHAIN, "4 1\n0 1\n", 1, "4 states; the transition file has 3"),
    (CHAIN, "3 1\n0 1\n1 1\n", 3, "more lines than the 1 that the header states"),
    (CHAIN, "3 3\n0 1\n1 1\n", None, "2 lines; the header states 3"),
    (CHAIN, "3 2\n0 1\n\n1 1\n", 3, "a blank line before the end"),
    (CHAIN, "3 2\n0 1\n1 1 1\n", 3, "3 fields in place of 2"),
    (CHAIN, "3 1\n0\n", 2, "1 fields in place of 2"),
    (CHAIN, OF_STATES + "3 1\n0 1 1\n", 3, "3 fields in place of 2"),
    (CHAIN, OF_STATES + "3 6 1\n0 0 1 1\n", None, "state rewards with the header of transition rewards"),
    (CHAIN, "3 1\nx 1\n", 2, "'x' is no whole number"),
    (CHAIN, "3 1\n3 1\n", 2, "3 is no state"),
    (CHAIN, "3 1\n0 -1\n", 2, "reward '-1': a negative reward"),
    (CHAIN, "3 1\n0 Infinity\n", 2, "reward 'Infinity': no number"),
    (CHAIN, "3 1\n0 1/0\n", 2, "reward '1/0': a denominator of 0"),
    (CHAIN, "3 1\n0 1e16\n", 2, "reward '1e16': above 10^15"),
    (CHAIN, f"3 1\n0 0.{'1' * 30}\n", 2, f"reward '0.{'1' * 30}': too many digits"),
    (CHAIN, "3 1\n0 1e-24\n", 2, "the reward of state 0: finer than 10^-23; --round rounds it"),
    (CHAIN, "3 2\n0 1\n0 2\n", 3, "a second reward of state 0"),
    (CHAIN, "3 2\n0 1 1\n0 1 2\n", 3, "a second reward of state 0 choice 0 successor 1"),
    (CHAIN, "3 1\n1 0 1\n", 2, "state 1 choice 0 has no move to '0'"),
    (CHAIN, "3 1\n1 x 1\n", 2, "state 1 choice 0 has no move to 'x'"),
    (CHAIN, "3 3 1\n0 1 0 1\n", 2, "state 0 has no choice 1"),
    (CHAIN, "3 2\n0 1 1e-23\n2 0 1e-23\n", 2, "the reward of state 0 choice 0: finer than 10^-23; --round rounds it"),
    (CHAIN, NAMED + OF_STATES + "3 1\n0 1\n" + NAMED, 5, "a second reward structure"),
    (MDP, "3 1\n0 1 1\n", 2, "state 0 has several choices, and no choice is named"),
    (MDP, "3 3 1\n0 2 1 1\n", 2, "state 0 has no choice 2"),
    (MDP, "3 3 1\n0 1 1 1\n", 2, "state 0 choice 1 has no move to '1'"),
]

STORM = """@type: MDP
@parameters

@reward_models
{names}
@placeholders
$0 : 2.5
@nr_states
2
@nr_choices
3
@model
state 0 [{first}] init
\taction a [{second}]
\t\t0 : 0.5
\t\t1 : 0.5
\taction b
\t\t1 : 1
state 1 done
\t\t1 : 1
"""
STORM_TRA = "2 3 4\n0 0 0 0.5 a\n0 0 1 0.5 a\n0 1 1 1 b\n1 0 1 1\n"
STORM_MADE = [
    ("cost time ", "0, 1", "$0, 0", ["--name", "cost"], ["0 0 2.5"]),
    ("cost time ", "0, 1/3", "$0, 0", ["--name", "time"], ["0 1/3"]),
    ("cost", "1", "$0", [], ["0 1", "0 0 2.5"]),
    ("", "1", "0", [], ["0 1"]),
]
STORM_REFUSED = [
    ("cost time", "0, 1", "0, 1", [], None, "the reward models are cost, time; name one of them with --name"),
    ("cost time", "0, 1", "0, 1", ["--name", "x"], None, "the reward models are cost, time; 'x' is not among them"),
    ("cost", "0, 1", "0, 1", [], 13, "rewards of 2 reward models; the header names 1"),
    ("cost", "1", "$1", [], 14, "'$1' is no placeholder of the header"),
    ("cost", "p", "0", [], 13, "reward 'p': no number"),
    ("cost", "1", "-2", [], 14, "reward '-2': a negative reward"),
]

# a sample of Storm's format, the reward model, and the lines
SAMPLE_LINES = [
    ("die", [], ["0 1", "1 1", "2 1"]),
    ("choices", ["--name", "cost"], ["0 1 2.5"]),
    ("exact", ["--name", "energy"], ["0 0 2.5", "0 1 1", "3 0 1"]),
]

SPELT = [
    ("0", "0"), ("12", "12"), ("0.5", "0.5"), ("1/3", "1/3"), ("1e15", f"1{'0' * 15}"), ("1e-23", f"0.{'0' * 22}1"),
    (Fraction(1, 2**70), f"1/{2**70}"), ("123456789012345.12345678901234", "123456789012345.12345678901234"),
]
NOT_SPELT = [
    ("1e-24", "finer than"), ("1000000000000000.5", "above"), ("123456789012345.1234567890123457", "too many digits"),
]

# a text, the line that the program refuses, and its cause
FAULTS = [
    ("", 1, "NoHeader"),
    ("rewards 2\n", 1, "NoHeader"),
    ("reward 2 0\n", 1, "NoHeader"),
    ("rewards 2 -1\n", 1, "NoHeader"),
    ("rewards 3 9999999\n", 1, "StateCount"),
    ("rewards 2 8000001\n", 1, "OverLimit"),
    ("rewards 2 1\n0 1\n\n0 2\n", 3, "LineCount read 2 stated 1"),
    ("rewards 2 2\n0 1\n", 0, "LineCount read 1 stated 2"),
    ("rewards 2 2\n\n0 1\n", 2, "FieldCount"),
    ("rewards 2 1\n0 0 0 1\n", 2, "FieldCount"),
    ("rewards 2 1\n9 x 1\n", 2, "BadField"),
    ("rewards 2 1\n2 9 x\n", 2, "StateOutOfRange"),
    ("rewards 2 1\n1 1 x\n", 2, "ChoiceOutOfRange"),
    ("rewards 2 1\n0 -1\n", 2, "Number NotANumber"),
    ("rewards 2 1\n0 1e100\n", 2, "Number TooManyDigits"),
    (f"rewards 2 1\n0 {'1' * 31}\n", 2, "Number TooManyDigits"),
    ("rewards 2 1\n0 1/0\n", 2, "Number ZeroDenominator"),
    ("rewards 2 1\n0 1e-24\n", 2, "Number TooFine"),
    ("rewards 2 1\n0 1000000000000000.1\n", 2, "TooLarge"),
    ("rewards 2 2\n0 0 1\n0 0 1\n", 3, "DoubleLine"),
]


def text_of(states, lines):
    """A file of rewards with these lines."""
    return "".join(f"{line}\n" for line in [f"rewards {states} {len(lines)}", *lines])


class Made(InFolder):
    def made(self, tra, files, *options):
        """The status, output and errors of a call over these texts, and the names of the files."""
        names = [self.write(f"{place}.rewards", text) for place, text in enumerate(files)]
        return call_tool("rewards", self.write("m.tra", tra), *names, *options), names

    def test_texts(self):
        for tra, files, options, lines in MADE:
            with self.subTest(files=files):
                self.assertEqual(self.made(tra, files, *options)[0], (0, text_of(3, lines), ""))
                model = read_transitions(self.folder / "m.tra")
                rewards = read_rewards(text_of(3, lines).encode(), [len(model.choices_of(state)) for state in range(3)])
                self.assertEqual(sum(map(bool, rewards.states + sum(rewards.choices, []))), len(lines))

    def test_rounding(self):
        for text, places, lines, told in ROUNDED:
            with self.subTest(text):
                ended, _ = self.made(CHAIN, [text], "--round", places)
                self.assertEqual(ended, (0, text_of(3, lines), f"rewards: {told}\n" if told else ""))

    def test_faults(self):
        for tra, text, line, cause in REFUSED:
            with self.subTest(text):
                ended, (name,) = self.made(tra, [text])
                place = name if line is None else f"{name}: line {line}"
                self.assertEqual(ended, (4, "", f"rewards: {place}: {cause}\n"))

    def test_two_files(self):
        for one, other, cause in (
            ("3 0\n", "3 1\n0 1\n", "state rewards, beside state rewards"),
            ("3 1\n0 1 1\n", OF_MOVES + "3 0\n", "transition rewards, beside transition rewards"),
            (NAMED + "3 1\n0 1\n", f'{NAMED}3 1\n0 1 1\n'.replace("cost", "time"),
             "the rewards of 'time', beside those of 'cost'"),
        ):
            with self.subTest(cause):
                ended, names = self.made(CHAIN, [one, other])
                self.assertEqual(ended, (4, "", f"rewards: {names[1]}: {cause}\n"))

    def test_names_of_structures(self):
        ended, (name,) = self.made(CHAIN, [NAMED + "3 1\n0 1\n"], "--name", "time")
        said = f"rewards: {name}: line 1: the rewards of 'cost'; those of 'time' are asked for\n"
        self.assertEqual(ended, (4, "", said))
        ended, (name,) = self.made(CHAIN, ["3 1\n0 1\n"], "--name", "time")
        self.assertEqual(ended, (0, text_of(3, ["0 1"]), f"rewards: {name} does not name its reward structure\n"))

    def test_words(self):
        for words in (["m.tra"], ["m.tra", "a", "b", "c"], ["m.tra", "a", "--round", "24"]):
            status, output, _ = call_tool("rewards", *words)
            self.assertEqual((status, output), (3, ""))
        none = self.folder / "none"
        ended, _ = self.made(CHAIN, [])
        self.assertEqual(ended[0], 3)
        status, _, errors = call_tool("rewards", self.folder / "m.tra", none)
        self.assertEqual((status, errors), (5, f"rewards: cannot read {none}: no such file or directory\n"))


class OfStorm(InFolder):
    def made(self, names, first, second, *options):
        drn = self.write("m.drn", STORM.format(names=names, first=first, second=second))
        return call_tool("rewards", self.write("m.tra", STORM_TRA), drn, *options), drn

    def test_texts(self):
        for names, first, second, options, lines in STORM_MADE:
            with self.subTest(names=names, options=options):
                self.assertEqual(self.made(names, first, second, *options)[0], (0, text_of(2, lines), ""))

    def test_faults(self):
        for names, first, second, options, line, cause in STORM_REFUSED:
            with self.subTest(cause):
                ended, name = self.made(names, first, second, *options)
                place = name if line is None else f"{name}: line {line}"
                self.assertEqual(ended, (4, "", f"rewards: {place}: {cause}\n"))

    def test_samples(self):
        for sample, options, lines in SAMPLE_LINES:
            with self.subTest(sample):
                drn, out = SAMPLES / f"documented_{sample}.drn", self.folder / sample
                call_tool("from_drn", drn, out)
                status, output, _ = call_tool("rewards", f"{out}.tra", drn, *options)
                states = read_transitions(f"{out}.tra").states
                self.assertEqual((status, output), (0, text_of(states, lines)))

    def test_no_rewards(self):
        self.made("", "1", "0")
        text = STORM.format(names="", first="", second="").replace("[] ", "").replace("[]", "")
        status, _, errors = call_tool("rewards", self.folder / "m.tra", self.write("m.drn", text))
        self.assertEqual((status, errors), (4, f"rewards: {self.folder / 'm.drn'}: no rewards\n"))

    def test_another_model(self):
        self.made("", "1", "0")
        status, _, errors = call_tool("rewards", self.write("m.tra", CHAIN), self.folder / "m.drn")
        cause = "line 12: 2 states; the transition file has 3"
        self.assertEqual((status, errors), (4, f"rewards: {self.folder / 'm.drn'}: {cause}\n"))


class Texts(unittest.TestCase):
    """Files of rewards, read by the rules of the program."""

    def test_spellings(self):
        for reward, spelling in SPELT:
            self.assertEqual(spelt(Fraction(reward)), spelling)
            self.assertEqual(number_of(spelling.encode()), Fraction(reward))
        for reward, cause in NOT_SPELT:
            with self.assertRaisesRegex(ValueError, cause):
                spelt(Fraction(reward))

    def test_rewards(self):
        half = Fraction(1, 2)
        for text in (b"rewards 2 2\n1 0.5\n0 1 1/2\n", b"rewards 2 2\r\n0\t1 5e-1 \r\n1 0.50\n\n \n"):
            self.assertEqual(read_rewards(text, [2, 1]), Rewards([0, half], [[0, half], [0]]))
        self.assertEqual(read_rewards(b"rewards 2 0", [2, 1]), Rewards([0, 0], [[0, 0], [0]]))

    def test_faults(self):
        for text, line, cause in FAULTS:
            with self.subTest(text):
                with self.assertRaises(Refused) as caught:
                    read_rewards(text.encode(), [2, 1])
                self.assertEqual(caught.exception.args, (line, cause))
