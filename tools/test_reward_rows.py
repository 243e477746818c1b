"""Known expected rewards, as the built program bounds them: each line, and an audit of each certificate."""

from pathlib import Path

from toolbox.testing import InFolder, needs_program, program, run

MODELS = Path(__file__).resolve().parents[1] / "gallery" / "models"

COIN = ("2 2 3\n0 0 0 0.5\n0 0 1 0.5\n1 0 1 1\n", '0="init" 1="heads"\n0: 0\n1: 1\n', "rewards 2 1\n0 1\n")
WAITING = ("2 3 3\n0 0 0 1\n0 1 1 1\n1 0 1 1\n", '0="init" 1="goal"\n0: 0\n1: 1\n', "rewards 2 1\n0 1 2\n")
HALVES = ("2 2 2\n0 0 1 1\n1 0 1 1\n", '0="init" 1="goal"\n0: 0\n1: 1\n', "rewards 2 2\n0 1/2\n0 0 1/2\n")

# Each row has a model with its rewards, a formula, what the line says of the first state, and the status.
ROWS = [
    (COIN, 'Rmax=? [ F "heads" ]', "lower 2.00000000000000 upper 2.00000000000000 solved Bracket", 0),
    (WAITING, 'Rmin=? [ F "goal" ]', "lower 2.00000000000000 upper 2.00000000000000 solved Bracket", 0),
    (WAITING, 'Rmax=? [ F "goal" ]', "lower infinite upper infinite solved Bracket", 0),
    (WAITING, 'R<=2 [ F "goal" ]', "lower infinite upper infinite solved False", 1),
    (WAITING, 'R>1 [ F "goal" ]', "lower 2.00000000000000 upper 2.00000000000000 solved True", 0),
]

# Each row has words behind the model and the formula, and the first line that is refused.
REFUSED = [
    ("rewards 3 0\n", [], 'Rmax=? [ F "heads" ]', "refused rewards line 1 StateCount"),
    ("rewards 2 1\n0 x\n", [], 'Rmax=? [ F "heads" ]', "refused rewards line 2 Number NotANumber"),
    ("rewards 2 0\n", [], 'Pmax=? [ F "heads" ]', "refused question line 0 WrongKind"),
    ("rewards 2 0\n", [], 'Rmax=? [ F<=2 "heads" ]', "refused formula place 10 Unexpected"),
]


def gambler():
    """A fair game between 0 and 10 from 4, where each turn costs 1."""
    moves = [(money, 0, money + step, "0.5") for money in range(1, 10) for step in (-1, 1)]
    moves += [(end, 0, end, "1") for end in (0, 10)]
    lines = "".join(" ".join(map(str, move)) + "\n" for move in sorted(moves))
    return (f"11 11 {len(moves)}\n{lines}", '0="init" 1="over"\n0: 1\n4: 0\n10: 1\n',
            "rewards 11 11\n" + "".join(f"{money} 1\n" for money in range(11)))


def each_turn(name):
    """A model of the gallery, where each turn costs 1."""
    tra, lab = ((MODELS / f"{name}.{ending}").read_text() for ending in ("tra", "lab"))
    states = int(tra.split()[0])
    return tra, lab, f"rewards {states} {states}\n" + "".join(f"{state} 1\n" for state in range(states))


class Rows(InFolder):
    def answer(self, command, model, formula, *rest):
        files = [str(self.write(f"model.{ending}", text)) for ending, text in zip(("tra", "lab", "rewards"), model)]
        return run(program(), command, *files[:2], formula, *rest, "--rewards", files[2])

    def check_row(self, model, formula, said, status):
        solved = self.answer("solve", model, formula, "--plan")
        self.assertEqual((solved.output.split("\n")[0].split(" ", 2)[2], solved.status), (said, status))
        certificate = str(self.write("certificate", solved.output))
        audited = self.answer("audit", model, formula, certificate)
        self.assertEqual((audited.output.split("\n")[0].split(" ", 2)[2], audited.status),
                         (said.replace("solved", "audited"), status))

    @needs_program
    def test_rows(self):
        for row in ROWS:
            self.check_row(*row)

    @needs_program
    def test_a_gambler_a_die_and_a_shared_coin(self):
        self.check_row(gambler(), 'Rmax=? [ F "over" ]',
                       "lower 24.0000000000000 upper 24.0000000000000 solved Bracket", 0)
        self.check_row(each_turn("die-6"), 'Rmin=? [ F "done" ]',
                       "lower 3.66666666666666 upper 3.66666666666667 solved Bracket", 0)
        for bound, steps in (("Rmax=?", 75), ("Rmin=?", 48)):
            solved = self.answer("solve", each_turn("coin-2-2"), f'{bound} [ F "finished" ]')
            fields = solved.output.split()
            self.assertLessEqual(float(fields[3]), steps)
            self.assertLessEqual(steps, float(fields[5]))
            self.assertLess(float(fields[5]) - float(fields[3]), 1e-10)

    @needs_program
    def test_rewards_are_rounded_apart(self):
        """Two halves count 0 below and 2 above in whole units."""
        certificate = str(self.write("certificate", "rewards 1 0 2\n0 0 - 1 2 -\n1 0 - 0 0 -\n"))
        audited = self.answer("audit", HALVES, 'Rmax=? [ F "goal" ]', certificate)
        self.assertEqual(audited.output, "state 0 lower 0 upper 2 audited Bracket\n")
        nearer = str(self.write("nearer", "rewards 1 0 2\n0 0 - 1 1 -\n1 0 - 0 0 -\n"))
        refused = self.answer("audit", HALVES, 'Rmax=? [ F "goal" ]', nearer)
        self.assertEqual((refused.output, refused.status), ("refused cert line 0 Above state 0 choice 0\n", 8))

    @needs_program
    def test_refusals(self):
        for rewards, words, formula, line in REFUSED:
            refused = self.answer("solve", (*COIN[:2], rewards), formula, *words)
            self.assertEqual((refused.output, refused.status), (line + "\n", 4))
        usage = self.answer("solve", COIN, 'Rmax=? [ F "heads" ]', "--values", "none")
        self.assertEqual(usage.status, 3)
