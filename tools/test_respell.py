"""Probabilities in their shortest spelling."""

import io
import sys

from toolbox.testing import SAMPLES, TOOLS, InFolder, load, needs_program, program, run, run_tool

# a spelling, the places to round to, the new spelling, and what it changes by shortening and by rounding
SPELT = [
    ("0.90000000000000002", None, "0.9", "2E-17", "0"),
    ("0.10000000000000001", None, "0.1", "1E-17", "0"),
    ("1.0000000000000001e-09", None, "1e-9", "1E-25", "0"),
    ("0.99999999900000003", None, "0.999999999", "3E-17", "0"),
    ("0.333333333333333315", None, "0.3333333333333333", "1.5E-17", "0"),
    ("0.3333333333333333", None, "0.3333333333333333", "0", "0"),
    ("1.2345678901234567e-09", None, "1.2345678901234567e-09", "0", "0"),
    ("1.2345678901234567e-09", 23, "1.23456789012346e-9", "0", "3.3E-24"),
    ("0.12500", 3, "0.12500", "0", "0"),
    ("0.125", 2, "0.12", "0", "0.005"),
    ("0.375", 2, "0.38", "0", "0.005"),
    ("1e-30", 23, "1e-23", "0", "9.999999E-24"),
    ("1e-400", None, "1e-400", "0", "0"),
    ("0e-30", 23, "0e-30", "0", "0"),
    ("1", None, "1", "0", "0"),
    ("1.0", None, "1.0", "0", "0"),
    ("5.0000000000000000E-01", None, "5.0000000000000000E-01", "0", "0"),
    ("1/3", 1, "1/3", "0", "0"),
]

CHAIN = "2 2\r\n0 1  0.90000000000000002\tgo\r\n1 1 1/1"
CHAIN_AGAIN = "2 2\r\n0 1  0.9\tgo\r\n1 1 1/1"

# a sample, and what its spellings become
SAMPLES_AGAIN = {
    "documented_link.tra": [
        ("0.90000000000000002", "0.9"),
        ("0.10000000000000001", "0.1"),
        ("0.94999999999999996", "0.95"),
        ("0.050000000000000003", "0.05"),
    ],
    "documented_rare.drn": [("0.99999999900000003", "0.999999999"), ("1.0000000000000001e-09", "1e-9")],
    "documented_choices.drn": [("0.30000000000000004", "0.30000000000000004")],
    "documented_placeholders.drn": [("$0", "$0"), ("0.75", "0.75")],
    "documented_exact.drn": [("19/20", "19/20")],
}

# a text, the line that is refused, and the cause
REFUSED = [
    ("", None, "nothing in it"),
    ("\n\n", None, "nothing in it"),
    ("zero\n", 1, "'zero' begins no transitions and no model of Storm"),
    ("2 2\n0 1 x\n", 2, "'x': no probability"),
    ("2 2\n0 1 -0.5\n", 2, "'-0.5': no probability"),
    ("2 2 2\n0 0 1\n", 2, "'0 0 1' is no transition"),
    ("\n@type: MDP\n@model\nstate 0\n\taction 0\n\t\t0 : p\n", 6, "'p': no probability"),
    ("@type: MDP\n@model\nstate 0\n\taction 0\n\t\t0 : [0.4, 0.5]\n", 5, "'[0.4, 0.5]': no probability"),
]


class Spellings(InFolder):
    def test_numbers(self):
        for old, places, new, shortened, rounded in SPELT:
            with self.subTest(old=old, places=places):
                speller = load("respell").Speller(places)
                self.assertEqual(speller.spell(old.encode()), new.encode())
                self.assertEqual((str(speller.shortened.most), str(speller.rounded.most)), (shortened, rounded))

    def respelt(self, text, places=None):
        """The text that is written for one that is read."""
        path, out = self.folder / "model", io.BytesIO()
        path.write_bytes(text.encode("ascii"))
        load("respell").respell(path, load("respell").Speller(places), out)
        return out.getvalue().decode("ascii")

    def test_lines_stay_as_they_are_else(self):
        self.assertEqual(self.respelt(CHAIN), CHAIN_AGAIN)
        for sample, pairs in SAMPLES_AGAIN.items():
            with self.subTest(sample):
                text = (SAMPLES / sample).read_text(encoding="ascii")
                wanted = text
                for old, new in pairs:
                    self.assertIn(old, text)
                    wanted = wanted.replace(f" {old}", f" {new}")
                self.assertEqual(self.respelt(text), wanted)
                self.assertEqual(self.respelt(text.replace("\n", "\r\n")), wanted.replace("\n", "\r\n"))

    def test_faults(self):
        for text, line, cause in REFUSED:
            with self.subTest(text):
                self.refused(line, cause, self.respelt, text)


class Commands(InFolder):
    def test_what_is_told(self):
        name = self.write(
            "m.tra", "3 4\n0 1 0.90000000000000002\n0 2 0.10000000000000001\n1 1 1\n2 2 1.2345678901234567e-09\n"
        )
        status, output, errors = run_tool("respell", name, "--round", "20")
        self.assertEqual((status, output), (0, "3 4\n0 1 0.9\n0 2 0.1\n1 1 1\n2 2 1.23456789012e-9\n"))
        told = ["2 numbers shortened, by 2.0e-17 at most", "1 number rounded to 20 places, by 3.5e-21 at most"]
        self.assertEqual(errors.splitlines(), [f"respell: {line}" for line in told])
        self.assertEqual(run_tool("respell", self.write("again.tra", output)), (0, output, ""))

    def test_words(self):
        for places in ("0", "24", "x", "-1"):
            status, output, errors = run_tool("respell", "m.tra", f"--round={places}")
            self.assertEqual((status, output), (3, ""))
            self.assertIn(f"'{places}' is no number of places from 1 to 23", errors)

    def test_faults(self):
        name = self.write("m.tra", "2 2\n0 1 0.90000000000000002\n1 1 x\n")
        self.assertEqual(run_tool("respell", name), (4, "", f"respell: {name}: line 3: 'x': no probability\n"))
        none = self.folder / "none"
        self.assertEqual(
            run_tool("respell", none), (5, "", f"respell: cannot read {none}: no such file or directory\n")
        )

    def test_no_room(self):
        name = self.write("m.tra", "1 1\n0 0 1\n")
        command = f"'{sys.executable}' '{TOOLS / 'respell'}' '{name}' > /dev/full"
        self.assertEqual(run("bash", "-c", command), (6, "", "respell: cannot write the output: no storage space\n"))

    def test_nobody_reads_on(self):
        lines = "0 0 0 1\n" * 50_000
        name = self.write("m.tra", f"1 1 50000\n{lines}")
        status, output, errors = run("bash", "-c", f"'{sys.executable}' '{TOOLS / 'respell'}' '{name}' | head -n 1")
        self.assertEqual(
            (status, output, errors), (0, "1 1 50000\n", "respell: cannot write the output: broken pipe\n")
        )

    @needs_program
    def test_the_program_reads_them(self):
        link, rare = self.folder / "link", self.folder / "rare"
        for out in (link, rare):
            _, text, _ = run_tool("respell", SAMPLES / f"documented_{out.name}.drn")
            self.assertEqual(run_tool("from_drn", self.write(f"{out.name}.drn", text), out)[0], 0)
        for out, formula, bounds, verdict in (
            (
                link,
                'P>=0.9 [ F "s_eq_7_and_d_eq_1" ]',
                "state 0 lower 0.900000000000000 upper 0.900000000000000 ",
                " True\n",
            ),
            (rare, 'Pmax=? [ F "lost" ]', "state 0 lower 0.000000001000000 upper 0.000000001000000 ", " Bracket\n"),
        ):
            status, output, errors = run(program(), "check", f"{out}.tra", f"{out}.lab", formula)
            self.assertEqual((status, errors), (0, ""), output)
            self.assertTrue(output.startswith(bounds) and output.endswith(verdict), output)
