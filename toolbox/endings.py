"""How a tool begins and ends: its words, its status, and the one line on standard error where it has no answer.

The statuses are those of `stogame`, which docs/COMMANDS.md lists.
"""

import argparse
import contextlib
import csv
import errno
import os
import sys

WORDS, REFUSED, UNREAD, UNWRITTEN = 3, 4, 5, 6

OUTPUT = "the output"
NOTHING = "-"


class Ending(Exception):
    """Why there is no answer: the status, and the text of the line that says it."""

    def __init__(self, status, text):
        super().__init__(text)
        self.status = status


class Refusal(Ending):
    """A text that can't be used: its name, the line, or None where no line is to blame, and the cause."""

    def __init__(self, name, line, cause, status=REFUSED):
        place = name if line is None else f"{name}: line {line}"
        super().__init__(status, f"{place}: {cause}")
        self.line, self.cause = line, cause


def unread(name, error):
    return Ending(UNREAD, f"cannot read {name}: {cause_of(error)}")


def unwritten(name, error):
    return Ending(UNWRITTEN, f"cannot write {name}: {cause_of(error)}")


def cause_of(error):
    """What the system says, in the words of the program."""
    if error.errno == errno.ENOSPC:
        return "no storage space"
    return (error.strerror or str(error)).lower()


class Words(argparse.ArgumentParser):
    """The words of a tool, whose text of help begins with its document. Where they are wrong the status is 3."""

    def __init__(self, name, document):
        super().__init__(prog=name, description=document, formatter_class=argparse.RawDescriptionHelpFormatter)

    def error(self, message):
        raise Ending(WORDS, f"{message}; {self.prog} --help says more")

    def add_question(self, optional=False):
        """The model and what is asked of it."""
        for name, text in (("tra", "the transition file"), ("lab", "the label file"), ("formula", "what is asked")):
            self.add_argument(name, metavar=name.upper(), nargs="?" if optional else None, help=text)

    def add_files(self, **helps):
        """Options that each name a file, with what it is."""
        for option, text in helps.items():
            self.add_argument(f"--{option}", metavar="FILE", help=text)

    def add_forms(self, rows, write_json):
        """Options for the form of the output, which is text where none is named; `rows` gives the rows of what is told,
        for text or for CSV."""

        def text(told):
            write_text(lambda: rows(told, True))

        def as_csv(told):
            write_csv(rows(told, False))

        form = self.add_mutually_exclusive_group()
        for option, write in (("csv", as_csv), ("json", write_json)):
            told = {"dest": "write", "action": "store_const", "const": write, "default": text}
            form.add_argument(f"--{option}", help=f"write {option.upper()}", **told)


def pairs_of(text, form, is_value):
    """A map from the names to the values of a list such as `1=anna,2=bert`."""
    pairs = [pair.partition("=") for pair in text.split(",")]
    if not all(name and sign and is_value(value) for name, sign, value in pairs):
        raise argparse.ArgumentTypeError(f"'{text}' is no list of {form}")
    return {name: value for name, _, value in pairs}


def tell(name, text):
    """A line on standard error, where that takes one."""
    if sys.stderr is not None:
        with contextlib.suppress(OSError):
            print(f"{name}: {text}", file=sys.stderr)


def ended(name, work):
    """Does the work of a tool of this name, and ends with its status, 0 where it gives none."""
    hold_output()
    try:
        status = work()
        sys.stdout.flush()
    except Ending as ending:
        tell(name, ending)
        status = ending.status
    except OSError as error:
        tell(name, unwritten(error.filename or OUTPUT, error))
        status = UNWRITTEN
        drop_output()
    sys.exit(status)


def hold_output():
    """Where standard output is closed, whatever is written to it fails."""
    if sys.stdout is None:
        sys.stdout = open(os.open(os.devnull, os.O_RDONLY), "w", encoding="utf-8")


def drop_output():
    """Lets go of what standard output did not take, which would fail once more at the end."""
    os.dup2(os.open(os.devnull, os.O_WRONLY), sys.stdout.fileno())


# Rows of values


def write_text(rows):
    """Columns as wide as they have to be. A value is a text, a number, a list of texts, or None for nothing. `rows`
    gives the rows anew at each call, so that they need not be kept."""
    widths = []
    for row in rows():
        widths = list(map(max, widths or [0] * len(row), map(len, map(text_cell, row))))
    for row in rows():
        print("  ".join(text_cell(value).ljust(width) for value, width in zip(row, widths)).rstrip())


def text_cell(value):
    """A field of a column: a list has commas between, and a sign stands where there is nothing."""
    text = ",".join(value) if isinstance(value, list) else "" if value is None else str(value)
    return text or NOTHING


def write_csv(rows):
    """Fields with commas between: a list has blanks between, and where there is nothing the field is empty."""
    writer = csv.writer(sys.stdout, lineterminator="\n")
    for row in rows:
        writer.writerow([" ".join(value) if isinstance(value, list) else value for value in row])
