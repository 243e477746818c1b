"""Formulas of expected rewards: how much is expected until a state formula holds; printed and read.

Who maximises is as of a probability. A formula may name the structure of the rewards, as `R{"cost"}max=? [ F x ]`.
"""

from dataclasses import dataclass, replace
from fractions import Fraction
from typing import Optional

from toolbox.explicit import MOST_DENOMINATOR, number_of
from toolbox.formulas import TRUE, CertifiableReader, Formula, Spelt, state_words
from toolbox.rewards import MOST_REWARD


@dataclass(frozen=True)
class RewardFormula(Formula):
    """A formula of rewards, whose path is that of `F`. The bound is a sign, or `Rmax` or `Rmin`."""

    name: Optional[str] = None

    def bound_text(self):
        name = "" if self.name is None else f'{{"{self.name}"}}'
        return f"R{name}{self.bound[1:]}=?" if self.limit is None else f"R{name}{self.bound}{self.limit}"

    def certified(self):
        """What a certificate of this formula is of. The name means nothing there."""
        return replace(super().certified(), name=None)

    def asked_words(self):
        return "expected reward" if self.name is None else f'expected reward "{self.name}"'

    def path_words(self):
        return f"before {state_words(self.right)}"


class RewardReader(CertifiableReader):
    """Reads formulas of rewards, in which no others are."""

    def token(self):
        brace = self.text[self.place : self.place + 1]
        return brace if brace in ("{", "}") else super().token()

    def formula(self, is_inside):
        if is_inside:
            self.refuse("Unexpected", "a formula inside a formula of rewards")
        coalition = self.coalition() if self.token() == "<<" else None
        word, name, limit = self.expect("R", "Rmax", "Rmin"), None, None
        if word == "R" and self.token() == "{":
            name = self.name()
            word += self.take() if self.token() in ("max", "min") else ""
        bound = self.expect(">=", ">", "<=", "<") if word == "R" else word
        if word == "R":
            limit = self.limit()
        else:
            self.expect("=?")
        self.expect("[")
        self.expect("F")
        goal = self.state()
        self.expect("]")
        return RewardFormula(coalition, bound, limit, "U", TRUE, goal, name=name)

    def name(self):
        """The name of the structure, which stands in quotes and braces."""
        self.take()
        token, wanted = self.token(), "a name in quotes"
        if token and not token.startswith('"'):
            self.misplaced(token, wanted)
        name = self.take(wanted)[1:-1]
        self.expect("}")
        return name

    def limit_of(self, token):
        """The number of a threshold."""
        try:
            limit = Fraction(*number_of(token.encode("ascii"), "number"))
        except ValueError as fault:
            self.refuse("BadNumber", f"threshold '{token}': {fault}")
        if limit.denominator > MOST_DENOMINATOR or limit > MOST_REWARD:
            fault = "finer than 10^-23" if limit <= MOST_REWARD else "above 10^15"
            self.refuse("BadNumber", f"threshold '{token}': {fault}")
        return Spelt(token)


def rewards_asked(text):
    """The formula of rewards of a text."""
    return RewardReader(text).whole()
