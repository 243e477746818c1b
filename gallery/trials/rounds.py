"""The run of rounds by one worker: the bracket of a question after so many rounds, by its definition."""

from dataclasses import dataclass

from guesses import lower_guess, lowered, replies, upper_guess
from toolbox.certificates import decimal
from whole import UNIT, swapped, sweep, zero_states


@dataclass
class Bracket:
    """The bounds, what proves them, and how many rounds were made."""

    lower: list
    choices: list
    ranks: list
    upper: list
    replies: list
    rounds: int

    def certificate(self):
        lines = [f"certificate 2 {len(self.lower)}"]
        for state, entry in enumerate(zip(self.lower, self.choices, self.ranks, self.upper, self.replies)):
            lower, choice, rank, upper, reply = entry
            lines.append(f"{state} {decimal(lower)} {dashed(choice)} {rank} {decimal(upper)} {dashed(reply)}")
        return lines


def dashed(choice):
    return "-" if choice is None else choice


def bracket(asked, rounds, is_settled=None, with_traps=False):
    """The bracket; the rule says of a lower and an upper table whether they end the run after 1, 2, 4, 8, .. rounds."""
    zero = zero_states(asked)
    other = swapped(asked, zero)
    base, swapped_values, chosen, kept, made = asked.opening(), other.opening(), {}, None, 0
    while made < rounds and kept is None:
        rose = [sweep(asked, base, chosen), sweep(other, swapped_values, {})]
        made += 1
        if not any(rose):
            break
        if is_settled and made & (made - 1) == 0:
            guess = least(upper_guess(asked, zero, base), swapped_values)
            kept = guess if is_settled(base, guess) else None
    upper = least(upper_guess(asked, zero, base), swapped_values)
    given = replies(asked, upper)
    shown = lowered(asked, upper, given) if with_traps else upper
    return Bracket(*lower_guess(asked, zero, base, chosen), shown, given, made)


def least(guess, swapped_values):
    return [min(entry, UNIT - value) for entry, value in zip(guess, swapped_values)]
