"""A game in which both players may stall, so that upper values stay up.

    gallery/write stall STAKE NAME

Source: after the game that shows this in E. Kelmendi, J. Krämer, J. Křetínský and M. Weininger, Value iteration for
simple stochastic games: stopping criterion and learning algorithm, CAV 2018; behind it the fair game of the gambler's
ruin (W. Feller, An introduction to probability theory and its applications, 1950, chapter XIV).

State: two rooms, or the stake that is held, from 0 to 2 STAKE. In the first room the player max goes on to the second,
or plays with STAKE; in the second the player min goes back to the first, or pays: then max wins with 0.9. Each round of
the play wins or loses 1 with 1/2 each; at 2 STAKE max has won, at 0 all is lost.

Value: in the play the stake stays the same on average and comes to an end, so it is won with 1/2. Min never pays, and
so max plays: 1/2. In the two rooms the upper values 0.9 hold each other up, since max could stall there for ever; only
that stalling wins nothing brings them down. Within m tosses the play is won with h(STAKE) - h(3 STAKE) + h(5 STAKE) -
.., by repeated reflection, where h(a) = P(S >= a) + P(S > a) is the chance that the sum of tosses is a within m of
them; S is their sum after all m. One step leads to the play.

Expected tosses: the play takes STAKE squared, as the fair game does (Feller). Who wants few tosses pays where it may,
and who wants many never does; so there are as many whichever side each player is on.
"""

from fractions import Fraction

from toolbox.model import CLOSED, HALF, Model, ask

PAYS = Fraction(9, 10)
SIZES = {"small": [(1,), (8,), (40,)], "large": [(200,)]}
FEW, MANY_ROUNDS = 40, ("--rounds", "1000000")
FIRST_ROOM, SECOND_ROOM = "first room", "second room"


def model(stake):
    def rule(state):
        if state == FIRST_ROOM:
            return [[(1, SECOND_ROOM)], [(1, stake)]]
        if state == SECOND_ROOM:
            return [[(1, FIRST_ROOM)], [(PAYS, 2 * stake), (1 - PAYS, 0)]]
        return [[(HALF, state - 1), (HALF, state + 1)]] if 0 < state < 2 * stake else []

    labels = {"won": lambda state: state == 2 * stake, "lost": lambda state: state == 0}
    return Model(FIRST_ROOM, rule, labels, ["max", "min"], lambda state: "min" if state == SECOND_ROOM else "max")


def won_within(stake, tosses):
    """The chance to win the play within so many tosses: the signs of the h(a) to which a sum adds come to 0 or 1."""

    def signs(height):
        return (height // stake + 1) // 2 % 2

    ways, won = 1, 0
    for heads in range(tosses, tosses // 2, -1):
        height = 2 * heads - tosses
        won += ways * (signs(height) + signs(height - 1))
        ways = ways * heads // (tosses - heads + 1)
    return Fraction(won, 2**tosses)


def questions(stake):
    rounds = MANY_ROUNDS if stake > FEW else ()
    for options in (rounds, (*rounds, "--traps")):
        yield ask("Pmax=?", "won", HALF, CLOSED, coalition=("max",), options=options)
        yield ask("P>0.6", "won", HALF, CLOSED, coalition=("max",), options=options)
    yield ask("P>=0.5", "won", HALF, CLOSED, coalition=("max",), options=rounds)
    for bound, tosses in (("Pmax=?", stake**2), ("P>0.6", 4 * stake**2)):
        yield ask(bound, "won", won_within(stake, tosses), CLOSED, coalition=("max",), steps=tosses + 1)


def rewards(stake):
    return {"tosses": lambda state, after: isinstance(state, int) and 0 < state < 2 * stake}
