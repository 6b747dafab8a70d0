"""The bare epoch assignment: left, earliest epoch, activation-exit epoch, churn, amount; answer,
left and epoch out. A refusal returns its number alone; left and epoch are recorded as 0."""

from cases.common import Case
from dice import Dice
from file_format import BOUND, FAR, G

RANDOM_ROWS = 300
SEED = 20


def edges():
    return [
        ((32 * G, 1005, 1005, 128 * G, 32 * G), (0, 0, 1005)),
        ((32 * G, 1005, 1005, 128 * G, 32 * G + 1), (0, 127_999_999_999, 1006)),
        ((32 * G, 1006, 1005, 128 * G, 32 * G), (0, 0, 1006)),
        ((32 * G, 1004, 1005, 128 * G, 32 * G), (0, 96 * G, 1005)),
        ((0, 0, 1005, 64 * G, 32 * G), (0, 32 * G, 1005)),
        ((0, 0, 0, 1, 0), (0, 0, 0)),
        ((0, 0, 0, 1, 1), (0, 0, 1)),
        ((5, 0, 0, 1, 5), (0, 0, 0)),
        ((5, 0, 0, 4, 6), (0, 3, 1)),
        ((5, 0, 1, 4, 6), (0, 2, 2)),
        ((5, 0, 1, 4, 4), (0, 0, 1)),
        ((5, 7, 0, 4, 13), (0, 0, 9)),
        ((5, 7, 0, 4, 14), (0, 3, 10)),
        ((0, 0, 1, 1, FAR), (0, 0, None)),
        ((FAR, 5, 5, 1, FAR), (0, 0, 5)),
        ((FAR, 5, 5, 1, 0), (0, FAR, 5)),
        ((FAR, 4, 5, 3, 0), (0, 3, 5)),
        ((0, 5, 5, FAR, FAR), (0, 0, 6)),
        ((1, 5, 5, FAR, FAR), (0, 1, 6)),
        ((0, 5, 5, FAR, 1), (0, FAR - 1, 6)),
    ]


def refusals():
    zero_churn = [
        ((0, 0, 0, 0, 0), (50, 0, 0)),
        ((5, 1, 1, 0, 5), (50, 0, 0)),
        ((5, FAR, FAR, 0, 6), (50, 0, 0)),
        ((FAR, FAR, 0, 0, FAR), (50, 0, 0)),
    ]
    over = [
        ((0, BOUND, 5, 1, 0), (0, 0, BOUND)),
        ((0, BOUND, 5, 1, 1), (42, 0, 0)),
        ((0, BOUND + 1, 5, 1, 0), (42, 0, 0)),
        ((0, 5, BOUND, 7, 7), (0, 0, BOUND)),
        ((0, 5, BOUND, 7, 8), (42, 0, 0)),
        ((0, 5, BOUND + 1, 7, 0), (42, 0, 0)),
        ((0, FAR, 5, 7, 0), (42, 0, 0)),
        ((0, 5, FAR, 7, 0), (42, 0, 0)),
        ((FAR, FAR, FAR, 7, 0), (42, 0, 0)),
        ((0, FAR, FAR, 1, FAR), (42, 0, 0)),
        ((0, BOUND - 1, 5, 1, 1), (0, 0, BOUND)),
        ((0, BOUND - 1, 5, 1, 2), (42, 0, 0)),
        ((0, 0, 0, 1, BOUND), (0, 0, BOUND)),
        ((0, 0, 0, 1, BOUND + 1), (42, 0, 0)),
        ((1, 0, 0, 1, BOUND + 1), (0, 0, BOUND)),
        ((0, 0, 0, 2, 2**63), (0, 0, BOUND)),
        ((0, 0, 0, 2, 2**63 + 1), (42, 0, 0)),
        ((0, 0, 0, 4, FAR), (0, 1, BOUND)),
        ((0, 0, 1, 4, FAR), (0, 1, BOUND)),
        ((0, 1, 1, 4, FAR), (42, 0, 0)),
    ]
    return zero_churn + over


def by_definition(row):
    """Left and epoch by document 01, for the random rows."""
    left, earliest, activation_exit, churn, amount = row
    if churn == 0:
        return (50, 0, 0)
    epoch = max(earliest, activation_exit)
    if earliest < activation_exit:
        left = churn
    if amount > left:
        more = -(-(amount - left) // churn)
        epoch += more
        left += more * churn
    return (42, 0, 0) if epoch > BOUND else (0, left - amount, epoch)


def random_row(dice):
    def number(top):
        kind = dice.below(5)
        if kind == 0:
            return dice.below(8)
        if kind == 1:
            return dice.pick([FAR, FAR - 1, BOUND, BOUND - 1, BOUND + 1, 2**63, top])
        return dice.below(top)

    start = dice.below(2000)
    near = [start, start, start + 1, max(0, start - 1)]
    return (
        number(100 * G),
        dice.pick(near) if dice.chance(70) else number(BOUND),
        start if dice.chance(80) else number(BOUND),
        dice.pick([0, 1, 2, 3]) if dice.chance(15) else number(100 * G),
        number(dice.pick([40, 500 * G, BOUND])),
    )


def cases():
    first = edges()
    rows = [(row, by_definition(row) if None in want else want) for row, want in first]
    dice = Dice(SEED)
    random_rows = [random_row(dice) for _ in range(RANDOM_ROWS)]
    return [
        Case("assignment_edges", rows=rows),
        Case("assignment_refusals", rows=refusals()),
        Case("assignment_random", rows=[(row, by_definition(row)) for row in random_rows]),
    ]
