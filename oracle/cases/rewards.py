"""Rewards and penalties: increase, and decrease that stops at 0."""

from cases.common import books, case, validator
from file_format import BOUND, FAR, penalty, reward


def cases():
    three, two_bad = [reward(0, 3), reward(1, 0), reward(1, 7)], [penalty(2, 0), penalty(FAR, FAR)]
    small = books(validators=[validator(0, balance=5), validator(1, balance=0)])
    near_top = books(validators=[validator(0, balance=BOUND - 3), validator(1, balance=0)], deposits=[(0, 1)])
    return [
        case("reward", small, three, [0, 0, 0], {"balance[0]": 8, "balance[1]": 7}),
        case("reward_no_such", small, [reward(2, 0), reward(FAR, 1), reward(2**32, 1)], [10] * 3, {"balance[0]": 5}),
        case("penalty", small, [penalty(0, 3), penalty(0, 2), penalty(0, 1)], [0, 0, 0], {"balance[0]": 0}),
        case("penalty_stops_at_0", small, [penalty(0, 6), penalty(1, FAR)], [0, 0], {"balance[0]": 0, "balance[1]": 0}),
        case("penalty_0", small, [penalty(0, 0)], [0], {"balance[0]": 5}),
        case("penalty_no_such", small, two_bad, [10, 10]),
        case(
            "reward_over_the_sum",
            near_top,
            [reward(0, 3), reward(1, 3), reward(0, FAR), reward(0, 2**63), reward(1, 2), reward(0, 1), penalty(0, FAR)],
            [41, 41, 41, 41, 0, 41, 0],
            {"balance[0]": 0, "balance[1]": 2},
        ),
        case("reward_10_before_41", near_top, [reward(2, FAR)], [10]),
    ]
