"""Voluntary exits: every answer in the order of the tests, and the assignment of epochs."""

from cases.common import books, case, chain, validator
from file_format import BOUND, FAR, G, TURN, leave


def answers():
    registry = [
        validator(0),
        validator(1, activation=1001),
        validator(2, exit=1000),
        validator(3, exit=1001),
        validator(4, activation=745),
        validator(5, activation=744, eligibility=FAR),
        validator(6),
        validator(7),
        validator(8, activation=FAR),
        validator(9, activation=1000),
    ]
    opening = books(validators=registry, partials=[(6, 1, 0), (7, 0, 0)])
    calls = [
        (leave(10, 0), 10),
        (leave(FAR, FAR, 0), 10),
        (leave(1, 0), 11),
        (leave(2, 0), 11),
        (leave(8, 2000, 0), 11),
        (leave(3, 1001, 0), 12),
        (leave(0, 1001, 0), 13),
        (leave(0, FAR, 0), 13),
        (leave(4, 1000, 0), 14),
        (leave(9, 1000), 14),
        (leave(6, 1000, 0), 15),
        (leave(0, 1000, 0), 16),
        (leave(5, 1000), 0),
        (leave(7, 0), 0),
        (leave(0, 0), 0),
        (leave(0, 0), 12),
    ]
    return case("exit_answers", opening, [call for call, _ in calls], [answer for _, answer in calls])


def single_answers():
    """Each refusal as the only fault of the call."""
    return [
        case("exit_10", books(), [leave(1, 1000)], [10]),
        case("exit_11_not_yet", books(validators=[validator(activation=1001)]), [leave(0, 1000)], [11]),
        case("exit_11_reached", books(validators=[validator(exit=1000)]), [leave(0, 1000)], [11]),
        case("exit_12", books(validators=[validator(exit=1001)]), [leave(0, 1000)], [12]),
        case("exit_13", books(), [leave(0, 1001)], [13]),
        case("exit_14", books(validators=[validator(activation=745)]), [leave(0, 1000)], [14]),
        case("exit_14_just_not", books(validators=[validator(activation=744)]), [leave(0, 1000)], [0]),
        case("exit_15", books(partials=[(0, 1, 2000)]), [leave(0, 1000)], [15]),
        case("exit_15_sum", books(partials=[(0, 0, 0), (0, 1, 0)]), [leave(0, 1000)], [15]),
        case("exit_15_other", books(validators=[validator(0), validator(1)], partials=[(1, 1, 0)]), [leave(0, 0)], [0]),
        case("exit_16", books(), [leave(0, 1000, 0)], [16]),
        case("exit_active_since_now", books(validators=[validator(activation=1000)]), [leave(0, 1000)], [14]),
    ]


def epochs():
    three = [validator(number, effective=64 * G) for number in range(3)]
    together = {"exit[0]": 1005, "exit[1]": 1005, "exit[2]": 1006, "exit_left": 64 * G, "exit_epoch": 1006}
    kept = {"exit[0]": 1007, "withdrawable[0]": 1263, "exit_left": 8 * G, "exit_epoch": 1007}
    fresh = {"exit[0]": 1005, "exit_left": 96 * G, "exit_epoch": 1005}
    many = [validator(0, effective=2048 * G)]
    active = [validator(number, effective=2048 * G) for number in range(4)]
    by_total = books(chain(max_churn=4096 * G, churn_quotient=3), validators=active)
    nothing = books(validators=[validator(effective=0)])
    return [
        case("exit_queue", books(validators=three), [leave(k, 0) for k in range(3)], [0, 0, 0], together),
        case("exit_later_epoch_kept", books(exit_epoch=1007, exit_left=40 * G), [leave(0, 0)], [0], kept),
        case("exit_old_rest_dropped", books(exit_epoch=1004, exit_left=40 * G), [leave(0, 0)], [0], fresh),
        case("exit_many_epochs", books(validators=many), [leave(0, 0)], [0], {"exit[0]": 1020, "exit_left": 0}),
        case("exit_rest_alone", books(exit_epoch=1005, exit_left=0), [leave(0, 0)], [0], {"exit[0]": 1006}),
        case("exit_effective_0", nothing, [leave(0, 0)], [0], {"exit_left": 128 * G}),
        case("exit_after_turn", books(), [TURN, leave(0, 1001)], [0, 0], {"exit[0]": 1006, "withdrawable[0]": 1262}),
        case("exit_churn_by_total", by_total, [leave(0, 0)], [0], {"exit_left": 682 * G}),
    ]


def bounds():
    no_delay = [32, 64, 1, 64, 64, 1, 0, 0, 0, 1, 0, 0, 0, 1, 1]
    last_epoch = books(no_delay, validators=[validator(effective=64)], epoch=BOUND - 1)
    return [
        case("exit_42", books(exit_epoch=BOUND, exit_left=31 * G), [leave(0, 1000)], [42], {"exit[0]": FAR}),
        case("exit_42_by_delay", books(exit_epoch=BOUND, exit_left=32 * G), [leave(0, 1000)], [42]),
        case("exit_42_by_one", books(exit_epoch=BOUND - 255, exit_left=32 * G), [leave(0, 1000)], [42]),
        case(
            "exit_at_the_bound",
            books(exit_epoch=BOUND - 256, exit_left=32 * G),
            [leave(0, 1000)],
            [0],
            {"withdrawable[0]": BOUND},
        ),
        case("exit_42_by_activation_exit", books(epoch=BOUND - 4), [leave(0, 0)], [42]),
        case("exit_at_top_without_delay", last_epoch, [leave(0, 0)], [0], {"exit[0]": BOUND}),
        case("exit_16_before_42", books(exit_epoch=BOUND), [leave(0, 1000, 0)], [16]),
    ]


def cases():
    return [answers()] + single_answers() + epochs() + bounds()
