"""Turns: deposits, consolidations, effective balances, then the next epoch."""

from cases.common import books, case, chain, credentials, left_early, validator
from file_format import BOUND, FAR, G, TURN


def deposits():
    empty = [validator(balance=0)]
    blocked = books(validators=empty, deposits=[(0, 129 * G), (0, 1)])
    zeros = books(validators=empty, deposits=[(0, 128 * G), (0, 0), (0, 0), (0, 1), (0, 0)])
    several = books(validators=[validator(0, balance=0), validator(1, balance=0)], deposits=[(0, 5), (1, 6), (0, 7)])
    great = books(validators=empty, deposits=[(0, BOUND)])
    carried = books(validators=empty, carry=BOUND, deposits=[(0, BOUND)])
    active = [validator(k, effective=2048 * G, balance=0) for k in range(4)]
    by_total = books(chain(churn_quotient=32), validators=active, deposits=[(0, 256 * G), (0, 1)])
    rounded = books(chain(min_churn=128 * G + 5), validators=empty, deposits=[(0, 128 * G), (0, 1)])
    capped = books(chain(max_churn=3), validators=empty, deposits=[(0, 3), (0, 1)])
    inactive = books(
        chain(churn_quotient=1),
        validators=[validator(0, activation=1001, balance=0), validator(1, exit=1000)],
        deposits=[(0, 128 * G), (0, 1)],
    )
    in_two = {"balance[0]": 129 * G + 1, "deposits": [], "carry": 0}
    return [
        case("turn_deposit_waits", blocked, [TURN], [0], {"balance[0]": 0, "carry": 128 * G, "epoch": 1001}),
        case("turn_deposit_next_turn", blocked, [TURN, TURN], [0, 0], in_two),
        case("turn_zeros_behind", zeros, [TURN], [0], {"deposits": [(0, 1), (0, 0)], "carry": 0}),
        case("turn_in_order", several, [TURN], [0], {"balance[0]": 12, "balance[1]": 6, "carry": 0}),
        case("turn_empty_queue_clears_carry", books(carry=5), [TURN], [0], {"carry": 0}),
        case("turn_great_deposit", great, [TURN] * 3, [0] * 3, {"carry": 384 * G, "deposits": [(0, BOUND)]}),
        case("turn_great_carry", carried, [TURN], [0], {"balance[0]": BOUND, "carry": 0}),
        case("turn_allowance_by_total", by_total, [TURN], [0], {"deposits": [(0, 1)], "carry": 0}),
        case("turn_allowance_rounded", rounded, [TURN], [0], {"deposits": [(0, 1)], "carry": 0}),
        case("turn_allowance_capped", capped, [TURN], [0], {"deposits": [(0, 1)], "carry": 0}),
        case("turn_allowance_without_inactive", inactive, [TURN], [0], {"deposits": [(0, 1)], "carry": 0}),
    ]


def consolidations():
    def pair(source, target, **rest):
        return books(validators=[source, target], consolidations=[(0, 1)], **rest)

    gone = left_early(0, 1, balance=40 * G)
    switched = {"deposits": [(1, G)], "balance[0]": 8 * G, "balance[1]": 64 * G, "credentials[1]": credentials(2)}
    no_excess = {"deposits": [], "balance[1]": 64 * G, "credentials[1]": credentials(2)}
    compounding = {"deposits": [], "balance[1]": 65 * G}
    kept_00 = {"deposits": [], "balance[1]": 65 * G, "credentials[1]": credentials(0)}
    poor = left_early(0, 1, balance=3 * G)
    rich_source = left_early(0, 2, balance=3000 * G)
    own = books(validators=[left_early(0, 1, balance=40 * G)], consolidations=[(0, 0)])
    own_02 = books(validators=[left_early(0, 2, balance=40 * G)], consolidations=[(0, 0)])
    own_again = {"deposits": [(0, 8 * G)], "balance[0]": 32 * G, "consolidations": []}
    several = books(
        validators=[
            left_early(0, 1, balance=40 * G),
            validator(1, 1, balance=33 * G),
            left_early(2, 1, balance=35 * G),
        ],
        consolidations=[(0, 1), (2, 1), (1, 0), (2, 0)],
    )
    in_order = {"deposits": [(1, G)], "consolidations": [(1, 0), (2, 0)], "balance[1]": 96 * G}
    slashed = books(
        validators=[left_early(0, 1, slashed=1), left_early(1, 1), validator(2)],
        consolidations=[(0, 2), (1, 2), (0, 1)],
    )
    dropped = {"consolidations": [], "balance[0]": 32 * G, "balance[2]": 64 * G}
    unexited = pair(validator(0, 1, withdrawable=1000), validator(1, 2))
    return [
        case("turn_switch", pair(gone, validator(1, 1, balance=33 * G)), [TURN], [0], switched),
        case("turn_switch_at_minimum", pair(gone, validator(1, 1)), [TURN], [0], no_excess),
        case("turn_compounding_target", pair(gone, validator(1, 2, balance=33 * G)), [TURN], [0], compounding),
        case("turn_00_target", pair(gone, validator(1, 0, balance=33 * G)), [TURN], [0], kept_00),
        case("turn_03_target", pair(gone, validator(1, 3, balance=33 * G)), [TURN], [0], {"balance[1]": 65 * G}),
        case("turn_poor_source", pair(poor, validator(1, 2)), [TURN], [0], {"balance[0]": 0, "balance[1]": 35 * G}),
        case("turn_rich_source", pair(rich_source, validator(1, 2)), [TURN], [0], {"balance[0]": 952 * G}),
        case("turn_own_target", own, [TURN], [0], own_again),
        case("turn_own_target_02", own_02, [TURN], [0], {"deposits": [], "balance[0]": 40 * G, "consolidations": []}),
        case("turn_several", several, [TURN], [0], in_order),
        case("turn_slashed_dropped", slashed, [TURN], [0], dropped),
        case("turn_unexited_source", unexited, [TURN], [0], {"balance[0]": 0, "consolidations": []}),
        case("turn_far_source_stops", pair(validator(0), validator(1)), [TURN], [0], {"consolidations": [(0, 1)]}),
    ]


def effective_balances():
    def after(name, want, **values):
        opening = books(validators=[validator(**values)])
        return case("turn_effective_" + name, opening, [TURN], [0], {"effective[0]": want})

    uneven = books(chain(hysteresis_quotient=3), validators=[validator(0, 2, balance=33666666665)])
    uneven_over = books(chain(hysteresis_quotient=3), validators=[validator(0, 2, balance=33666666666)])
    no_threshold = chain(hysteresis_quotient=65536, increment=3, min_churn=3)
    fine = books(no_threshold, validators=[validator(0, 2, balance=32 * G + 3)])
    return [
        after("01_stays_at_minimum", 32 * G, balance=40 * G),
        after("02_rises", 40 * G, prefix=2, balance=40 * G + 5),
        after("02_at_second", 2048 * G, prefix=2, balance=3000 * G),
        after("00_falls", 0, prefix=0, balance=0),
        after("01_above_minimum_kept", 33 * G, effective=33 * G, balance=33 * G),
        after("01_above_minimum_falls", 32 * G, effective=40 * G, balance=35 * G),
        after("odd_kept", 32 * G + 7, effective=32 * G + 7, prefix=2, balance=32 * G),
        after("inactive_too", 16 * G, exit=5, balance=16 * G),
        case("turn_effective_divides_first", uneven, [TURN], [0], {"effective[0]": 32 * G}),
        case("turn_effective_divides_first_over", uneven_over, [TURN], [0], {"effective[0]": 33 * G}),
        case("turn_effective_threshold_0", fine, [TURN], [0], {"effective[0]": (32 * G + 3) // 3 * 3}),
    ]


def bounds():
    switching = [left_early(0, 1), validator(1, 1, balance=33 * G)]
    waits = books(limits=(256, 1, 256, 256), validators=switching, deposits=[(0, 200 * G)], consolidations=[(0, 1)])
    room = books(limits=(256, 1, 256, 256), validators=switching, deposits=[(0, 128 * G)], consolidations=[(0, 1)])
    last = books(epoch=BOUND, deposits=[(0, 1)])
    both = books(
        limits=(256, 1, 256, 256),
        epoch=BOUND,
        validators=switching,
        deposits=[(0, 200 * G)],
        consolidations=[(0, 1)],
    )
    unchanged = {"deposits": [(0, 200 * G)], "consolidations": [(0, 1)], "balance[1]": 33 * G, "epoch": 1000}
    return [
        case("turn_40", waits, [TURN], [40], unchanged),
        case("turn_crediting_makes_room", room, [TURN], [0], {"deposits": [(1, G)]}),
        case("turn_42", last, [TURN], [42], {"deposits": [(0, 1)], "epoch": BOUND}),
        case("turn_at_the_bound", books(epoch=BOUND - 1), [TURN, TURN], [0, 42], {"epoch": BOUND}),
        case("turn_40_before_42", both, [TURN], [40]),
        case("turn_far_epochs_kept", books(), [TURN], [0], {"exit[0]": FAR, "withdrawable[0]": FAR}),
    ]


def cases():
    return deposits() + consolidations() + effective_balances() + bounds()
