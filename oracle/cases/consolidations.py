"""Consolidations: every answer in the order of the tests, and the assignment of epochs."""

from cases.common import HALF_CHURN, books, case, chain, credentials, validator
from file_format import BOUND, FAR, G, TURN, consolidate


def two(chain_values=HALF_CHURN, source=None, target=None, **rest):
    pair = [validator(0, **(source or {})), validator(1, **(target or {}))]
    return books(chain_values, validators=pair, **rest)


def answers():
    registry = [
        validator(0),
        validator(1),
        validator(2, activation=1001),
        validator(3, exit=1001, withdrawable=1200),
        validator(4, 0),
        validator(5, 1, 2),
        validator(6, 2),
    ]
    calls = [
        (consolidate(0, 0, 2000, 0), 22),
        (consolidate(7, 7), 22),
        (consolidate(FAR, FAR), 22),
        (consolidate(7, 8), 10),
        (consolidate(7, 2), 10),
        (consolidate(0, 7), 10),
        (consolidate(2, 7), 10),
        (consolidate(2, 0), 11),
        (consolidate(0, 2), 11),
        (consolidate(3, 2), 11),
        (consolidate(3, 0, 1001), 12),
        (consolidate(0, 3, 1001), 12),
        (consolidate(0, 4, 1001, 0), 13),
        (consolidate(4, 0, 1000, 0), 23),
        (consolidate(0, 4, 1000, 0), 23),
        (consolidate(0, 5, 1000, 0), 24),
        (consolidate(0, 6, 1000, 0), 16),
        (consolidate(0, 6, 1000), 0),
        (consolidate(0, 6, 1000), 12),
    ]
    opening = books(HALF_CHURN, validators=registry)
    return case("consolidation_answers", opening, [call for call, _ in calls], [answer for _, answer in calls])


def single_answers():
    """Each refusal as the only fault of the call."""
    call = [consolidate(0, 1, 1000)]
    last_byte = credentials(1)[:-1] + b"\0"
    twelfth = credentials(1)[:12] + b"\0" + credentials(1)[13:]
    middle = credentials(2, 1, 9)
    return [
        case("consolidation_20", two(limits=(256, 256, 256, 1), consolidations=[(1, 0)]), call, [20]),
        case("consolidation_20_just_not", two(limits=(256, 256, 256, 2), consolidations=[(1, 0)]), call * 2, [0, 20]),
        case("consolidation_21_mainnet", two(None), call, [21]),
        case("consolidation_21_at_minimum", two(chain(max_churn=96 * G)), call, [21]),
        case("consolidation_21_just_not", two(chain(max_churn=95 * G)), call, [0]),
        case("consolidation_22", two(), [consolidate(0, 0, 1000)], [22]),
        case("consolidation_10_source", two(), [consolidate(2, 1, 1000)], [10]),
        case("consolidation_10_target", two(), [consolidate(0, 2, 1000)], [10]),
        case("consolidation_11_source", two(source=dict(exit=1000)), call, [11]),
        case("consolidation_11_target", two(target=dict(activation=1001)), call, [11]),
        case("consolidation_12_source", two(source=dict(exit=1001)), call, [12]),
        case("consolidation_12_target", two(target=dict(exit=1001)), call, [12]),
        case("consolidation_13", two(), [consolidate(0, 1, 1001)], [13]),
        case("consolidation_23_source", two(source=dict(credentials=credentials(0))), call, [23]),
        case("consolidation_23_target", two(target=dict(credentials=credentials(3))), call, [23]),
        case("consolidation_24_last_byte", two(target=dict(credentials=last_byte)), call, [24]),
        case("consolidation_24_first_byte", two(source=dict(credentials=twelfth)), call, [24]),
        case("consolidation_middle_bytes", two(target=dict(credentials=middle)), call, [0]),
        case("consolidation_16", two(), [consolidate(0, 1, 1000, 0)], [16]),
        case("consolidation_20_before_21", two(None, limits=(2, 1, 1, 1), consolidations=[(1, 0)]), call, [20]),
        case("consolidation_21_before_22", two(None), [consolidate(0, 0)], [21]),
        # Neither the time active nor waiting partials are looked at.
        case("consolidation_new_source", two(source=dict(activation=1000), partials=[(0, 1, 0)]), call, [0]),
        case("consolidation_slashed", two(source=dict(slashed=1), target=dict(slashed=1)), call, [0]),
    ]


def epochs():
    call = [consolidate(0, 1)]
    entry = {"consolidations": [(0, 1)], "balance[0]": 32 * G, "credentials[1]": credentials(1)}
    plain = {"exit[0]": 1005, "withdrawable[0]": 1261, "consolidation_left": 32 * G, **entry}
    whole = {"exit[0]": 1007, "withdrawable[0]": 1263, "consolidation_left": 0}
    many = {"exit[0]": 1008, "withdrawable[0]": 1264, "consolidation_left": 56 * G}
    kept = {"exit[0]": 1009, "consolidation_left": 8 * G, "consolidation_epoch": 1009}
    fresh = {"exit[0]": 1005, "consolidation_left": 32 * G}
    untouched = {"exit_epoch": 7, "exit_left": 5}
    third = books(HALF_CHURN, validators=[validator(0), validator(1), validator(2, 2)])
    chain_of_two = [consolidate(0, 1), consolidate(2, 1), consolidate(1, 2), consolidate(2, 1)]
    return [
        case("consolidation", two(), call, [0], plain),
        case("consolidation_whole_epochs", two(source=dict(effective=192 * G)), call, [0], whole),
        case("consolidation_many_epochs", two(source=dict(effective=200 * G)), call, [0], many),
        case("consolidation_rest_used", two(consolidation_epoch=1009, consolidation_left=40 * G), call, [0], kept),
        case("consolidation_old_rest_dropped", two(consolidation_epoch=1004, consolidation_left=9), call, [0], fresh),
        case("consolidation_exit_account_untouched", two(exit_epoch=7, exit_left=5), call, [0], untouched),
        case("consolidation_three", third, chain_of_two, [0, 0, 12, 12], {"exit[2]": 1005, "consolidation_left": 0}),
        case("consolidation_then_turns", two(), call + [TURN, TURN], [0, 0, 0], {"consolidations": [(0, 1)]}),
    ]


def bounds():
    call = [consolidate(0, 1)]
    late = two(consolidation_epoch=BOUND - 255, consolidation_left=32 * G)
    last = two(consolidation_epoch=BOUND - 256, consolidation_left=32 * G)
    over = two(consolidation_epoch=BOUND, consolidation_left=0)
    refused = {"exit[0]": FAR, "consolidations": [], "consolidation_left": 32 * G}
    return [
        case("consolidation_42_by_delay", late, call, [42], refused),
        case("consolidation_at_the_bound", last, call, [0], {"withdrawable[0]": BOUND, "consolidation_left": 0}),
        case("consolidation_42", over, call, [42]),
        case("consolidation_16_before_42", over, [consolidate(0, 1, 0, 0)], [16]),
    ]


def cases():
    return [answers()] + single_answers() + epochs() + bounds()
