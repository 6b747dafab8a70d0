"""The edges of document 01, marked and not, its example, and its wrong turns."""

from cases.common import HALF_CHURN, address, books, case, credentials, key, left_early, validator
from file_format import FAR, G, TURN, consolidate, leave, request, withdrawals


def marked_amounts():
    """The marked edges of epochs, deposits and effective balances."""
    exact = books(exit_left=32 * G, exit_epoch=1005)
    one_more = books(validators=[validator(effective=32 * G + 1)], exit_left=32 * G, exit_epoch=1005)
    empty = [validator(balance=0)]
    reached = books(carry=2 * G, validators=empty, deposits=[(0, 129 * G), (0, G)])
    over = books(carry=2 * G, validators=empty, deposits=[(0, 129 * G), (0, G + 1)])
    no_epoch = {"exit_left": 0, "exit_epoch": 1005, "exit[0]": 1005, "withdrawable[0]": 1261}
    one_epoch = {"exit_left": 127_999_999_999, "exit_epoch": 1006, "exit[0]": 1006}
    credited = {"carry": 0, "balance[0]": 130 * G, "deposits": []}
    waits = {"carry": G, "balance[0]": 129 * G, "deposits": [(0, G + 1)]}
    found = [
        case("edge_left_exactly_used", exact, [leave(0, 1000)], [0], no_epoch),
        case("edge_one_gwei_more", one_more, [leave(0, 1000)], [0], one_epoch),
        case("edge_deposits_exact", reached, [TURN], [0], credited),
        case("edge_deposits_one_over", over, [TURN], [0], waits),
    ]
    balances = (
        ("up_stays", 33_250_000_000, 32),
        ("up_by_one", 33_250_000_001, 33),
        ("down_stays", 31_750_000_000, 32),
        ("down_by_one", 31_749_999_999, 31),
    )
    for name, balance, effective in balances:
        opening = books(validators=[validator(0, 2, balance=balance)])
        found.append(case("edge_hysteresis_" + name, opening, [TURN], [0], {"effective[0]": effective * G}))
    return found


def marked_queues():
    """The marked edges of consolidations, partials and requests."""
    slashed = books(validators=[left_early(0, slashed=1, withdrawable=1001), validator(1)], consolidations=[(0, 1)])
    waiting = books(
        validators=[left_early(0, withdrawable=1001), validator(1), left_early(2)],
        consolidations=[(0, 1), (2, 1)],
    )
    partial = books(validators=[validator(0, 2, balance=33 * G)], partials=[(0, 5 * G, 1000)])
    full_queue = books(
        limits=(256, 256, 1, 256),
        validators=[validator(0, 2, balance=40 * G), validator(1)],
        partials=[(1, 1, 0)],
    )
    dropped = {"consolidations": [], "credentials[1]": credentials(1), "balance[0]": 32 * G}
    paid = {"partials": [], "balance[0]": 32 * G, "withdrawal_index": 1}
    nothing = {"partials": [(1, 1, 0)], "exit_epoch": 0, "exit[0]": FAR}
    source_out = {
        "exit[0]": 1005,
        "withdrawable[0]": 1261,
        "consolidations": [(0, 1)],
        "consolidation_left": 32 * G,
        "consolidation_epoch": 1005,
    }
    return [
        case("edge_slashed_source", slashed, [TURN], [0], dropped),
        case("edge_source_not_yet", waiting, [TURN], [0], {"consolidations": [(0, 1), (2, 1)]}),
        case("edge_source_next_turn", waiting, [TURN, TURN], [0, 0], {"consolidations": []}),
        case("edge_partial_pays_1", partial, [withdrawals((0, 0, address(1), G))], [0], paid),
        case("edge_full_queue_amount_1", full_queue, [request(address(1), key(0), 1)], [0], nothing),
        case("edge_full_queue_amount_0", full_queue, [request(address(1), key(0), 0)], [0], {"exit[0]": 1005}),
        case(
            "edge_consolidation",
            books(HALF_CHURN, validators=[validator(0), validator(1)]),
            [consolidate(0, 1, 1000)],
            [0],
            source_out,
        ),
    ]


def example():
    opening = books(validators=[validator(balance=40 * G)], deposits=[(0, G)])
    calls = [TURN, leave(0, 1000), leave(0, 1000)]
    return [
        case("example", opening, calls, [0, 0, 12], {"epoch": 1001, "balance[0]": 41 * G, "deposits": []}),
        case("example_without_calls", opening, [], []),
    ]


def wrong_turns():
    """What document 01 warns of, and the carry that waits with the deposits."""
    blocked = books(validators=[validator(balance=0)], deposits=[(0, 129 * G), (0, 1)])
    carried = books(validators=[validator(balance=0)], carry=5, deposits=[(0, 300 * G)])
    reserved = books(validators=[validator(0, 2, balance=33 * G)], partials=[(0, G, 1000), (0, G, 1000)])
    pays_both = [withdrawals((0, 0, address(1), G), (1, 0, address(1), G))]
    return [
        case("no_deposit_skipped", blocked, [TURN], [0], {"balance[0]": 0, "deposits": [(0, 129 * G), (0, 1)]}),
        case("carry_kept_while_waiting", carried, [TURN, TURN], [0, 0], {"carry": 256 * G + 5}),
        case("carry_used", carried, [TURN] * 3, [0] * 3, {"carry": 0, "balance[0]": 300 * G}),
        case("partials_read_untouched_balance", reserved, pays_both, [0], {"balance[0]": 31 * G}),
    ]


def cases():
    return example() + marked_amounts() + marked_queues() + wrong_turns()
