"""Requests of the execution layer: what sets one aside, full exits, partials and their epochs."""

from cases.common import address, books, case, chain, credentials, key, validator
from file_format import BOUND, FAR, G, leave, request

NOTHING = {"partials": [], "exit_epoch": 0, "exit_left": 0}


def compounding(number=0, **values):
    return validator(number, 2, **dict(dict(balance=40 * G), **values))


def set_aside():
    """Answer 0 and nothing changed, for one reason each, with amount 1 and as a full exit."""
    one = request(address(1), key(0), 1)
    full = request(address(1), key(0), 0)
    reasons = {
        "unknown_key": (books(validators=[compounding(1)]), one, full),
        "prefix_00": (books(validators=[validator(0, 0, balance=40 * G)]), one, full),
        "prefix_03": (books(validators=[validator(0, 3, balance=40 * G)]), one, full),
        "other_address": (
            books(validators=[compounding()]),
            request(address(2), key(0), 1),
            request(address(2), key(0), 0),
        ),
        "address_last_byte": (
            books(validators=[compounding()]),
            request(address(1)[:-1] + b"\0", key(0), 1),
            request(address(1)[:-1] + b"\0", key(0), 0),
        ),
        "address_first_byte": (
            books(validators=[compounding()]),
            request(b"\0" + address(1)[1:], key(0), 1),
            request(b"\0" + address(1)[1:], key(0), 0),
        ),
        "not_active": (books(validators=[compounding(activation=1001)]), one, full),
        "exit_reached": (books(validators=[compounding(exit=1000)]), one, full),
        "exit_begun": (books(validators=[compounding(exit=1001)]), one, full),
        "active_too_short": (books(validators=[compounding(activation=745)]), one, full),
    }
    found = []
    for name, (opening, partial, exit_call) in reasons.items():
        found.append(case(f"request_aside_{name}", opening, [partial, exit_call], [0, 0], NOTHING))
    return found


def full_exits():
    full = request(address(1), key(0), 0)
    waiting = books(validators=[compounding()], partials=[(0, 1, 2000)])
    zero_waiting = books(validators=[compounding()], partials=[(0, 0, 2000)])
    twins = books(validators=[validator(0, 0), compounding(0)])
    gone = {"exit[0]": 1005, "withdrawable[0]": 1261, "exit_epoch": 1005, "exit_left": 96 * G}
    ignored = credentials(1, 1, 7)
    return [
        case("request_full_exit", books(validators=[compounding()]), [full, full, leave(0, 0)], [0, 0, 12], gone),
        case("request_full_exit_01", books(), [full], [0], gone),
        case("request_full_exit_middle_bytes", books(validators=[validator(credentials=ignored)]), [full], [0], gone),
        case("request_full_exit_waiting", waiting, [full], [0], {"exit[0]": FAR, "exit_epoch": 0}),
        case("request_full_exit_zero_waiting", zero_waiting, [full], [0], gone),
        case("request_full_exit_just_long_enough", books(validators=[compounding(activation=744)]), [full], [0], gone),
        case("request_equal_keys", twins, [full], [0], {"exit[0]": FAR, "exit[1]": FAR}),
    ]


def partials():
    def ask(amount):
        return request(address(1), key(0), amount)

    rich = books(validators=[compounding()])
    one_over = books(validators=[compounding(balance=32 * G + 1)])
    exact = books(validators=[compounding(balance=32 * G)])
    low = books(validators=[compounding(effective=32 * G - 1)])
    eth1 = books(validators=[validator(0, 1, balance=40 * G)])
    waiting = books(validators=[compounding()], partials=[(0, 3 * G, 2000)])
    all_waiting = books(validators=[compounding()], partials=[(0, 3 * G, 0), (0, 5 * G, 0)])
    more_waiting = books(validators=[compounding()], partials=[(0, 9 * G, 0)])
    other_waiting = books(validators=[compounding(), compounding(1)], partials=[(1, 8 * G, 0)])
    both_wait = [(1, 8 * G, 0), (0, 8 * G, 1261)]
    in_turn = {"partials": [(0, 3 * G, 1261), (0, 5 * G, 1261)], "exit[0]": FAR, "exit_left": 120 * G}
    kept = books(validators=[compounding()], exit_epoch=1010, exit_left=G)
    into_next = {"partials": [(0, 8 * G, 1267)], "exit_epoch": 1011, "exit_left": 121 * G}
    return [
        case("request_partial", rich, [ask(3 * G), ask(100 * G), ask(1), ask(0)], [0, 0, 0, 0], in_turn),
        case("request_partial_1", rich, [ask(1)], [0], {"partials": [(0, 1, 1261)]}),
        case("request_partial_all", rich, [ask(8 * G)], [0], {"partials": [(0, 8 * G, 1261)]}),
        case("request_partial_capped", rich, [ask(8 * G + 1)], [0], {"partials": [(0, 8 * G, 1261)]}),
        case("request_partial_far", rich, [ask(FAR)], [0], {"partials": [(0, 8 * G, 1261)]}),
        case("request_partial_one_over", one_over, [ask(5)], [0], {"partials": [(0, 1, 1261)]}),
        case("request_partial_at_minimum", exact, [ask(1)], [0], NOTHING),
        case("request_partial_low_effective", low, [ask(1)], [0], NOTHING),
        case("request_partial_01", eth1, [ask(1)], [0], NOTHING),
        case("request_partial_behind", waiting, [ask(9 * G)], [0], {"partials": [(0, 3 * G, 2000), (0, 5 * G, 1261)]}),
        case("request_partial_none_left", all_waiting, [ask(1)], [0], {"exit_epoch": 0}),
        case("request_partial_more_waiting", more_waiting, [ask(1)], [0], {"partials": [(0, 9 * G, 0)]}),
        case("request_partial_other_waiting", other_waiting, [ask(9 * G)], [0], {"partials": both_wait}),
        case("request_partial_next_epoch", kept, [ask(8 * G)], [0], into_next),
    ]


def bounds():
    one = request(address(1), key(0), 1)
    full = request(address(1), key(0), 0)
    two = [compounding(), compounding(1)]
    near = books(validators=two, partials=[(1, BOUND - 2, 0)])
    at_top = books(validators=two, partials=[(1, BOUND, 0)])
    late = books(validators=[compounding()], exit_epoch=BOUND - 255, exit_left=G)
    last = books(validators=[compounding()], exit_epoch=BOUND - 256, exit_left=G)
    both = books(validators=two, partials=[(1, BOUND, 0)], exit_epoch=BOUND)
    by_churn = books(validators=[compounding()], exit_epoch=BOUND - 256, exit_left=0)
    great = books(validators=[compounding(balance=BOUND)])
    slow = books(chain(max_churn=1), validators=[compounding(balance=BOUND)])
    exit_epoch = 1005 + (BOUND - 32 * G - 128 * G - 1) // (128 * G) + 1
    up_to_top = [(1, BOUND - 2, 0), (0, 1, 1261), (0, 1, 1261)]
    whole = {"partials": [(0, BOUND - 32 * G, exit_epoch + 256)], "exit_epoch": exit_epoch}
    return [
        case("request_41", near, [one, one, one], [0, 0, 41], {"partials": up_to_top}),
        case("request_41_at_top", at_top, [one, full], [41, 0], {"exit[0]": 1005}),
        case("request_42_by_delay", late, [one], [42]),
        case("request_42_full_exit", late, [full], [42]),
        case("request_at_the_bound", last, [one], [0], {"partials": [(0, 1, BOUND)]}),
        case("request_42_by_churn", by_churn, [one], [42]),
        case("request_41_before_42", both, [one], [41]),
        case("request_great", great, [request(address(1), key(0), FAR)], [0], whole),
        case("request_42_slow", slow, [request(address(1), key(0), FAR)], [0], {"exit_epoch": 1004 + BOUND - 32 * G}),
    ]


def cases():
    return set_aside() + full_exits() + partials() + bounds()
