"""Receipts: known and unknown keys, both signatures, the switch and its excess, the start index."""

from cases.common import address, books, case, credentials, key, validator
from file_format import BOUND, FAR, G, TURN, receipt

NEW = 9


def unknown_keys():
    new = receipt(key(NEW), credentials(1, 2), 5 * G, 77)
    bad = receipt(key(NEW), credentials(1, 2), 5 * G, 77, 0)
    added = {
        "validators": 2,
        "deposits": [(1, 5 * G)],
        "receipts_start": 77,
        "key[1]": key(NEW),
        "credentials[1]": credentials(1, 2),
        "slashed[1]": 0,
        "effective[1]": 0,
        "eligibility[1]": FAR,
        "activation[1]": FAR,
        "exit[1]": FAR,
        "withdrawable[1]": FAR,
        "balance[1]": 0,
    }
    aside = {"validators": 1, "deposits": [], "receipts_start": 77}
    any_prefix = [receipt(key(10 + prefix), credentials(prefix), prefix) for prefix in (0, 1, 2, 3, 255)]
    return [
        case("receipt_new", books(receipts_start=FAR), [new], [0], added),
        case("receipt_new_bad", books(receipts_start=FAR), [bad], [0], aside),
        case("receipt_new_then_known", books(), [new, new], [0, 0], {"validators": 2, "deposits": [(1, 5 * G)] * 2}),
        case("receipt_new_prefixes", books(), any_prefix, [0] * 5, {"validators": 6}),
        case("receipt_new_turns", books(), [new, TURN, TURN], [0, 0, 0], {"balance[1]": 5 * G, "effective[1]": 5 * G}),
    ]


def known_keys():
    top_up = receipt(key(0), credentials(1, 2), 5 * G, 77)
    switch = receipt(key(0), credentials(2, 2), 5 * G, 77)
    bad_switch = receipt(key(0), credentials(2, 2), 5 * G, 77, 0)
    rich = books(validators=[validator(0, 1, balance=40 * G)])
    exact = books(validators=[validator(0, 1)])
    one_over = books(validators=[validator(0, 1, balance=32 * G + 1)])
    poor = books(validators=[validator(0, 1, balance=0)])
    switched = {
        "deposits": [(0, 5 * G), (0, 8 * G)],
        "credentials[0]": b"\x02" + bytes(11) + address(1),
        "balance[0]": 32 * G,
    }
    kept = {"deposits": [(0, 5 * G)], "credentials[0]": credentials(1), "balance[0]": 40 * G}
    found = [
        case("receipt_top_up", books(), [top_up], [0], {"deposits": [(0, 5 * G)], "receipts_start": 0}),
        case("receipt_switch", rich, [switch], [0], switched),
        case("receipt_switch_bad", rich, [bad_switch], [0], kept),
        case("receipt_switch_at_minimum", exact, [switch], [0], {"deposits": [(0, 5 * G)], "balance[0]": 32 * G}),
        case("receipt_switch_one_over", one_over, [switch], [0], {"deposits": [(0, 5 * G), (0, 1)]}),
        case("receipt_switch_poor", poor, [switch], [0], {"deposits": [(0, 5 * G)], "credentials[0]": credentials(2)}),
        case("receipt_amount_0", books(), [receipt(key(0), credentials(1), 0)], [0], {"deposits": [(0, 0)]}),
        case("receipt_switch_twice", rich, [switch, switch], [0, 0], {"deposits": [*switched["deposits"], (0, 5 * G)]}),
    ]
    for prefix in (0, 2, 3):
        opening = books(validators=[validator(0, prefix, balance=40 * G)])
        want = {"deposits": [(0, 5 * G)], "credentials[0]": credentials(prefix), "balance[0]": 40 * G}
        found.append(case(f"receipt_no_switch_of_{prefix}", opening, [switch], [0], want))
    for prefix in (0, 1, 3):
        call = receipt(key(0), credentials(prefix), 5 * G)
        want = {"deposits": [(0, 5 * G)], "balance[0]": 40 * G}
        found.append(case(f"receipt_no_switch_by_{prefix}", rich, [call], [0], want))
    twins = books(validators=[validator(0, 0), validator(0, 1, balance=40 * G)])
    found.append(case("receipt_equal_keys", twins, [switch], [0], {"deposits": [(0, 5 * G)], "balance[1]": 40 * G}))
    second = books(validators=[validator(0), validator(1, balance=33 * G)])
    call = receipt(key(1), credentials(2), 1)
    found.append(case("receipt_second", second, [call], [0], {"deposits": [(1, 1), (1, G)]}))
    last_byte = books(validators=[validator(0), validator(1)])
    near = key(1)[:-1] + b"\x02"
    found.append(case("receipt_key_last_byte", last_byte, [receipt(near, credentials(1), 1)], [0], {"validators": 3}))
    near = b"\xa1" + key(1)[1:]
    found.append(case("receipt_key_first_byte", last_byte, [receipt(near, credentials(1), 1)], [0], {"validators": 3}))
    return found


def start_index():
    unset = books(receipts_start=FAR)
    full = books(limits=(1, 1, 1, 1), receipts_start=FAR)
    leaves_unset = [receipt(key(0), credentials(1), 1, FAR), receipt(key(0), credentials(1), 1, 3)]
    refused = [receipt(key(NEW), credentials(1), 1, 5)]
    aside = [receipt(key(NEW), credentials(1), 1, 5, 0), receipt(key(NEW), credentials(1), 1, 6, 0)]
    return [
        case("receipt_start_stays_unset", unset, leaves_unset[:1], [0], {"receipts_start": FAR}),
        case("receipt_start_set_later", unset, leaves_unset, [0, 0], {"receipts_start": 3}),
        case("receipt_start_refused", full, refused, [40], {"receipts_start": FAR}),
        case("receipt_start_set_aside", full, aside, [0, 0], {"receipts_start": 5, "validators": 1}),
        case("receipt_start_kept", books(receipts_start=2), aside, [0, 0], {"receipts_start": 2}),
        case("receipt_start_0", unset, [receipt(key(0), credentials(1), 1, 0)], [0], {"receipts_start": 0}),
        case("receipt_start_top", books(receipts_start=FAR - 1), aside, [0, 0], {"receipts_start": FAR - 1}),
    ]


def bounds():
    rich = books(limits=(256, 1, 256, 256), validators=[validator(0, 1, balance=40 * G)])
    switch = [
        receipt(key(0), credentials(2), 1),
        receipt(key(0), credentials(2), 1, 0, 0),
        receipt(key(0), credentials(1), 1),
        TURN,
    ]
    at_top = books(validators=[validator(balance=BOUND)])
    one_under = books(validators=[validator(balance=BOUND - 1)])
    both_full = books(limits=(1, 1, 256, 256), validators=[validator(balance=BOUND)], deposits=[(0, 0)])
    over = [
        receipt(key(0), credentials(1), 1),
        receipt(key(NEW), credentials(1), FAR),
        receipt(key(NEW), credentials(1), FAR, 0, 0),
        receipt(key(0), credentials(1), FAR, 0, 0),
        receipt(key(0), credentials(1), 0),
    ]
    either = [receipt(key(0), credentials(1), 1), receipt(key(8), credentials(1), 1)]
    return [
        case("receipt_queue_full", rich, switch, [40, 0, 40, 0]),
        case("receipt_over_the_sum", at_top, over, [41, 41, 0, 41, 0], {"deposits": [(0, 0)]}),
        case("receipt_up_to_the_sum", one_under, [over[0], over[0]], [0, 41], {"deposits": [(0, 1)]}),
        case("receipt_40_before_41", both_full, either, [40, 40]),
    ]


def cases():
    return unknown_keys() + known_keys() + start_index() + bounds()
