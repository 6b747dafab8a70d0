"""Withdrawals: the partial walk, the sweep, the comparison, the payment and the cursor."""

from cases.common import address, books, case, chain, left_early, validator
from file_format import BOUND, FAR, G, TURN, marker, penalty, withdrawals

FIRST = address(1)


def rich(number=0, **values):
    return validator(number, 2, **dict(dict(balance=33 * G), **values))


def listed(name, opening, records, closing=None):
    """The list is the expected one: asked for alone, and handed in."""
    return [
        case(name + "_asked", opening, [], [], expected=list(records), record_expected=True),
        case(name, opening, [withdrawals(*records)], [0], closing),
    ]


def partial_walk():
    """Each entry: name, opening, the list it gives, and what stands afterwards."""
    most = chain(partials=2, payload=3)
    two_of_one = books(validators=[rich()], partials=[(0, G, 1000), (0, G, 1000)])
    low = rich(0, effective=31 * G, balance=31 * G)
    skipped = books(validators=[low, rich(1)], partials=[(0, G, 1000), (1, G, 1000)])
    five = books(most, validators=[rich(balance=60 * G)], partials=[(0, 1, 0)] * 5)
    unpaid_first = books(
        most,
        validators=[rich(0, balance=0), rich(1)],
        partials=[(0, 1, 0)] * 3 + [(1, 1, 0)] * 2,
    )

    def one_entry(partial, **values):
        return books(validators=[rich(**values)], partials=[partial])

    entries = [
        (
            "partial_paid",
            one_entry((0, G, 1000)),
            [(0, 0, FIRST, G)],
            {"partials": [], "balance[0]": 32 * G, "withdrawal_index": 1},
        ),
        ("partial_not_due", one_entry((0, G, 1001)), [], {"partials": [(0, G, 1001)], "balance[0]": 33 * G}),
        ("partial_far", one_entry((0, 1, FAR)), [], None),
        ("partial_behind_not_due", books(validators=[rich()], partials=[(0, 1, 1001), (0, 1, 0)]), [], None),
        ("partial_exit_begun", one_entry((0, 1, 0), exit=2000), [], {"partials": [(0, 1, 0)]}),
        ("partial_low_effective", one_entry((0, 1, 0), effective=32 * G - 1), [], None),
        ("partial_at_minimum", one_entry((0, 1, 0), balance=32 * G), [], None),
        ("partial_one_over", one_entry((0, 5, 0), balance=32 * G + 1), [(0, 0, FIRST, 1)], None),
        (
            "partial_amount_0",
            one_entry((0, 0, 0)),
            [(0, 0, FIRST, 0)],
            {"partials": [], "withdrawal_index": 1, "balance[0]": 33 * G},
        ),
        (
            "partial_any_credential",
            books(validators=[validator(0, 0, 5, balance=40 * G)], partials=[(0, 1, 0)]),
            [(0, 0, address(5), 1)],
            None,
        ),
        ("partial_slashed", one_entry((0, 1, 0), slashed=1), [(0, 0, FIRST, 1)], None),
        (
            "partials_not_reserved",
            two_of_one,
            [(0, 0, FIRST, G), (1, 0, FIRST, G)],
            {"balance[0]": 31 * G, "partials": []},
        ),
        ("partials_first_n_removed", skipped, [(0, 1, FIRST, G)], {"partials": [(1, G, 1000)]}),
        (
            "partials_at_most",
            five,
            [(0, 0, FIRST, 1), (1, 0, FIRST, 1)],
            {"partials": [(0, 1, 0)] * 3},
        ),
        ("partials_none_allowed", books(chain(partials=0), validators=[rich()], partials=[(0, 1, 0)]), [], None),
        (
            "partials_unpaid_uncounted",
            unpaid_first,
            [(0, 1, FIRST, 1), (1, 1, FIRST, 1)],
            {"partials": [(0, 1, 0), (1, 1, 0), (1, 1, 0)]},
        ),
    ]
    found = [one for entry in entries for one in listed(*entry)]
    again = [withdrawals((0, 1, FIRST, G)), withdrawals(), withdrawals((1, 1, FIRST, G))]
    found.append(case("partials_paid_again", skipped, again, [0, 0, 30], {"partials": [(1, G, 1000)]}))
    return found


def sweep():
    """What the sweep pays to one validator."""
    found = []
    in_full = [
        ("01", validator(0, 1, 3, exit=900, withdrawable=1000, balance=7)),
        ("02", validator(0, 2, 3, exit=900, withdrawable=1000, balance=7)),
        ("without_exit", validator(0, 1, 3, withdrawable=1000, balance=7)),
        ("slashed", validator(0, 1, 3, exit=900, withdrawable=1000, balance=7, slashed=1)),
    ]
    for name, one in in_full:
        records = [(0, 0, address(3), 7)]
        found += listed("sweep_full_" + name, books(validators=[one]), records, {"balance[0]": 0})
    nothing = [
        ("00", validator(0, 0, 3, exit=900, withdrawable=1000, balance=7)),
        ("03", validator(0, 3, 3, exit=900, withdrawable=1000, balance=7)),
        ("later", validator(0, 1, 3, exit=900, withdrawable=1001, balance=7)),
        ("balance_0", validator(0, 1, 3, exit=900, withdrawable=1000, balance=0)),
        ("at_maximum", validator(0, 1)),
        ("not_full_effective", validator(0, 1, effective=31 * G, balance=40 * G)),
        ("above_full_effective", validator(0, 1, effective=33 * G, balance=40 * G)),
        ("00_excess", validator(0, 0, balance=40 * G)),
        ("compounding_below", validator(0, 2, balance=40 * G)),
        ("compounding_at_maximum", validator(0, 2, effective=2048 * G, balance=2048 * G)),
    ]
    for name, one in nothing:
        unmoved = {"withdrawal_index": 0, "cursor": 0}
        found += listed("sweep_none_" + name, books(validators=[one]), [], unmoved)
    excess = books(validators=[validator(0, 1, 4, balance=32 * G + 1)])
    great = books(validators=[validator(0, 2, 4, effective=2048 * G, balance=2049 * G)])
    gone = books(validators=[left_early(0, 1, balance=40 * G)])
    found += listed("sweep_excess_01", excess, [(0, 0, address(4), 1)], {"balance[0]": 32 * G})
    found += listed("sweep_excess_02", great, [(0, 0, address(4), G)], {"balance[0]": 2048 * G})
    found += listed("sweep_full_before_excess", gone, [(0, 0, FIRST, 40 * G)])
    return found + partial_and_sweep()


def partial_and_sweep():
    """A partial and the sweep of one validator both read the untouched balance."""
    twice = books(
        chain(max_effective_balance=32 * G),
        validators=[validator(0, 2, balance=35 * G)],
        partials=[(0, 2 * G, 0)],
    )
    short = books(
        chain(min_activation_balance=0, max_effective_balance=2 * G),
        validators=[left_early(0, 2, effective=0, exit=FAR, balance=5 * G)],
        partials=[(0, 4 * G, 0)],
    )
    both = [(0, 0, FIRST, 2 * G), (1, 0, FIRST, 3 * G)]
    more_than_all = [(0, 0, FIRST, 4 * G), (1, 0, FIRST, 5 * G)]
    found = listed("partial_and_sweep_of_one", twice, both, {"balance[0]": 30 * G, "partials": []})
    return found + listed("payment_stops_at_0", short, more_than_all, {"balance[0]": 0})


def cursor():
    """Where the next sweep begins."""
    twenty = books(
        validators=[validator(k, 1, k, balance=33 * G) for k in range(20)],
        cursor=18,
        withdrawal_index=7,
    )
    sixteen = [(7 + k, (18 + k) % 20, address((18 + k) % 20), G) for k in range(16)]
    idle = [validator(k, 1, k) for k in range(5)]
    paying = [validator(k, 1, k, balance=33 * G) for k in range(4)]
    narrow = chain(partials=0, payload=2, sweep=2)
    exactly = books(narrow, validators=paying, cursor=3)
    one_short = books(narrow, validators=[validator(0), *paying[1:]], cursor=3)
    last = books(chain(partials=0, payload=1), validators=[validator(0), validator(1, balance=33 * G)])
    by_one = books(chain(sweep=1, partials=0, payload=1), validators=paying[:2], cursor=1)
    mixed = books(
        chain(partials=1, payload=2),
        validators=[rich(0), validator(1, 1, 2, balance=33 * G), validator(2, 1, 3, balance=33 * G)],
        partials=[(0, 1, 0)],
    )
    third, first = (0, 3, address(3), G), (1, 0, address(0), G)
    entries = [
        ("full_list", twenty, sixteen, {"withdrawal_index": 23, "cursor": 14}),
        ("cursor_by_sweep", books(chain(sweep=3), validators=idle, cursor=4), [], {"cursor": 2}),
        ("cursor_sweep_above_count", books(validators=idle[:3], cursor=2), [], {"cursor": 0}),
        ("full_list_at_sweep_end", exactly, [third, first], {"cursor": 1}),
        ("list_one_short", one_short, [third], {"cursor": 1}),
        ("full_list_last_validator", last, [(0, 1, FIRST, G)], {"cursor": 0}),
        ("sweep_of_one", by_one, [(0, 1, address(1), G)], {"cursor": 0}),
        ("full_list_with_partial", mixed, [(0, 0, FIRST, 1), (1, 1, address(2), G)], {"cursor": 2}),
    ]
    found = [one for entry in entries for one in listed(*entry)]
    follow = [marker(), marker(), marker(), TURN, marker()]
    found.append(case("lists_in_turn", exactly, follow, [0] * 5, record_expected=True))
    return found


def comparison():
    """A list that differs anywhere is refused; nothing is paid."""
    opening = books(validators=[validator(0, 1, 1, balance=33 * G), validator(1, 1, 2, balance=34 * G)])
    first, second = (0, 0, address(1), G), (1, 1, address(2), 2 * G)
    misses = {
        "empty": [],
        "one_less": [first],
        "second_alone": [second],
        "one_more": [first, second, (2, 0, address(1), 0)],
        "sixteen": [first, second] + [(0, 0, bytes(20), 0)] * 14,
        "reversed": [second, first],
        "index": [(1, 0, address(1), G), second],
        "validator": [first, (1, 0, address(2), 2 * G)],
        "address": [first, (1, 1, address(3), 2 * G)],
        "address_first_byte": [(0, 0, b"\0" + address(1)[1:], G), second],
        "amount_more": [first, (1, 1, address(2), 2 * G + 1)],
        "amount_less": [(0, 0, address(1), G - 1), second],
        "amount_far": [(0, 0, address(1), FAR), second],
        "validator_far": [(0, FAR, address(1), G), second],
    }
    unpaid = {"balance[0]": 33 * G, "balance[1]": 34 * G, "withdrawal_index": 0, "cursor": 0}
    found = [case("list_" + name, opening, [withdrawals(*records)], [30], unpaid) for name, records in misses.items()]
    paid_once = [withdrawals(first, second)] * 2
    found.append(case("list_twice", opening, paid_once, [0, 30], {"withdrawal_index": 2}))
    after_penalty = [penalty(0, G), withdrawals(first, second), marker()]
    found.append(case("list_after_penalty", opening, after_penalty, [0, 30, 0], {"balance[1]": 32 * G}))
    near = [marker(miss) for miss in (1, 2, 3, 4, 5, 6, 7, 0)]
    found.append(case("list_near_misses", opening, near, [30] * 7 + [0]))
    return found


def bounds():
    paying = [validator(0, 1, 3, balance=33 * G)]
    top = books(withdrawal_index=BOUND, validators=paying)
    under = books(withdrawal_index=BOUND - 1, validators=paying)
    two = books(withdrawal_index=BOUND - 1, validators=[*paying, validator(1, 1, 3, balance=33 * G)])
    idle = books(withdrawal_index=BOUND)
    sixteen = books(withdrawal_index=BOUND, validators=[validator(k, 1, 3, balance=33 * G) for k in range(16)])
    past = [(BOUND + k, k, address(3), G) for k in range(16)]
    record = (BOUND, 0, address(3), G)
    below = (BOUND - 1, 0, address(3), G)
    return [
        case("index_42", top, [withdrawals(), withdrawals(record)], [30, 42], {"balance[0]": 33 * G}),
        case("index_42_asked", top, [], [], expected=[record], record_expected=True),
        case("index_past_the_bound_asked", sixteen, [], [], expected=past, record_expected=True),
        case("index_past_the_bound", sixteen, [withdrawals(*past)], [42], {"withdrawal_index": BOUND}),
        case("index_at_the_bound", under, [withdrawals(below), withdrawals()], [0, 0], {"withdrawal_index": BOUND}),
        case("index_42_by_second", two, [withdrawals(below, (BOUND, 1, address(3), G))], [42]),
        case("index_top_empty_list", idle, [withdrawals()], [0], {"withdrawal_index": BOUND}),
        case("index_30_before_42", top, [withdrawals((BOUND, 0, address(3), G + 1))], [30]),
    ]


def cases():
    return partial_walk() + sweep() + cursor() + comparison() + bounds()
