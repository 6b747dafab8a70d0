"""Limits of registry and queues: one under, at, and one over, small and at the program's 256."""

from cases.common import HALF_CHURN, address, books, case, credentials, key, validator
from file_format import G, TURN, consolidate, receipt, request


def registry():
    found = []
    for count, answers in ((1, [0, 0, 40]), (2, [0, 40, 40]), (3, [40, 40, 40])):
        opening = books(limits=(3, 256, 1, 1), validators=[validator(k) for k in range(count)])
        calls = [receipt(key(10 + k), credentials(1), 1) for k in range(3)]
        found.append(case(f"registry_{count}_of_3", opening, calls, answers))
    return found


def deposits():
    found = []
    for count, answers in ((1, [0, 0, 40]), (2, [0, 40, 40]), (3, [40, 40, 40])):
        opening = books(limits=(1, 3, 1, 1), deposits=[(0, 1)] * count)
        calls = [receipt(key(0), credentials(1), 1)] * 3
        found.append(case(f"deposits_{count}_of_3", opening, calls, answers))
        with_switch = books(
            limits=(1, 3, 1, 1),
            validators=[validator(0, 1, balance=33 * G)],
            deposits=[(0, 1)] * count,
        )
        switch = [receipt(key(0), credentials(2), 1)]
        found.append(case(f"deposits_{count}_of_3_switch", with_switch, switch, [0 if count == 1 else 40]))
    return found


def partials():
    found = []
    for count in (1, 2, 3):
        opening = books(
            limits=(2, 1, 3, 1),
            validators=[validator(0, 2, balance=40 * G), validator(1)],
            partials=[(1, 1, 0)] * count,
        )
        calls = [request(address(1), key(0), 1)] * 3
        queue = [(1, 1, 0)] * count + [(0, 1, 1261)] * (3 - count)
        found.append(case(f"partials_{count}_of_3", opening, calls, [0, 0, 0], {"partials": queue}))
    return found


def consolidations():
    found = []
    for count, answers in ((1, [0, 0, 20]), (2, [0, 20, 20]), (3, [20, 20, 20])):
        opening = books(
            HALF_CHURN,
            limits=(4, 1, 1, 3),
            validators=[validator(k) for k in range(4)],
            consolidations=[(3, 3)] * count,
        )
        calls = [consolidate(k, 3) for k in range(3)]
        found.append(case(f"consolidations_{count}_of_3", opening, calls, answers))
    return found


def program_buffers():
    """One under the 256 records of the program's buffers, then at them."""
    many = books(validators=[validator(k) for k in range(255)])
    new = [receipt(key(300 + k), credentials(1), 1) for k in range(2)]
    queued = books(deposits=[(0, 1)] * 255)
    top_up = [receipt(key(0), credentials(1), 1)] * 2
    waiting = books(validators=[validator(0, 2, balance=40 * G), validator(1)], partials=[(1, 1, 0)] * 255)
    partial = [request(address(1), key(0), 1)] * 2
    entries = books(HALF_CHURN, validators=[validator(0), validator(1)], consolidations=[(1, 1)] * 255)
    return [
        case("registry_255_of_256", many, new, [0, 40], {"validators": 256}),
        case("deposits_255_of_256", queued, top_up + [TURN], [0, 40, 0], {"deposits": []}),
        case("partials_255_of_256", waiting, partial, [0, 0], {"partials": [(1, 1, 0)] * 255 + [(0, 1, 1261)]}),
        case("consolidations_255_of_256", entries, [consolidate(0, 1), consolidate(0, 1)], [0, 20]),
    ]


def cases():
    return registry() + deposits() + partials() + consolidations() + program_buffers()
