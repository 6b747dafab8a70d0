"""The smallest inputs that show each of the seven places; the answers are the mended ones."""

from cases.common import HALF_CHURN, address, books, case, chain, credentials, key, validator
from file_format import FAR, G, consolidate, leave, receipt, withdrawals


def cases():
    at_minimum = books(validators=[validator(0, 2, balance=32 * G + 1)], partials=[(0, 1, 0)])
    other = books(
        validators=[validator(0, 2, 1), validator(1, 2, 2, effective=33 * G, balance=33 * G)],
        partials=[(1, 1, 0)],
    )
    cursor = books(
        chain(partials=0, payload=1, sweep=1),
        withdrawal_index=1,
        validators=[validator(0, balance=32 * G + 1), validator(1)],
    )
    churn = chain(max_churn=48 * G)
    pair = [validator(0), validator(1)]
    double = [validator(0, effective=64 * G), validator(1)]
    young = books(validators=[validator(eligibility=744, activation=745)])
    far = books(validators=[validator(eligibility=FAR)])
    rich = books(validators=[validator(0, 1, balance=33 * G)])
    unset = books(receipts_start=FAR)
    left_48 = {"consolidation_left": 48 * G, "consolidation_epoch": 1005}
    left_16 = {"consolidation_left": 16 * G, "consolidation_epoch": 1005}
    queued = {"deposits": [(0, 1)], "credentials[0]": credentials(1), "balance[0]": 33 * G}
    aside = {"deposits": [], "validators": 1, "receipts_start": 5}
    return [
        case("place_1", at_minimum, [withdrawals(), withdrawals((0, 0, address(1), 1))], [30, 0]),
        case("place_2", other, [withdrawals((0, 0, address(2), 1)), withdrawals((0, 1, address(2), 1))], [30, 0]),
        case("place_3", cursor, [withdrawals((1, 0, address(1), 1))], [0], {"cursor": 1}),
        case("place_4", books(churn, validators=pair), [consolidate(0, 1)], [0], left_48),
        case("place_4_epoch", books(churn, validators=double), [consolidate(0, 1)], [0], left_16),
        case("place_5", books(HALF_CHURN, validators=pair), [consolidate(0, 1)], [0], {"withdrawable[0]": 1261}),
        case("place_6", young, [leave(0, 0)], [14], {"exit[0]": FAR}),
        case("place_6_far", far, [leave(0, 0)], [0], {"exit[0]": 1005}),
        case("place_7_known", rich, [receipt(key(0), credentials(2), 1, 0, 0)], [0], queued),
        case("place_7_unknown", unset, [receipt(key(9), credentials(1), 1, 5, 0)], [0], aside),
    ]
