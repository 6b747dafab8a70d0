"""Settings: each fault by itself, and each bound reached but not passed."""

from cases.common import books, case, chain, credentials, key, validator
from file_format import CHAIN_NAMES, FAR, G, TURN, leave, receipt

TOP_BALANCE = 2**44
TOP_COUNT = 2**16


def faults():
    found = {
        "min_over": chain(min_activation_balance=TOP_BALANCE + 1, max_effective_balance=TOP_BALANCE + 1),
        "max_over": chain(max_effective_balance=TOP_BALANCE + 1),
        "increment_over": chain(increment=TOP_BALANCE + 1, min_churn=TOP_BALANCE + 1),
        "min_churn_over": chain(min_churn=TOP_BALANCE + 1),
        "max_churn_over": chain(max_churn=TOP_BALANCE + 1),
        "max_far": chain(max_effective_balance=FAR),
        "increment_0": chain(increment=0),
        "min_churn_0": chain(min_churn=0),
        "max_churn_0": chain(max_churn=0),
        "churn_quotient_0": chain(churn_quotient=0),
        "hysteresis_quotient_0": chain(hysteresis_quotient=0),
        "payload_0": chain(payload=0, partials=0),
        "sweep_0": chain(sweep=0),
        "increment_above_min_churn": chain(increment=128 * G + 1),
        "first_above_second": chain(min_activation_balance=32 * G + 1, max_effective_balance=32 * G),
        "partials_as_payload": chain(partials=16),
        "partials_above_payload": chain(partials=9, payload=8),
        "payload_17": chain(payload=17),
    }
    # The five amounts come first; what follows are the counts.
    for name in CHAIN_NAMES[5:]:
        found[name + "_over"] = chain(**{name: TOP_COUNT + 1})
    return found


def accepted():
    """Extremes that are sound."""
    top = [TOP_BALANCE] * 5 + [TOP_COUNT] * 7 + [15, 16, TOP_COUNT]
    low = [0, 0, 1, 1, 1, 1, 0, 0, 0, 1, 0, 0, 0, 1, 1]
    same = chain(min_activation_balance=2048 * G, increment=128 * G)
    small_churn = chain(max_churn=1)
    calls = [leave(0, 0), receipt(key(5), credentials(1), 7), TURN, TURN]
    idle = validator(effective=0)
    return [
        case("accepted_top", books(top), [TURN, leave(0, 0)], [0, 14]),
        case("accepted_top_exit", books(top, epoch=2**17), [leave(0, 0)], [0], {"exit[0]": 2**18 - 2**16 + 1}),
        case("accepted_low", books(low, (1, 1, 1, 1), [idle]), calls, [0, 40, 0, 0]),
        case("accepted_low_room", books(low, (2, 2, 1, 1), [idle]), calls, [0, 0, 0, 0]),
        case("accepted_first_as_second", books(same), [TURN, leave(0, 0)], [0, 0]),
        case("accepted_small_churn", books(small_churn), [leave(0, 0)], [0], {"exit[0]": 1004 + 32 * G}),
    ]


def cases():
    found = [case("settings_" + name, books(row), [TURN], "refused 01") for name, row in faults().items()]
    for position in range(4):
        for limit, answer in ((0, "refused 01"), (65_537, "refused 01"), (257, "refused 03"), (65_536, "refused 03")):
            limits = [256] * 4
            limits[position] = limit
            found.append(case(f"limit_{position}_{limit}", books(limits=limits), [TURN], answer))
    wide = books(limits=(300, 301, 302, 303), deposits=[(0, 1)] * 257)
    found += [
        case("limits_in_larger_buffers", wide, [receipt(key(9), credentials(1), 1), TURN], [0, 0], buffers=512),
        case("limits_at_buffers", wide, [TURN], [0], buffers=303),
        case("limits_over_buffers", wide, [TURN], "refused 03", buffers=302),
        case("small_buffers", books(limits=(4, 4, 4, 4)), [TURN], [0], buffers=4),
        case("small_buffers_short", books(limits=(4, 4, 5, 4)), [TURN], "refused 03", buffers=4),
        case("limits_1", books(limits=(1, 1, 1, 1)), [TURN], [0]),
    ]
    return found + accepted()
