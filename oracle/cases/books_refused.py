"""Books: each fault by itself, and each bound reached but not passed."""

from cases.common import books, case, key, validator
from file_format import BOUND, FAR, G, TURN, leave, reward

OVER = BOUND + 1


def scalar_faults():
    found = {}
    names = (
        "epoch",
        "withdrawal_index",
        "carry",
        "exit_left",
        "exit_epoch",
        "consolidation_left",
        "consolidation_epoch",
    )
    for name in names:
        found[name + "_over"] = books(**{name: OVER})
        found[name + "_far"] = books(**{name: FAR})
    found["cursor"] = books(cursor=1)
    found["cursor_far"] = books(cursor=FAR)
    return found


def validator_faults():
    found = {}
    for name in ("eligibility", "activation", "exit", "withdrawable"):
        found[name + "_over"] = books(validators=[validator(**{name: OVER})])
        found[name + "_below_far"] = books(validators=[validator(0), validator(1, **{name: FAR - 1})])
    found["effective"] = books(validators=[validator(effective=2048 * G + 1)])
    found["no_validator"] = books(validators=[])
    return found


def queue_faults():
    return {
        "deposit_index": books(deposits=[(0, 0), (1, 0)]),
        "deposit_index_far": books(deposits=[(FAR, 0)]),
        "partial_index": books(partials=[(0, 0, 0), (1, 0, 0)]),
        "partial_epoch": books(partials=[(0, 0, OVER)]),
        "consolidation_source": books(consolidations=[(1, 0)]),
        "consolidation_target": books(consolidations=[(0, 0), (0, 1)]),
        "validators_over_limit": books(limits=(1, 1, 1, 1), validators=[validator(0), validator(1)]),
        "deposits_over_limit": books(limits=(1, 1, 1, 1), deposits=[(0, 0)] * 2),
        "partials_over_limit": books(limits=(1, 1, 1, 1), partials=[(0, 0, 0)] * 2),
        "consolidations_over_limit": books(limits=(1, 1, 1, 1), consolidations=[(0, 0)] * 2),
    }


def sum_faults():
    half = 2**63
    return {
        "sum_over": books(validators=[validator(balance=BOUND)], deposits=[(0, 1)]),
        "sum_of_balances_over": books(validators=[validator(0, balance=BOUND), validator(1, balance=1)]),
        "sum_of_deposits_over": books(validators=[validator(balance=0)], deposits=[(0, BOUND), (0, 1)]),
        "sum_wraps_to_0": books(validators=[validator(0, balance=half), validator(1, balance=half)]),
        "sum_wraps_by_deposit": books(validators=[validator(balance=1)], deposits=[(0, FAR)]),
        "partials_over": books(partials=[(0, BOUND, 0), (0, 1, 0)]),
        "partials_wrap": books(partials=[(0, half, 0), (0, half, 0)]),
    }


def accepted():
    top = books(
        epoch=BOUND,
        withdrawal_index=BOUND,
        receipts_start=FAR,
        carry=BOUND,
        exit_left=BOUND,
        exit_epoch=BOUND,
        consolidation_left=BOUND,
        consolidation_epoch=BOUND,
        validators=[
            validator(
                eligibility=BOUND,
                activation=BOUND,
                exit=BOUND,
                withdrawable=BOUND,
                balance=BOUND - 1,
                effective=2048 * G,
            )
        ],
        deposits=[(0, 1)],
        partials=[(0, BOUND - 1, BOUND), (0, 1, FAR)],
    )
    far = books(validators=[validator(eligibility=FAR, activation=FAR)], receipts_start=OVER)
    twins = books(validators=[validator(0), validator(0)])
    # The second setting bounds an effective balance also where the credential's own is lower.
    above_own = books(validators=[validator(effective=2048 * G)])
    assert twins.validators[0].key == twins.validators[1].key == key(0)
    return [
        case("accepted_books_top", top, [reward(0, 0), reward(0, 1), TURN], [0, 41, 42]),
        case("accepted_books_far", far, [leave(0, 0), TURN], [11, 0]),
        case("accepted_equal_keys", twins, [TURN, leave(1, 0), leave(0, 0)], [0, 0, 0]),
        case("accepted_effective_at_second", above_own, [TURN], [0], {"effective[0]": 32 * G}),
    ]


def cases():
    faults = {**scalar_faults(), **validator_faults(), **queue_faults(), **sum_faults()}
    found = [case("books_" + name, opening, [TURN], "refused 02") for name, opening in faults.items()]
    return found + accepted()
