"""Unsound settings, short buffers and unsound books handed to the calls of the library, which
must answer 1, 3, 2 before any test of their own. The program never gets so far."""

from cases.common import address, books, case, chain, credentials, key, validator
from file_format import (
    BOUND,
    CONSOLIDATION_STEP,
    DEPOSIT_STEP,
    EFFECTIVE_STEP,
    FAR,
    G,
    TURN,
    consolidate,
    leave,
    penalty,
    receipt,
    request,
    reward,
    withdrawals,
)

# Every call once as it could be done, and once with a fault of its own behind the unsound books.
EVERY_CALL = [
    reward(0, 1),
    reward(FAR, FAR),
    penalty(0, 1),
    penalty(FAR, 1),
    receipt(key(0), credentials(1), 1),
    receipt(key(9), credentials(1), FAR, 0, 0),
    leave(0, 1000),
    leave(FAR, FAR, 0),
    request(address(1), key(0), 0),
    request(address(1), key(9), 1),
    consolidate(0, 1),
    consolidate(0, 0),
    TURN,
    withdrawals(),
    withdrawals((5, 5, address(5), 5)),
    DEPOSIT_STEP,
    CONSOLIDATION_STEP,
    EFFECTIVE_STEP,
]


def cases():
    two = [validator(0), validator(1)]
    openings = {
        "settings": (books(chain(churn_quotient=0), validators=two), 8, 1),
        "settings_limit": (books(limits=(0, 8, 8, 8), validators=two), 8, 1),
        "settings_first": (books(chain(increment=0), limits=(8, 8, 8, 9), cursor=9, validators=two), 8, 1),
        "short_registry": (books(limits=(9, 8, 8, 8), validators=two), 8, 3),
        "short_deposits": (books(limits=(8, 9, 8, 8), validators=two), 8, 3),
        "short_partials": (books(limits=(8, 8, 9, 8), validators=two), 8, 3),
        "short_consolidations": (books(limits=(8, 8, 8, 9), validators=two), 8, 3),
        "short_before_unsound": (books(limits=(8, 8, 8, 9), validators=two, cursor=2), 8, 3),
        "no_validator": (books(limits=(8, 8, 8, 8), validators=[]), 8, 2),
        "cursor": (books(limits=(8, 8, 8, 8), validators=two, cursor=2), 8, 2),
        "deposit_index": (books(limits=(8, 8, 8, 8), validators=two, deposits=[(2, 1)]), 8, 2),
        "partial_index": (books(limits=(8, 8, 8, 8), validators=two, partials=[(2, 1, 0)]), 8, 2),
        "source": (books(limits=(8, 8, 8, 8), validators=two, consolidations=[(2, 0)]), 8, 2),
        "target": (books(limits=(8, 8, 8, 8), validators=two, consolidations=[(0, FAR)]), 8, 2),
        "over_limit": (books(limits=(1, 8, 8, 8), validators=two), 8, 2),
        "sum": (books(limits=(8, 8, 8, 8), validators=[validator(0, balance=BOUND), validator(1)]), 8, 2),
        "partial_sum": (books(limits=(8, 8, 8, 8), validators=two, partials=[(0, BOUND, 0), (1, 1, 0)]), 8, 2),
        "epoch": (books(limits=(8, 8, 8, 8), validators=two, epoch=BOUND + 1), 8, 2),
        "effective": (books(limits=(8, 8, 8, 8), validators=[validator(effective=2049 * G)]), 8, 2),
    }
    found = []
    for name, (opening, buffers, number) in openings.items():
        answers = [number] * len(EVERY_CALL)
        found.append(case("lent_" + name, opening, EVERY_CALL, answers, steps=True, lent=True, buffers=buffers))
    # The receipt's Gwei, credited by the turn, is an excess: the empty list no longer is the expected one.
    sound = books(limits=(8, 8, 8, 8), validators=two)
    answers = [0, 10, 0, 10, 0, 0, 0, 10, 0, 0, 21, 21, 0, 30, 30, 0, 0, 0]
    found.append(case("lent_sound", sound, EVERY_CALL, answers, steps=True, lent=True, buffers=8))
    return found
