"""The three steps of a turn alone; the library has them, no file carries them."""

from cases.common import books, case, left_early, validator
from file_format import (
    BOUND,
    CONSOLIDATION_STEP,
    DEPOSIT_STEP,
    EFFECTIVE_STEP,
    G,
    TURN,
    leave,
    reward,
)


def cases():
    switching = [left_early(0, 1, balance=40 * G), validator(1, 1, balance=33 * G)]
    all_work = books(validators=switching, deposits=[(0, 1), (1, 200 * G)], consolidations=[(0, 1)], carry=7)
    top = books(epoch=BOUND, validators=switching, deposits=[(0, 1)], consolidations=[(0, 1)])
    full = books(limits=(2, 1, 1, 1), validators=switching, deposits=[(0, 200 * G)], consolidations=[(0, 1)])
    room = books(limits=(2, 1, 1, 1), validators=switching, deposits=[(0, 8)], consolidations=[(0, 1)])
    after_deposits = {"epoch": 1000, "deposits": [(1, 200 * G)], "carry": 128 * G + 6, "balance[0]": 40 * G + 1}
    after_consolidations = {"consolidations": [], "deposits": [(0, 1), (1, 200 * G), (1, G)], "carry": 7}
    after_effective = {"effective[0]": 32 * G, "effective[1]": 32 * G, "deposits": [(0, 1), (1, 200 * G)]}
    unsettled = books(validators=[validator(0, 2, balance=40 * G), validator(1, 2, balance=G)])
    settled = {"effective[0]": 40 * G, "effective[1]": G, "epoch": 1000}
    exhausting = books(validators=[validator(balance=0)], deposits=[(0, 300 * G)])
    mixed = [DEPOSIT_STEP, reward(0, G), EFFECTIVE_STEP, TURN, CONSOLIDATION_STEP, DEPOSIT_STEP, leave(1, 0)]
    found = [
        ("deposit_step", all_work, [DEPOSIT_STEP], [0], after_deposits),
        ("deposit_step_empty", books(carry=9), [DEPOSIT_STEP], [0], {"carry": 0, "epoch": 1000}),
        ("deposit_step_repeated", exhausting, [DEPOSIT_STEP] * 3, [0] * 3, {"balance[0]": 300 * G, "carry": 0}),
        ("deposit_step_carries", exhausting, [DEPOSIT_STEP] * 2, [0] * 2, {"carry": 256 * G}),
        ("consolidation_step", all_work, [CONSOLIDATION_STEP], [0], after_consolidations),
        ("consolidation_step_empty", books(), [CONSOLIDATION_STEP], [0], {"epoch": 1000}),
        ("consolidation_step_40", full, [CONSOLIDATION_STEP], [40], {"consolidations": [(0, 1)]}),
        ("consolidation_step_40_without_room", room, [CONSOLIDATION_STEP, TURN], [40, 0], {"deposits": [(1, G)]}),
        ("consolidation_step_after_room", room, [DEPOSIT_STEP, CONSOLIDATION_STEP], [0, 0], {"deposits": [(1, G)]}),
        ("effective_step", unsettled, [EFFECTIVE_STEP, EFFECTIVE_STEP], [0, 0], settled),
        ("effective_step_alone", all_work, [EFFECTIVE_STEP], [0], after_effective),
        ("steps_as_a_turn", all_work, [DEPOSIT_STEP, CONSOLIDATION_STEP, EFFECTIVE_STEP], [0] * 3, {"epoch": 1000}),
        ("steps_at_last_epoch", top, [DEPOSIT_STEP, CONSOLIDATION_STEP, EFFECTIVE_STEP, TURN], [0, 0, 0, 42], {}),
        ("steps_mixed", all_work, mixed, [0] * 7, {"epoch": 1001}),
    ]
    return [case(*one, steps=True) for one in found]
