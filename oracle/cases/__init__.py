"""The cases made by hand, group by group. The number of a group stands in the recorded data."""

from cases import (
    assignment,
    books_refused,
    consolidations,
    edges,
    exits,
    files,
    lent,
    limits,
    places,
    receipts,
    requests,
    rewards,
    settings,
    steps,
    turns,
    withdrawals,
)

HAND_MADE = [
    (1, "files damaged", files),
    (2, "settings", settings),
    (3, "books refused", books_refused),
    (4, "rewards and penalties", rewards),
    (5, "receipts", receipts),
    (6, "exits", exits),
    (7, "requests", requests),
    (8, "consolidations", consolidations),
    (9, "withdrawals", withdrawals),
    (10, "turns", turns),
    (11, "steps alone", steps),
    (12, "edges of document 01", edges),
    (13, "bare assignment", assignment),
    (14, "limits", limits),
    (15, "the seven places", places),
    (16, "unsound books handed to calls", lent),
]
RANDOM_SMALL = (17, "random, small settings")
RANDOM_LARGE = (18, "random, extreme settings")
RANDOM_MAINNET = (19, "random, mainnet and minimal rows")
RANDOM_DAMAGE = (20, "random damage to files")

GROUPS = [(number, name) for number, name, _ in HAND_MADE]
GROUPS += [RANDOM_SMALL, RANDOM_LARGE, RANDOM_MAINNET, RANDOM_DAMAGE]


def hand_made():
    """All cases made by hand, in the order of the groups; names are unique."""
    found = []
    for number, _, module in HAND_MADE:
        for case in module.cases():
            case.group = number
            found.append(case)
    names = [case.name for case in found]
    assert len(names) == len(set(names)), sorted(name for name in names if names.count(name) > 1)
    return found
