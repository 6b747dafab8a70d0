"""Files: every way to be broken, the sizes around the bound, and the order of the refusals."""

from cases.common import address, books, case, chain, credentials, key, validator
from file_format import (
    G,
    KIND_CALL,
    KIND_COUNT,
    TURN,
    books_bytes,
    books_words,
    calls_bytes,
    calls_words,
    consolidate,
    leave,
    pack,
    penalty,
    receipt,
    request,
    reward,
    unpack,
    withdrawals,
)

BROKEN = "refused 60"

GOOD_OPENING = books_bytes(books())
GOOD_CALLS = calls_bytes([TURN])

# An opening with a record of every kind, and a call of every code.
FULL_OPENING = books_words(
    books(
        validators=[validator(0), validator(1, 2)],
        deposits=[(0, G)],
        partials=[(1, 1, 5)],
        consolidations=[(0, 1)],
    )
)
FULL_CALLS = calls_words(
    [
        reward(0, 1),
        penalty(0, 1),
        receipt(key(3), credentials(2), G, 0),
        leave(0, 1000),
        request(address(1), key(1), 1),
        consolidate(0, 1),
        TURN,
        withdrawals((0, 0, address(1), 1), (1, 1, address(1), 1)),
    ]
)

# The words at which the structure of a file changes, or a kind of word first appears.
OPENING_PLACES = [
    "head",
    "setting 0 low",
    "setting 0 middle",
    "setting 0 top",
    "setting 15 low",
    "epoch low",
    "consolidation_epoch top",
    "validators",
    "validator 0 key 0",
    "validator 0 key 15",
    "validator 0 credentials 0",
    "validator 0 credentials 10",
    "validator 0 slashed",
    "validator 0 effective low",
    "validator 0 balance top",
    "validator 1 key 0",
    "deposits",
    "deposits 0 index low",
    "deposits 0 amount top",
    "partials",
    "partials 0 index low",
    "partials 0 epoch top",
    "consolidations",
    "consolidations 0 source low",
    "consolidations 0 target top",
]
CALLS_PLACES = [
    "head",
    "calls",
    "call 0 code",
    "call 0 validator low",
    "call 0 amount top",
    "call 1 code",
    "call 2 code",
    "call 2 key 0",
    "call 2 credentials 0",
    "call 2 amount middle",
    "call 2 flag",
    "call 3 code",
    "call 3 flag",
    "call 4 code",
    "call 4 address 0",
    "call 4 key 0",
    "call 4 amount top",
    "call 5 code",
    "call 5 flag",
    "call 6 code",
    "call 7 code",
    "call 7 count",
    "call 7 record 0 index low",
    "call 7 record 0 address 6",
    "call 7 record 1 amount top",
]


def changed(words, label, change):
    """The file with one word changed and the end sum put right."""
    other = words.copy()
    position = other.at(label)
    other.words[position] = change(other.words[position]) & 0xFFFFFFFF
    return other.closed()


def cut(words, label):
    """The file up to a word, without an end."""
    return pack(words.words[: words.at(label)])


def cut_and_closed(words, label):
    """The file up to a word, then a right end."""
    other = words.copy()
    position = other.at(label)
    del other.words[position:]
    return other.closed()


def next_kind(word):
    return (word + (1 << 28)) & 0xFFFFFFFF


def structure_cases():
    """At every place: the wrong kind, the file ending there, and an end word there."""
    found = [
        case("whole_opening", FULL_OPENING.closed(), GOOD_CALLS, [0]),
        case("whole_calls", GOOD_OPENING, FULL_CALLS.closed(), [0, 0, 0, 0, 0, 21, 0, 30]),
    ]
    for label in OPENING_PLACES:
        name = "opening_" + label.replace(" ", "_")
        found += [
            case(name + "_kind", changed(FULL_OPENING, label, next_kind), GOOD_CALLS, BROKEN),
            case(name + "_cut", cut(FULL_OPENING, label), GOOD_CALLS, BROKEN),
            case(name + "_end", cut_and_closed(FULL_OPENING, label), GOOD_CALLS, BROKEN),
        ]
    for label in CALLS_PLACES:
        name = "calls_" + label.replace(" ", "_")
        found += [
            case(name + "_kind", GOOD_OPENING, changed(FULL_CALLS, label, next_kind), BROKEN),
            case(name + "_cut", GOOD_OPENING, cut(FULL_CALLS, label), BROKEN),
            case(name + "_end", GOOD_OPENING, cut_and_closed(FULL_CALLS, label), BROKEN),
        ]
    return found


def opening_changes():
    """Name, place and change of a word of the opening."""
    found = [
        ("head_0", "head", lambda word: word - 1),
        ("head_2", "head", lambda word: word + 1),
        ("head_3", "head", lambda word: word + 2),
        ("top_256", "setting 0 top", lambda word: word + 256),
        ("top_full", "epoch top", lambda word: word | 0x0FFFFFFF),
        ("balance_top_256", "validator 1 balance top", lambda word: word + 256),
        ("target_top_256", "consolidations 0 target top", lambda word: word + 256),
        ("key_bit_24", "validator 0 key 0", lambda word: word | 1 << 24),
        ("key_bit_27", "validator 0 key 15", lambda word: word | 1 << 27),
        ("credentials_bit_25", "validator 1 credentials 4", lambda word: word | 1 << 25),
        ("credentials_padding", "validator 0 credentials 10", lambda word: word | 1),
        ("credentials_padding_255", "validator 1 credentials 10", lambda word: word | 255),
        ("slashed_2", "validator 0 slashed", lambda word: word + 2),
        ("slashed_full", "validator 1 slashed", lambda word: word | 0x0FFFFFFF),
    ]
    for queue in ("validators", "deposits", "partials", "consolidations"):
        found += [
            (queue + "_one_more", queue, lambda word: word + 1),
            (queue + "_one_less", queue, lambda word: word - 1),
            (queue + "_full", queue, lambda word: word | 0x0FFFFFFF),
        ]
    return found


def calls_changes():
    """Name, place and change of a word of the calls."""
    return [
        ("head_0", "head", lambda word: word - 2),
        ("head_1", "head", lambda word: word - 1),
        ("head_3", "head", lambda word: word + 1),
        ("one_more", "calls", lambda word: word + 1),
        ("one_less", "calls", lambda word: word - 1),
        ("count_10000", "calls", lambda _: KIND_COUNT << 28 | 10_000),
        ("count_full", "calls", lambda word: word | 0x0FFFFFFF),
        ("code_0", "call 6 code", lambda _: KIND_CALL << 28),
        ("code_9", "call 6 code", lambda _: KIND_CALL << 28 | 9),
        ("code_10", "call 6 code", lambda _: KIND_CALL << 28 | 10),
        ("code_91", "call 6 code", lambda _: KIND_CALL << 28 | 91),
        ("code_full", "call 6 code", lambda word: word | 0x0FFFFFFF),
        ("top_256", "call 0 amount top", lambda word: word + 256),
        ("record_top_256", "call 7 record 1 index top", lambda word: word + 256),
        ("key_bit_24", "call 2 key 7", lambda word: word | 1 << 24),
        ("credentials_padding", "call 2 credentials 10", lambda word: word | 1),
        ("request_address_padding", "call 4 address 6", lambda word: word | 1),
        ("request_address_bit_26", "call 4 address 0", lambda word: word | 1 << 26),
        ("record_address_padding", "call 7 record 0 address 6", lambda word: word | 255),
        ("receipt_flag_2", "call 2 flag", lambda word: word + 1),
        ("exit_flag_2", "call 3 flag", lambda word: word + 1),
        ("consolidation_flag_2", "call 5 flag", lambda word: word + 1),
        ("records_one_more", "call 7 count", lambda word: word + 1),
        ("records_one_less", "call 7 count", lambda word: word - 1),
        ("records_17", "call 7 count", lambda _: KIND_COUNT << 28 | 17),
        ("records_full", "call 7 count", lambda word: word | 0x0FFFFFFF),
    ]


def value_cases():
    """Words of the right kind with a value that they may not have."""
    found = []
    for name, label, change in opening_changes():
        found.append(case("opening_" + name, changed(FULL_OPENING, label, change), GOOD_CALLS, BROKEN))
    for name, label, change in calls_changes():
        found.append(case("calls_" + name, GOOD_OPENING, changed(FULL_CALLS, label, change), BROKEN))
    sixteen = [(0, 0, address(0), 0)] * 16
    return found + [
        case("calls_records_16", GOOD_OPENING, [withdrawals(*sixteen)], [30]),
        case("calls_records_17_whole", GOOD_OPENING, [withdrawals(*sixteen, sixteen[0])], BROKEN),
        case("calls_as_opening", GOOD_CALLS, GOOD_CALLS, BROKEN),
        case("opening_as_calls", GOOD_OPENING, GOOD_OPENING, BROKEN),
    ]


def end_cases():
    """The end word, and what follows it."""
    found = []
    for name, offset in (("plus_1", 1), ("minus_1", -1), ("top_bit", 1 << 27)):
        found += [
            case("opening_sum_" + name, FULL_OPENING.closed(offset), GOOD_CALLS, BROKEN),
            case("calls_sum_" + name, GOOD_OPENING, FULL_CALLS.closed(offset), BROKEN),
        ]
    swapped = unpack(FULL_OPENING.closed())
    first, second = FULL_OPENING.at("validator 0 key 15"), FULL_OPENING.at("validator 1 key 15")
    swapped[first], swapped[second] = swapped[second], swapped[first]
    found.append(case("opening_words_swapped", pack(swapped), GOOD_CALLS, [0]))
    for name, good in (("opening", FULL_OPENING.closed()), ("calls", FULL_CALLS.closed())):
        damaged = [
            ("empty", b""),
            ("missing", None),
            ("one_byte", good[:1]),
            ("no_end", good[:-4]),
            ("end_alone", good[-4:]),
            ("second_end", good + good[-4:]),
            ("word_after", good + bytes(4)),
            ("twice", good + good),
        ]
        damaged += [(f"minus_{count}_bytes", good[:-count]) for count in (1, 2, 3)]
        damaged += [(f"plus_{count}_bytes", good + bytes(count)) for count in (1, 2, 3)]
        end_kind = pack(unpack(good)[:-1] + [next_kind(unpack(good)[-1])])
        damaged.append(("end_kind", end_kind))
        for how, data in damaged:
            pair = (data, GOOD_CALLS) if name == "opening" else (GOOD_OPENING, data)
            found.append(case(f"{name}_{how}", *pair, BROKEN))
    found.append(case("both_missing", None, None, BROKEN))
    return found


def sized_opening(validators, deposits, partials, consolidations):
    return books_bytes(
        books(
            validators=[validator(number) for number in range(validators)],
            deposits=[(0, 1)] * deposits,
            partials=[(0, 0, 2000)] * partials,
            consolidations=[(0, 1)] * consolidations,
        )
    )


def sized_calls(*more):
    """Refused lists of sixteen records fill the file with few calls."""
    calls = [withdrawals(*[(0, 0, address(0), 0)] * 16)] * 63
    calls += [receipt(key(0), credentials(1), 1)] * 3
    return calls + [leave(0, 1000), reward(0, 1), penalty(0, 1), *more]


def size_cases():
    """Exactly 65,536 bytes are read, four more are not; so are 9,999 calls and not 10,000."""
    whole = sized_opening(256, 256, 256, 113)
    longer = sized_opening(254, 256, 255, 130)
    whole_calls, longer_calls = calls_bytes(sized_calls()), calls_bytes(sized_calls(TURN))
    assert len(whole) == len(whole_calls) == 65_536
    assert len(longer) == len(longer_calls) == 65_540
    answers = [30] * 63 + [0] * 6
    small = books(limits=(1, 1, 1, 1))
    return [
        case("opening_65536", whole, [reward(0, 1), receipt(key(9), credentials(1), 1), TURN], [0, 40, 0]),
        case("opening_65540", longer, GOOD_CALLS, BROKEN, too_long=True),
        case("calls_65536", GOOD_OPENING, whole_calls, answers),
        case("calls_65540", GOOD_OPENING, longer_calls, BROKEN, too_long=True),
        case("calls_9999", small, [TURN] * 9_999, [0] * 9_999, {"epoch": 10_999}),
        case("calls_10000", small, [TURN] * 10_000, BROKEN),
        case("calls_none", GOOD_OPENING, [], []),
    ]


def many_records(queue, broken):
    """257 records of a kind: more than the program stores, and yet the file is read to its end."""
    records = {
        "deposits": [(0, 0)] * 257,
        "partials": [(0, 0, 0)] * 257,
        "consolidations": [(0, 0)] * 257,
    }
    return books_words(books(**{queue: records[queue]})).closed(1 if broken else 0)


def order_cases():
    """60 is judged on the whole file before 1, 3, 2; the opening before the calls."""
    unsound_settings = books(chain(increment=0))
    unsound_books = books(cursor=1)
    short = books(limits=(256, 256, 257, 256))
    all_wrong = books(chain(increment=0), limits=(256, 256, 257, 256), cursor=1)
    short_and_unsound = books(limits=(256, 256, 257, 256), cursor=1)
    found = [
        case("order_settings_before_calls", unsound_settings, b"", "refused 01"),
        case("order_settings_before_missing_calls", unsound_settings, None, "refused 01"),
        case("order_buffers_before_calls", short, b"", "refused 03"),
        case("order_books_before_calls", unsound_books, b"", "refused 02"),
        case("order_1_before_3_and_2", all_wrong, GOOD_CALLS, "refused 01"),
        case("order_3_before_2", short_and_unsound, GOOD_CALLS, "refused 03"),
        case("order_60_before_1", books_words(all_wrong).closed(1), GOOD_CALLS, BROKEN),
        case("order_60_before_3", books_words(short_and_unsound).closed(1), GOOD_CALLS, BROKEN),
        case("order_60_before_2", books_words(unsound_books).closed(1), GOOD_CALLS, BROKEN),
        case("many_validators", sized_opening(257, 0, 0, 0), GOOD_CALLS, "refused 02"),
    ]
    for queue in ("deposits", "partials", "consolidations"):
        found += [
            case("many_" + queue, many_records(queue, False), GOOD_CALLS, "refused 02"),
            case("many_" + queue + "_broken", many_records(queue, True), GOOD_CALLS, BROKEN),
        ]
    return found


def cases():
    return structure_cases() + value_cases() + end_cases() + size_cases() + order_cases()
