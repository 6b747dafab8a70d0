"""The file of document 01: books and calls as words, and both back from bytes."""

import struct
from dataclasses import dataclass, field

FAR = 2**64 - 1
BOUND = 2**62
G = 10**9

CHAIN_NAMES = [
    "min_activation_balance",
    "max_effective_balance",
    "increment",
    "min_churn",
    "max_churn",
    "churn_quotient",
    "shard_period",
    "delay",
    "lookahead",
    "hysteresis_quotient",
    "hysteresis_down",
    "hysteresis_up",
    "partials",
    "payload",
    "sweep",
]
SCALAR_NAMES = [
    "epoch",
    "withdrawal_index",
    "cursor",
    "receipts_start",
    "carry",
    "exit_left",
    "exit_epoch",
    "consolidation_left",
    "consolidation_epoch",
]
MAINNET = [32 * G, 2048 * G, G, 128 * G, 256 * G, 65536, 256, 256, 4, 4, 1, 5, 8, 16, 16384]
MINIMAL = [32 * G, 2048 * G, G, 64 * G, 128 * G, 32, 64, 256, 4, 4, 1, 5, 1, 4, 16]

HEAD_BOOKS = 1
HEAD_CALLS = 2
KIND_HEAD, KIND_COUNT, KIND_LOW, KIND_MIDDLE, KIND_TOP, KIND_BYTES, KIND_FLAG, KIND_END, KIND_CALL = range(1, 10)
LOW_28 = 2**28 - 1

# bytes of a field
LENGTHS = {"key": 48, "credentials": 32, "address": 20}


@dataclass
class Validator:
    key: bytes
    credentials: bytes
    slashed: int
    effective: int
    eligibility: int
    activation: int
    exit: int
    withdrawable: int
    balance: int


@dataclass
class Books:
    chain: list
    limits: list
    scalars: dict
    validators: list
    deposits: list = field(default_factory=list)
    partials: list = field(default_factory=list)
    consolidations: list = field(default_factory=list)

    def total(self):
        """Balances plus waiting deposits."""
        balances = sum(validator.balance for validator in self.validators)
        return balances + sum(amount for _, amount in self.deposits)


class Words:
    """The words of a file, each with a label that says what it is."""

    def __init__(self):
        self.words = []
        self.labels = []

    def word(self, kind, value, label):
        assert 0 <= value <= LOW_28, (label, value)
        self.words.append(kind << 28 | value)
        self.labels.append(label)

    def head(self, head):
        self.word(KIND_HEAD, head, "head")

    def count(self, count, label):
        self.word(KIND_COUNT, count, label)

    def number(self, value, label):
        assert 0 <= value <= FAR, (label, value)
        self.word(KIND_LOW, value & LOW_28, label + " low")
        self.word(KIND_MIDDLE, value >> 28 & LOW_28, label + " middle")
        self.word(KIND_TOP, value >> 56, label + " top")

    def bytes(self, data, label):
        for start in range(0, len(data), 3):
            three = data[start : start + 3].ljust(3, b"\0")
            self.word(KIND_BYTES, int.from_bytes(three, "big"), f"{label} {start // 3}")

    def flag(self, flag, label):
        self.word(KIND_FLAG, int(flag), label)

    def copy(self):
        other = Words()
        other.words = list(self.words)
        other.labels = list(self.labels)
        return other

    def at(self, label):
        """The position of a label."""
        return self.labels.index(label)

    def closed(self, offset=0):
        """The file: all words and the end word, its sum off by `offset`."""
        end = KIND_END << 28 | (sum(self.words) + offset) & LOW_28
        return pack(self.words + [end])


def pack(words):
    return struct.pack(f"<{len(words)}I", *words)


def unpack(data):
    return list(struct.unpack(f"<{len(data) // 4}I", data))


def books_words(books, head=HEAD_BOOKS):
    words = Words()
    words.head(head)
    for position, value in enumerate(books.chain + books.limits):
        words.number(value, f"setting {position}")
    for name in SCALAR_NAMES:
        words.number(books.scalars[name], name)
    words.count(len(books.validators), "validators")
    for position, validator in enumerate(books.validators):
        label = f"validator {position}"
        words.bytes(validator.key, label + " key")
        words.bytes(validator.credentials, label + " credentials")
        words.flag(validator.slashed, label + " slashed")
        for name in ("effective", "eligibility", "activation", "exit", "withdrawable", "balance"):
            words.number(getattr(validator, name), f"{label} {name}")
    queues = (
        ("deposits", ("index", "amount")),
        ("partials", ("index", "amount", "epoch")),
        ("consolidations", ("source", "target")),
    )
    for queue, names in queues:
        records = getattr(books, queue)
        words.count(len(records), queue)
        for position, record in enumerate(records):
            for name, value in zip(names, record, strict=True):
                words.number(value, f"{queue} {position} {name}")
    return words


def books_bytes(books):
    return books_words(books).closed()


class Reader:
    """Reads a file that is known to be whole."""

    def __init__(self, data):
        self.words = unpack(data)
        self.position = 0

    def word(self, kind):
        word = self.words[self.position]
        self.position += 1
        assert word >> 28 == kind, (self.position, word, kind)
        return word & LOW_28

    def number(self):
        return self.word(KIND_LOW) | self.word(KIND_MIDDLE) << 28 | self.word(KIND_TOP) << 56

    def bytes(self, length):
        count = -(-length // 3)
        data = b"".join(self.word(KIND_BYTES).to_bytes(3, "big") for _ in range(count))
        return data[:length]

    def validator(self):
        return Validator(
            key=self.bytes(48),
            credentials=self.bytes(32),
            slashed=self.word(KIND_FLAG),
            effective=self.number(),
            eligibility=self.number(),
            activation=self.number(),
            exit=self.number(),
            withdrawable=self.number(),
            balance=self.number(),
        )

    def queue(self, numbers):
        return [tuple(self.number() for _ in range(numbers)) for _ in range(self.word(KIND_COUNT))]

    def call_field(self, name, kind):
        if kind == "bytes":
            return self.bytes(LENGTHS[name])
        return self.number() if kind == "number" else bool(self.word(KIND_FLAG))

    def call(self):
        code = self.word(KIND_CALL)
        fields = [self.call_field(name, kind) for name, kind in CALL_FIELDS.get(code, ())]
        if code != 8:
            return (code, *fields)
        count = self.word(KIND_COUNT)
        return withdrawals(*((self.number(), self.number(), self.bytes(20), self.number()) for _ in range(count)))


def read_books(data):
    reader = Reader(data)
    assert reader.word(KIND_HEAD) == HEAD_BOOKS
    return Books(
        chain=[reader.number() for _ in CHAIN_NAMES],
        limits=[reader.number() for _ in range(4)],
        scalars={name: reader.number() for name in SCALAR_NAMES},
        validators=[reader.validator() for _ in range(reader.word(KIND_COUNT))],
        deposits=reader.queue(2),
        partials=reader.queue(3),
        consolidations=reader.queue(2),
    )


# A call is a tuple: its code, then its fields in the order of the file.


def reward(validator, amount):
    return (1, validator, amount)


def penalty(validator, amount):
    return (2, validator, amount)


def receipt(key, credentials, amount, index=0, flag=1):
    return (3, key, credentials, amount, index, flag)


def leave(validator, epoch, flag=1):
    """A voluntary exit."""
    return (4, validator, epoch, flag)


def request(address, key, amount):
    return (5, address, key, amount)


def consolidate(source, target, epoch=0, flag=1):
    return (6, source, target, epoch, flag)


TURN = (7,)


def withdrawals(*records):
    """Each record is index, validator, address, amount."""
    return (8, list(records))


def marker(miss=0):
    """Becomes the expected list (0) or a near miss (1 to 7) when the oracle fills the calls."""
    return withdrawals((FAR, FAR - miss, bytes(20), 0))


def is_marker(call):
    return call[0] == 8 and len(call[1]) == 1 and call[1][0][0] == FAR


# The steps of a turn alone. No file of document 01 carries these codes.
DEPOSIT_STEP = (91,)
CONSOLIDATION_STEP = (92,)
EFFECTIVE_STEP = (93,)

CALL_FIELDS = {
    1: (("validator", "number"), ("amount", "number")),
    2: (("validator", "number"), ("amount", "number")),
    3: (
        ("key", "bytes"),
        ("credentials", "bytes"),
        ("amount", "number"),
        ("index", "number"),
        ("flag", "flag"),
    ),
    4: (("validator", "number"), ("epoch", "number"), ("flag", "flag")),
    5: (("address", "bytes"), ("key", "bytes"), ("amount", "number")),
    6: (("source", "number"), ("target", "number"), ("epoch", "number"), ("flag", "flag")),
}


def call_words(words, call, label):
    code = call[0]
    words.word(KIND_CALL, code, label + " code")
    for (name, kind), value in zip(CALL_FIELDS.get(code, ()), call[1:]):
        getattr(words, kind)(value, f"{label} {name}")
    if code == 8:
        words.count(len(call[1]), label + " count")
        for position, (index, validator, address, amount) in enumerate(call[1]):
            record = f"{label} record {position}"
            words.number(index, record + " index")
            words.number(validator, record + " validator")
            words.bytes(address, record + " address")
            words.number(amount, record + " amount")


def calls_words(calls, head=HEAD_CALLS, count=None):
    words = Words()
    words.head(head)
    words.count(len(calls) if count is None else count, "calls")
    for position, call in enumerate(calls):
        call_words(words, call, f"call {position}")
    return words


def calls_bytes(calls):
    return calls_words(calls).closed()


def read_calls(data):
    reader = Reader(data)
    assert reader.word(KIND_HEAD) == HEAD_CALLS
    return [reader.call() for _ in range(reader.word(KIND_COUNT))]
