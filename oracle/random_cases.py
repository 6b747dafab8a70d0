"""Random cases. A case depends on its seed, its number and its kind alone."""

from cases.common import Case, address, credentials, key, validator
from dice import Dice
from file_format import (
    BOUND,
    CONSOLIDATION_STEP,
    DEPOSIT_STEP,
    EFFECTIVE_STEP,
    FAR,
    G,
    MAINNET,
    MINIMAL,
    SCALAR_NAMES,
    TURN,
    Books,
    books_bytes,
    calls_bytes,
    consolidate,
    leave,
    marker,
    pack,
    penalty,
    receipt,
    request,
    reward,
    unpack,
)

SMALL = "small"
EXTREME = "extreme"
ROWS = "rows"
KINDS = (SMALL, EXTREME, ROWS)

# Which calls a case draws from: all of them, or mostly those that consolidate or queue.
MIXES = (
    (1, 2, 3, 3, 4, 5, 5, 5, 6, 6, 7, 7, 7, 8, 8, 8),
    (6, 6, 6, 7, 7, 3, 1),
    (3, 3, 5, 6, 6, 6, 7),
    (5, 5, 5, 7, 8, 8, 1),
)


def small_chain(dice):
    increment = dice.between(1, 4)
    minimum = dice.pick([0, 8, 10, 32])
    maximum = minimum + dice.pick([0, 1, 8, 30])
    min_churn, max_churn = dice.between(increment, 45), dice.between(1, 45)
    if dice.chance(60):
        # room for consolidations
        max_churn = dice.between(1, 12)
        min_churn = max_churn + minimum + dice.between(increment, 20)
    partials = dice.between(0, 3)
    return [
        minimum,
        maximum,
        increment,
        min_churn,
        max_churn,
        dice.between(1, 6),
        dice.between(0, 4),
        dice.between(0, 3),
        dice.between(0, 2),
        dice.between(1, 4),
        dice.between(0, 3),
        dice.between(0, 5),
        partials,
        dice.between(partials + 1, partials + 4),
        dice.between(1, 6),
    ]


def extreme_chain(dice):
    top = 2**44
    increment = dice.pick([1, 3, 2**20, top])
    minimum = dice.pick([0, 1, 2**43, top])
    partials = dice.between(0, 15)
    return [
        minimum,
        dice.pick([minimum, top]),
        increment,
        dice.pick([increment, top]),
        dice.pick([1, increment, top]),
        dice.pick([1, 2, 65536]),
        dice.pick([0, 65536]),
        dice.pick([0, 65536]),
        dice.pick([0, 65536]),
        dice.pick([1, 3, 65536]),
        dice.pick([0, 65536]),
        dice.pick([0, 65536]),
        partials,
        dice.between(partials + 1, 16),
        dice.pick([1, 2, 65536]),
    ]


def row_chain(dice):
    """A row, at times with less churn for exits, so that consolidations are done."""
    chain = list(dice.pick([MAINNET, MAINNET, MINIMAL]))
    if dice.chance(30):
        chain[4] = dice.pick([64, 40, 95, 96]) * G
    return chain


class Maker:
    """Makes the opening and the calls of one case."""

    def __init__(self, seed, number, kind):
        self.dice = Dice(seed * 1_000_003 + number * 7 + KINDS.index(kind))
        chains = {SMALL: small_chain, EXTREME: extreme_chain, ROWS: row_chain}
        units = {SMALL: [1], EXTREME: [1, 2**40], ROWS: [G]}
        self.chain = chains[kind](self.dice)
        self.unit = self.dice.pick(units[kind])
        self.minimum, self.maximum, self.increment = self.chain[:3]
        self.lookahead = self.chain[8]
        near_top = self.dice.chance(8)
        self.epoch = BOUND - self.dice.below(4) if near_top else self.dice.pick([0, 1, 10, 1000])
        self.turns = 0

    def some_epoch(self, far_percent):
        dice = self.dice
        if dice.chance(far_percent):
            return FAR
        if dice.chance(80):
            return max(0, min(BOUND, self.epoch + dice.between(-5, 5)))
        return dice.pick([0, BOUND])

    def some_amount(self):
        """An amount of the books, often close to a bound of the rules."""
        dice, unit = self.dice, self.unit
        kind = dice.below(10)
        if kind == 0:
            return 0
        if kind <= 4:
            return max(0, self.minimum + dice.between(-3, 12) * max(1, unit // 4))
        if kind == 5:
            return max(0, self.minimum + dice.between(-1, 1))
        if kind == 6:
            return dice.pick([self.maximum, self.maximum + 1, self.maximum + unit])
        return dice.between(0, 60 * unit)

    def some_validator(self, position, count):
        dice = self.dice
        activation = 0 if dice.chance(60) else self.some_epoch(20)
        staying = dice.chance(65)
        effective = dice.pick(
            [
                self.minimum,
                self.minimum,
                self.maximum,
                max(0, self.minimum - self.unit),
                self.minimum + self.increment,
                dice.below(self.maximum + 1),
            ]
        )
        if dice.chance(60):
            effective -= effective % self.increment
        own_key = dice.chance(90)
        return validator(
            key=key(position if own_key else dice.below(count + 1)),
            credentials=credentials(dice.pick([0, 1, 1, 1, 2, 2, 2, 3]), dice.pick([1, 1, 1, 2]), dice.pick([0, 0, 7])),
            slashed=int(dice.chance(12)),
            effective=min(effective, self.maximum),
            eligibility=dice.pick([0, activation, self.some_epoch(40)]),
            activation=activation,
            exit=FAR if staying else self.some_epoch(10),
            withdrawable=FAR if staying and dice.chance(90) else self.some_epoch(10),
            balance=self.some_amount(),
        )

    def some_registry(self, count):
        dice = self.dice
        registry = [self.some_validator(position, count) for position in range(count)]
        if dice.chance(40):
            # mostly able to leave and to consolidate
            for one in registry:
                one.credentials = credentials(dice.pick([1, 1, 2]), 1)
                one.activation = 0
                if dice.chance(85):
                    one.exit = one.withdrawable = FAR
                    one.slashed = 0
        return registry

    def some_scalars(self, count):
        dice, unit = self.dice, self.unit

        def rest():
            return dice.pick([0, dice.between(0, 50 * unit), self.some_amount()])

        def earliest():
            first = self.epoch + 1 + self.lookahead
            late = BOUND - dice.below(70_000) if dice.chance(10) else 0
            return min(BOUND, dice.pick([0, first, max(0, first + dice.between(-1, 2)), late]))

        low_index = dice.chance(50)
        values = dict(
            epoch=self.epoch,
            withdrawal_index=0 if low_index else dice.pick([5, dice.below(100), BOUND - dice.below(4)]),
            cursor=dice.below(count),
            receipts_start=dice.pick([0, FAR, FAR, 9]),
            carry=dice.pick([0, 0, dice.between(0, 50 * unit), BOUND]),
            exit_left=rest(),
            exit_epoch=earliest(),
            consolidation_left=rest(),
            consolidation_epoch=earliest(),
        )
        return {name: values[name] for name in SCALAR_NAMES}

    def opening(self):
        dice = self.dice
        tops = (12, 12, 6, 6)
        limits = [dice.pick([256, dice.between(1, top)]) for top in tops]
        count = dice.between(1, min(limits[0], dice.pick([2, 4, 9])))
        deposits = [(dice.below(count), self.some_amount()) for _ in range(self.length(limits[1], 8))]
        partials = [
            (dice.below(count), dice.pick([0, 1, self.some_amount()]), dice.pick([0, self.epoch, self.some_epoch(10)]))
            for _ in range(self.length(limits[2], 6))
        ]
        consolidations = [(dice.below(count), dice.below(count)) for _ in range(self.length(limits[3], 6))]
        registry = self.some_registry(count)
        books = Books(self.chain, limits, self.some_scalars(count), registry, deposits, partials, consolidations)
        self.fill_up(books)
        return books

    def length(self, limit, most):
        return self.dice.between(0, min(limit, self.dice.pick([0, 2, most])))

    def fill_up(self, books):
        """At times brings a sum close to its bound."""
        dice = self.dice
        if dice.chance(8):
            room = BOUND - books.total() - dice.between(0, 20 * self.unit)
            if room > 0:
                dice.pick(books.validators).balance += room
        if dice.chance(5) and books.partials:
            room = BOUND - sum(amount for _, amount, _ in books.partials) - dice.below(4)
            index, amount, epoch = books.partials[0]
            if room > 0:
                books.partials[0] = (index, amount + room, epoch)

    def spoil(self, books):
        """Makes the books or the settings unsound, mostly."""
        dice = self.dice
        count = len(books.validators)
        kind = dice.below(8)
        if kind == 0:
            books.chain[dice.below(15)] = dice.pick([0, 2**44 + 1, 65537, FAR])
        elif kind == 1:
            books.scalars[dice.pick(SCALAR_NAMES)] = dice.pick([BOUND + 1, FAR])
        elif kind == 2:
            names = ["eligibility", "activation", "exit", "withdrawable", "effective", "balance"]
            setattr(books.validators[0], dice.pick(names), dice.pick([BOUND + 1, FAR - 1]))
        elif kind == 3:
            books.limits[dice.below(4)] = dice.pick([0, 1, 257, 65536, 65537])
        elif kind == 4:
            books.deposits.append((count, 1))
        elif kind == 5:
            books.partials.append((count, 1, 1))
        elif kind == 6:
            books.consolidations.append((0, count))
        else:
            books.validators = []

    def some_index(self, count):
        dice = self.dice
        if dice.chance(3):
            return dice.pick([FAR, count + 1, 2**32])
        return dice.pick([dice.below(count), dice.below(count), dice.below(count), count - 1, count])

    def call_amount(self):
        dice, unit = self.dice, self.unit
        kind = dice.below(20)
        if kind < 10:
            return dice.between(0, 12) * max(1, unit // 4)
        if kind < 14:
            return dice.pick([0, 1, unit, self.minimum, self.maximum])
        if kind < 19:
            return dice.between(0, 60 * unit)
        return dice.pick([BOUND, FAR, 2**63, 2**61])

    def call_epoch(self):
        now = self.epoch + self.turns
        return self.dice.pick([0, now, now, now + 1, FAR])

    def call_key(self, books):
        if self.dice.chance(80):
            return self.dice.pick(books.validators).key
        return key(self.dice.below(len(books.validators) + 7))

    def call_address(self, books, wanted):
        for one in books.validators:
            if one.key == wanted and self.dice.chance(85):
                return one.credentials[12:]
        return address(self.dice.pick([1, 2]))

    def some_call(self, books, code):
        dice, count = self.dice, len(books.validators)
        if code == 1:
            return reward(self.some_index(count), self.call_amount())
        if code == 2:
            return penalty(self.some_index(count), self.call_amount())
        if code == 3:
            new = credentials(dice.pick([0, 1, 2, 2, 3]), dice.pick([1, 2]))
            good = int(dice.chance(75))
            return receipt(self.call_key(books), new, self.call_amount(), dice.pick([0, 7, FAR]), good)
        if code == 4:
            return leave(self.some_index(count), self.call_epoch(), int(dice.chance(90)))
        if code == 5:
            wanted = self.call_key(books)
            amount = 0 if dice.chance(25) else self.call_amount()
            return request(self.call_address(books, wanted), wanted, amount)
        if code == 6:
            epoch = self.call_epoch() if dice.chance(40) else 0
            return consolidate(self.some_index(count), self.some_index(count), epoch, int(dice.chance(90)))
        if code == 7:
            self.turns += 1
            return TURN
        return marker(0 if dice.chance(60) else dice.between(1, 7))

    def calls(self, books, most, steps):
        mix = self.dice.pick(MIXES)
        found = []
        for _ in range(self.dice.between(most // 3, most)):
            if steps and self.dice.chance(25):
                found.append(self.dice.pick([DEPOSIT_STEP, CONSOLIDATION_STEP, EFFECTIVE_STEP]))
            else:
                found.append(self.some_call(books, self.dice.pick(mix)))
        return found


def make(seed, number, kind, most_calls=24, spoil_percent=4, steps_percent=20):
    """One case. A part of them takes the steps of a turn alone too, a few have unsound books."""
    maker = Maker(seed, number, kind)
    books = maker.opening()
    steps = maker.dice.chance(steps_percent)
    calls = maker.calls(books, most_calls, steps)
    if maker.dice.chance(spoil_percent):
        maker.spoil(books)
    return Case(
        name=f"random_{kind}_{seed}_{number}",
        opening=books_bytes(books),
        calls=calls_bytes(calls),
        fill=True,
        steps=steps,
        record_expected=True,
    )


def damage(dice, data):
    """The file with one or two random damages; mostly its end sum is put right again."""
    damaged = bytearray(data)
    for _ in range(dice.pick([1, 1, 2])):
        if not damaged:
            damaged = bytearray(4)
        position = dice.below(len(damaged))
        word = position // 4 * 4
        kind = dice.below(6)
        if kind == 0:
            damaged[position] ^= 1 << dice.below(8)
        elif kind == 1:
            del damaged[position:]
        elif kind == 2:
            damaged += bytes(dice.pick([1, 2, 4]))
        elif kind == 3:
            damaged[word : word + 4] = pack([dice.below(2**32)])
        elif kind == 4:
            del damaged[word : word + 4]
        else:
            damaged[word:word] = damaged[word : word + 4]
    if dice.chance(80) and len(damaged) >= 8:
        words = unpack(bytes(damaged[: len(damaged) // 4 * 4]))
        words[-1] = 8 << 28 | sum(words[:-1]) & (2**28 - 1)
        return pack(words)
    return bytes(damaged)


def make_damaged(seed, number, kind):
    """A case with few calls, one of its two files damaged. Its lists stay as they are drawn."""
    case = make(seed, number, kind, most_calls=6, spoil_percent=0, steps_percent=0)
    case.name = f"damaged_{kind}_{seed}_{number}"
    case.fill = case.record_expected = False
    dice = Dice(seed * 7_919 + number)
    if dice.chance(50):
        case.opening = damage(dice, case.opening)
    else:
        case.calls = damage(dice, case.calls)
    return case
