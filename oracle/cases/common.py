"""What the makers of cases share: a case, and short ways to write books."""

from dataclasses import dataclass, field

from file_format import (
    CHAIN_NAMES,
    FAR,
    G,
    MAINNET,
    SCALAR_NAMES,
    Books,
    Validator,
    books_bytes,
    calls_bytes,
    is_marker,
)

PROGRAM_BUFFERS = 256


@dataclass
class Case:
    """One case. What is wanted was worked out by hand from document 01; None where it was not."""

    name: str
    opening: bytes | None = None
    calls: bytes | None = None
    answers: list | str | None = None
    closing: dict = field(default_factory=dict)
    expected: list | None = None
    # markers among the calls are to be replaced by expected lists
    fill: bool = False
    # the codes 91, 92 and 93 may stand among the calls
    steps: bool = False
    # records that each buffer holds
    buffers: int = PROGRAM_BUFFERS
    # the opening is handed to the calls without being judged first
    lent: bool = False
    # the file is longer than the program reads; a library reader may have no such bound
    too_long: bool = False
    # the list expected on the closing books is recorded too
    record_expected: bool = False
    # rows of a bare assignment: five numbers in; answer, left, epoch wanted (or None)
    rows: list = field(default_factory=list)
    group: int = 0

    def for_program(self):
        return not (self.steps or self.lent or self.rows or self.buffers != PROGRAM_BUFFERS)

    def for_library(self):
        return not self.too_long


def key(number):
    return bytes([0xA0]) + number.to_bytes(47, "big")


def address(number):
    return bytes([0xEE]) + number.to_bytes(19, "big")


def credentials(prefix, address_number=1, middle=0):
    return bytes([prefix]) + bytes([middle] * 11) + address(address_number)


def validator(number=0, prefix=1, address_number=1, **values):
    """An active validator of 32 ether; any field can be given."""
    fields = dict(
        key=key(number),
        credentials=credentials(prefix, address_number),
        slashed=0,
        effective=32 * G,
        eligibility=0,
        activation=0,
        exit=FAR,
        withdrawable=FAR,
        balance=32 * G,
    )
    assert values.keys() <= fields.keys(), values
    fields.update(values)
    return Validator(**fields)


def left_early(number=0, prefix=1, **values):
    """A validator that has left and is withdrawable at epoch 1000."""
    return validator(number, prefix, **dict(dict(exit=900, withdrawable=950), **values))


def chain(**values):
    """The mainnet row with some values changed."""
    changed = list(MAINNET)
    for name, value in values.items():
        changed[CHAIN_NAMES.index(name)] = value
    return changed


# Balance churn 128 G, of which 64 G serve activations and exits and 64 G consolidations.
HALF_CHURN = chain(max_churn=64 * G)


def books(chain_values=None, limits=(256, 256, 256, 256), validators=None, **rest):
    """Books at epoch 1000 with one validator; queues and scalars can be given."""
    queues = {name: list(rest.pop(name, [])) for name in ("deposits", "partials", "consolidations")}
    scalars = dict.fromkeys(SCALAR_NAMES, 0)
    scalars["epoch"] = 1000
    assert rest.keys() <= scalars.keys(), rest
    scalars.update(rest)
    found = [validator()] if validators is None else list(validators)
    return Books(list(chain_values or MAINNET), list(limits), scalars, found, **queues)


def case(name, opening, calls, answers, closing=None, **rest):
    """A case; books and lists of calls are written as files, bytes are taken as they are."""
    as_list = isinstance(calls, list)
    return Case(
        name=name,
        opening=books_bytes(opening) if isinstance(opening, Books) else opening,
        calls=calls_bytes(calls) if as_list else calls,
        answers=answers,
        closing=closing or {},
        fill=as_list and any(is_marker(call) for call in calls),
        **rest,
    )


def closing_value(closing, wanted):
    """What closing books hold under a name: a scalar, a queue, the number of validators, or one
    field of a validator as `field[position]`."""
    if wanted in closing.scalars:
        return closing.scalars[wanted]
    if wanted == "validators":
        return len(closing.validators)
    if wanted.endswith("]"):
        name, position = wanted[:-1].split("[")
        return getattr(closing.validators[int(position)], name)
    return getattr(closing, wanted)
