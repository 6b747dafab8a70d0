"""Books, calls and counts as literals of the records of crates/rules/specs."""

import pathlib
import re

from file_format import SCALAR_NAMES

SPECS = pathlib.Path(__file__).resolve().parent.parent / "crates" / "rules" / "specs"

# what the definitions call each code
OPERATIONS = {
    1: "reward",
    2: "penalty",
    3: "deposit_receipt",
    4: "voluntary_exit",
    5: "withdrawal_request",
    6: "consolidation",
    7: "turn",
    8: "withdrawals",
    91: "pending_balance_deposits",
    92: "pending_consolidations",
    93: "effective_balance_updates",
}


def record_fields():
    """The fields of each record in their order, which is that of the file."""
    text = "".join((SPECS / f"{name}.antt").read_text() for name in ("Types", "Calls", "Counting"))
    bodies = re.findall(r"^pub record (\w+) .*\n((?:  .*\n)+)", text, re.MULTILINE)
    return {name: re.findall(r"^  pub (\S+) :", body, re.MULTILINE) for name, body in bodies}


FIELDS = record_fields()


def literal(value):
    """A flag, bytes or a number; text stays as it is."""
    if isinstance(value, bool):
        return "true" if value else "false"
    return listed(value) if isinstance(value, bytes) else str(value)


def listed(values):
    return "(" + "".join(f"{literal(value)} ∷ " for value in values) + "[])"


def record(name, values):
    fields = zip(FIELDS[name], values, strict=True)
    return "record { " + "; ".join(f"{field} = {literal(value)}" for field, value in fields) + " }"


def records(name, rows):
    return listed(record(name, row) for row in rows)


def settings(books):
    return record("Settings", books.chain + books.limits)


def books(found):
    values = [found.scalars[name] for name in SCALAR_NAMES]
    values.append(records("Validator", (vars(one).values() for one in found.validators)))
    values.append(records("PendingBalanceDeposit", found.deposits))
    values.append(records("PendingPartialWithdrawal", found.partials))
    values.append(records("PendingConsolidation", found.consolidations))
    return record("Books", values)


def calls(found, room):
    """Each call is lent buffers with room for so many records."""
    lent = record("Room", [room] * 4)
    return listed(record("Call", [lent, operation(call)]) for call in found)


def operation(call):
    code, *values = call
    if code == 8:
        values = [withdrawals(values[0])]
    return " ".join([OPERATIONS[code], *map(literal, values)])


def withdrawals(found):
    return records("Withdrawal", found)


def counted(found):
    queues = [records("PendingBalanceDeposit", queue) for queue in (found.credited, found.queued)]
    return record("Counted", [found.taken_in, found.taken_out, *queues, found.allowance])
