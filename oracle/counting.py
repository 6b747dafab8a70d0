"""What a list of calls counts, from document 01's "Counting for demand 3" and the books before and after each call."""

from dataclasses import dataclass, field


@dataclass
class Counted:
    taken_in: int = 0
    taken_out: int = 0
    credited: list = field(default_factory=list)
    queued: list = field(default_factory=list)
    allowance: int = 0

    def add(self, call, before, after):
        """Adds what a call counts that is not refused."""
        code, credited = call[0], 0
        if code == 1:
            self.taken_in += call[2]
        elif code == 2:
            self.take_out(before, [call[1:]])
        elif code == 3 and (call[5] or any(one.key == call[1] for one in before.validators)):
            self.taken_in += call[3]
        elif code == 8:
            self.take_out(before, [(index, amount) for _, index, _, amount in call[1]])
        elif code in (7, 91):
            allowance = allowance_of(before)
            credited = affordable(before.scalars["carry"] + allowance, before.deposits)
            self.allowance += allowance
        # credited entries leave at the front of the queue, new ones come at its end
        self.credited += before.deposits[:credited]
        self.queued += after.deposits[len(before.deposits) - credited :]

    def take_out(self, before, amounts):
        balances = [one.balance for one in before.validators]
        for index, amount in amounts:
            taken = min(amount, balances[index])
            balances[index] -= taken
            self.taken_out += taken


def allowance_of(books):
    """What a deposit step may credit besides the carry: the churn of activations and exits."""
    increment, min_churn, max_churn, quotient = books.chain[2:6]
    epoch = books.scalars["epoch"]
    active = sum(one.effective for one in books.validators if one.activation <= epoch < one.exit)
    churn = max(min_churn, max(increment, active) // quotient)
    return min(max_churn, churn - churn % increment)


def affordable(left, deposits):
    """How many stand before the first that would bring the sum over what is left, else all."""
    for position, (_, amount) in enumerate(deposits):
        left -= amount
        if left < 0:
            return position
    return len(deposits)
