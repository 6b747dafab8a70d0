"""Coverage of a recording: counts from the traced oracle, as tables of Markdown.

A count comes from the run itself: the traced build wraps every test, loop and choice of the rules
in a counter, and the driver counts answers, causes of a broken file and faults of books."""

from collections import Counter

from branches import BRANCHES, NOT_CALLED, UNREACHABLE

CALL_NAMES = {
    1: "reward",
    2: "penalty",
    3: "receipt",
    4: "exit",
    5: "request",
    6: "consolidation",
    7: "turn",
    8: "withdrawals",
    91: "deposit step",
    92: "consolidation step",
    93: "effective balance step",
}

# The numbers that the own tests of a call can answer.
OWN_ANSWERS = {
    1: (10,),
    2: (10,),
    3: (),
    4: (10, 11, 12, 13, 14, 15, 16),
    5: (),
    6: (20, 21, 22, 10, 11, 12, 13, 23, 24, 16),
    7: (),
    8: (30,),
    91: (),
    92: (),
    93: (),
}
BEFORE = (0, 1, 3, 2)
AFTER = (40, 41, 42)

# Why 40, 41 or 42 cannot come from a call.
NO_RECORD = "adds no validator and queues no deposit"
NO_GWEI = "brings no Gwei in and queues no partial"
NO_EPOCH = "changes no epoch and no withdrawal index"
NEW_FAR = "the epochs of a new validator are FAR"
CANNOT_COME = {
    (1, 40): NO_RECORD,
    (1, 42): NO_EPOCH,
    (2, 40): NO_RECORD,
    (2, 41): NO_GWEI,
    (2, 42): NO_EPOCH,
    (3, 42): NEW_FAR,
    (4, 40): NO_RECORD,
    (4, 41): NO_GWEI,
    (5, 40): NO_RECORD,
    (6, 40): NO_RECORD,
    (6, 41): NO_GWEI,
    (7, 41): NO_GWEI,
    (8, 40): NO_RECORD,
    (8, 41): NO_GWEI,
    (91, 40): "only takes deposits out of the queue",
    (91, 41): NO_GWEI,
    (91, 42): NO_EPOCH,
    (92, 41): NO_GWEI,
    (92, 42): NO_EPOCH,
    (93, 40): NO_RECORD,
    (93, 41): NO_GWEI,
    (93, 42): NO_EPOCH,
}

# Faults that never stand alone, with the reason.
NEVER_ALONE = {
    "settings: minimum churn 0": "the increment is then 0 too, or above it",
    "settings: payload 0": "partials are then not below it",
}

BROKEN_CAUSES = [
    "empty or missing",
    "more than 65,536 bytes",
    "a length that is no multiple of 4",
    *[f"ends before a word of kind {kind}" for kind in range(1, 10)],
    *[f"wrong kind where kind {kind} belongs" for kind in range(1, 10)],
    "wrong head",
    "a number's third word above 255",
    "bytes with a bit above the low 24",
    "padding not 0",
    "a flag above 1",
    "wrong end sum",
    "words after the end",
]
BROKEN_CALLS_CAUSES = [
    "more than 9,999 calls",
    "more than 16 listed withdrawals",
    "a code not 1 to 8",
]
CANNOT_BREAK = {
    "opening: ends before a word of kind 1": "a file of no words is empty",
    "calls: ends before a word of kind 1": "a file of no words is empty",
    "opening: ends before a word of kind 9": "books hold no call",
    "opening: wrong kind where kind 9 belongs": "books hold no call",
}

SETTINGS_FAULTS = [
    "one of the first five above 2^44",
    "one of the next ten above 2^16",
    "increment 0",
    "minimum churn 0",
    "greatest activation-exit churn 0",
    "churn quotient 0",
    "hysteresis quotient 0",
    "payload 0",
    "sweep 0",
    "increment above minimum churn",
    "first setting above second",
    "partials not below payload",
    "payload above 16",
    "a limit 0",
    "a limit above 65,536",
]
BOOKS_FAULTS = [
    "no validator",
    "validators above the limit",
    "deposits above the limit",
    "partials above the limit",
    "consolidations above the limit",
    "cursor not below the count",
    "a deposit's index not below the count",
    "a partial's index not below the count",
    "a source not below the count",
    "a target not below the count",
    "an effective balance above the second setting",
    "epoch above 2^62",
    "withdrawal index above 2^62",
    "carry above 2^62",
    "exit rest above 2^62",
    "earliest exit epoch above 2^62",
    "consolidation rest above 2^62",
    "earliest consolidation epoch above 2^62",
    "an eligibility epoch above 2^62",
    "an activation epoch above 2^62",
    "an exit epoch above 2^62",
    "a withdrawable epoch above 2^62",
    "a partial's epoch above 2^62",
    "balances plus waiting deposits above 2^62",
    "partial amounts above 2^62",
]


class Coverage:
    """Collects counts, writes the tables, and keeps what is missing."""

    def __init__(self):
        self.counts = Counter()
        self.missing = []

    def add(self, report):
        """Adds a report of the traced oracle: a count, a tab and a name on each line."""
        for line in report.splitlines():
            count, name = line.split("\t")
            self.counts[name] += int(count)

    def cell(self, name, reason=None):
        """The count of a name, or why there is none."""
        count = self.counts[name]
        if reason is not None:
            if count:
                self.missing.append(f"{name} was met, but is said to be out of reach")
            return f"cannot: {reason}"
        if not count:
            self.missing.append(f"{name} was never met")
        return f"{count:,}"

    def answers_table(self):
        rows = ["| Call | Answer | Times |", "|---|---|---|"]
        for number in (0, 1, 3, 2):
            rows.append(f"| reading the opening | {number} | {self.cell(f'answer: opening {number}')} |")
        rows.append(f"| reading the opening | 60 | {self.sum_of('opening: 60 '):,} |")
        rows.append(f"| reading the calls | 60 | {self.sum_of('calls: 60 '):,} |")
        for code, name in CALL_NAMES.items():
            for number in (*BEFORE, *OWN_ANSWERS[code], *AFTER):
                cell = self.cell(f"answer: {code} {number}", CANNOT_COME.get((code, number)))
                rows.append(f"| {code} {name} | {number} | {cell} |")
        for number in (0, 50, 42):
            rows.append(f"| bare assignment | {number} | {self.cell(f'answer: assignment {number}')} |")
        return rows

    def sum_of(self, start):
        return sum(count for name, count in self.counts.items() if name.startswith(start))

    def branches_table(self):
        rows = ["| Function of the text | No. | Test | Yes | No |", "|---|---|---|---|---|"]
        for name, text in BRANCHES.items():
            function, place = name.split("::")[1].split(":")
            sides = [self.cell(f"rule: {name} {side}", UNREACHABLE.get(f"{name} {side}")) for side in ("yes", "no")]
            rows.append(f"| `{function}` | {place} | {text} | {sides[0]} | {sides[1]} |")
        return rows

    def check_names(self):
        """Every counter of the traced build is in the table, or is said not to be called."""
        for name in self.counts:
            if name.startswith("rule: "):
                branch = name.removeprefix("rule: ").rsplit(" ", 1)[0]
                function = branch.rsplit(":", 1)[0]
                if branch not in BRANCHES and function not in NOT_CALLED:
                    self.missing.append(f"{branch} is not in the table")
                if function in NOT_CALLED and self.counts[name]:
                    self.missing.append(f"{function} was called")

    def not_called_table(self):
        rows = ["| Function of the text | Why it is not called |", "|---|---|"]
        for name, reason in NOT_CALLED.items():
            rows.append(f"| `{name}` | {reason} |")
        return rows

    def broken_table(self):
        rows = ["| Cause of 60 | Opening | Calls |", "|---|---|---|"]
        for cause in BROKEN_CAUSES:
            cells = []
            for file in ("opening", "calls"):
                reason = CANNOT_BREAK.get(f"{file}: {cause}")
                cells.append(self.cell(f"{file}: 60 {cause}", reason))
            rows.append(f"| {cause} | {cells[0]} | {cells[1]} |")
        for cause in BROKEN_CALLS_CAUSES:
            cell = self.cell(f"calls: 60 {cause}")
            rows.append(f"| {cause} | cannot: books hold no call | {cell} |")
        return rows

    def faults_table(self):
        rows = ["| Fault | Alone | With others |", "|---|---|---|"]
        for what, faults in (("settings", SETTINGS_FAULTS), ("books", BOOKS_FAULTS)):
            for fault in faults:
                name = f"{what}: {fault}"
                alone = self.cell(f"{name}, alone", NEVER_ALONE.get(name))
                others = self.counts[f"{name}, with others"]
                rows.append(f"| {what}: {fault} | {alone} | {others:,} |")
        return rows

    def results_table(self):
        rows = ["| Bound broken by a result (the first one decides) | Times |", "|---|---|"]
        for name in sorted(name for name in self.counts if name.startswith("result: ")):
            rows.append(f"| {name.removeprefix('result: ')} | {self.counts[name]:,} |")
        return rows

    def panics_table(self):
        rows = ["| Where the 64-bit text panics and whole numbers do not | Times |", "|---|---|"]
        for name in sorted(name for name in self.counts if name.startswith("64 bits: ")):
            rows.append(f"| {name.removeprefix('64 bits: ')} | {self.counts[name]:,} |")
        return rows
