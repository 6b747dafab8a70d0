#!/usr/bin/env python3
"""Builds the oracle and runs every case made by hand against what was worked out by hand.

Beside the wanted answers and closing books, each case checks that the closing file is the one
file of the books it holds, and that the oracle reads it back to the same books. A differing case
stays in oracle/target/cases. The last line is `N cases, 0 failed` if all is well.
"""

import sys

sys.dont_write_bytecode = True

import build
import cases
import runner
from cases.common import Case, closing_value
from file_format import books_bytes, calls_bytes, read_books


def table_faults(case, result):
    if isinstance(case.answers, str):
        printed = result.printed.decode()
        return [] if printed == case.answers + "\n" else [f"wanted {case.answers}, printed {printed!r}"]
    if result.refused():
        return [f"refused: {result.printed!r}"]
    if case.answers is not None and result.answers() != case.answers:
        return [f"wanted answers {case.answers}, found {result.answers()}"]
    return []


def closing_faults(case, result, directory):
    """What closing books do not hold as wanted; there are none after a refusal."""
    if result.refused():
        return [] if result.closing is None else ["closing books after a refusal"]
    closing = read_books(result.closing)
    faults = []
    for name, value in case.closing.items():
        found = closing_value(closing, name)
        if found != value:
            faults.append(f"wanted {name} {value}, found {found}")
    if books_bytes(closing) != result.closing:
        faults.append("the closing file is not the file of its books")
    reread = Case("reread", result.closing, calls_bytes([]), buffers=case.buffers, lent=case.lent)
    again = runner.run(reread, directory / "reread")
    if again.closing != result.closing:
        faults.append("the closing file does not read back")
    return faults


def row_faults(rows):
    found = runner.assign([row for row, _ in rows])
    assert len(found) == len(rows)
    pairs = zip(rows, found)
    return [f"{row}: wanted {wanted}, found {got}" for (row, wanted), got in pairs if wanted != got]


def case_faults(case):
    if case.rows:
        return row_faults(case.rows)
    directory = runner.WORK / case.name
    if case.fill:
        runner.fill(case, directory)
    result = runner.run(case, directory, expected=case.expected is not None)
    faults = table_faults(case, result)
    if result.status != 0 or result.errors:
        faults.append(f"status {result.status}: {result.errors}")
    if case.expected is not None and result.expected != case.expected:
        faults.append(f"wanted the list {case.expected}, found {result.expected}")
    return faults + closing_faults(case, result, directory)


def main():
    build.build_main()
    found = cases.hand_made()
    failed = 0
    for case in found:
        faults = case_faults(case)
        if faults:
            failed += 1
            print(f"FAILED {case.name}: {'; '.join(faults)}")
    print(f"{len(found)} cases, {failed} failed")
    sys.exit(failed != 0)


if __name__ == "__main__":
    main()
