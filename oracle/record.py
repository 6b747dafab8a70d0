#!/usr/bin/env python3
"""Makes the recorded data, crates/replay/data/recorded.bin, and the tables of oracle/recorded/README.md.

    record.py           builds the oracle, runs every case and writes both files
    record.py --check   makes both anew and compares them with the files that stand

The same seed gives the same bytes. Every case is run twice, by the oracle and by the traced one,
which must print the same. A self-check that fails, a case made by hand whose answers are not the
wanted ones, or a gap in the coverage ends the program with a message.
"""

import pathlib
import sys

sys.dont_write_bytecode = True

import build
import cases
import check
import container
import random_cases
import runner
from coverage import Coverage

SEED = 5031
SMALL_CASES = 100
EXTREME_CASES = 40
ROW_CASES = 80
DAMAGED_CASES = 60

ORACLE = pathlib.Path(__file__).resolve().parent
RECORDED = ORACLE.parent / "crates/replay/data/recorded.bin"
README = ORACLE / "recorded/README.md"
GENERATED = "<!-- All below this line is written by oracle/record.py. -->\n"


def random_group(kind, count, group):
    found = [random_cases.make(SEED, number, kind) for number in range(count)]
    for case in found:
        case.group = group[0]
    return found


def all_cases():
    found = cases.hand_made()
    found += random_group(random_cases.SMALL, SMALL_CASES, cases.RANDOM_SMALL)
    found += random_group(random_cases.EXTREME, EXTREME_CASES, cases.RANDOM_LARGE)
    found += random_group(random_cases.ROWS, ROW_CASES, cases.RANDOM_MAINNET)
    for number in range(DAMAGED_CASES):
        kind = random_cases.KINDS[number % len(random_cases.KINDS)]
        case = random_cases.make_damaged(SEED, number, kind)
        case.group = cases.RANDOM_DAMAGE[0]
        found.append(case)
    return found


def flags_of(case):
    flags = 0
    if case.for_program():
        flags |= container.FOR_PROGRAM
    if case.for_library():
        flags |= container.FOR_LIBRARY
    if case.steps:
        flags |= container.WITH_STEPS
    if case.lent:
        flags |= container.LENT
    return flags


def record_rows(case, coverage):
    """The sections of a case of bare assignments."""
    given = [row for row, _ in case.rows]
    trace = runner.WORK / "trace"
    found = runner.assign(given, runner.TRACED, ["--trace", trace])
    assert found == runner.assign(given), case.name
    coverage.add(trace.read_text())
    return [(container.ASSIGNMENTS, container.assignments_payload(list(zip(given, found))))]


def record_files(case, coverage):
    """The sections of a case of two files."""
    directory = runner.WORK / "recording"
    trace = runner.WORK / "trace"
    result = runner.run(case, directory, expected=case.record_expected)
    traced = runner.run(case, directory, runner.TRACED, case.record_expected, ["--trace", trace])
    assert result.status == 0 and not result.errors, (case.name, result.errors)
    assert traced == result, f"{case.name}: the traced oracle differs"
    coverage.add(trace.read_text())
    found = [
        (container.OPENING, case.opening),
        (container.CALLS, case.calls),
        (container.PRINTED, result.printed),
        (container.CLOSING, result.closing),
    ]
    if result.expected is not None and not result.refused():
        found.append((container.EXPECTED, container.expected_payload(result.expected)))
    return [(kind, payload) for kind, payload in found if payload is not None]


def record(case, number, coverage):
    if case.fill:
        runner.fill(case, runner.WORK / "recording")
    sections = record_rows(case, coverage) if case.rows else record_files(case, coverage)
    return container.Recorded(number, case.group, flags_of(case), case.buffers, sections)


def check_by_hand(found):
    for case in found:
        faults = check.case_faults(case)
        if faults:
            sys.exit(f"{case.name}: {'; '.join(faults)}")


def printed_by(recorded):
    return dict(recorded.sections).get(container.PRINTED, b"")


def is_refused(recorded):
    return printed_by(recorded).startswith(b"refused")


def call_lines(recorded):
    """The lines of calls in the printed table of a case."""
    return 0 if is_refused(recorded) else max(0, printed_by(recorded).count(b"\n") - 1)


def assignment_rows(recorded):
    row_bytes = 5 * 8 + 4 + 2 * 8
    return len(dict(recorded.sections).get(container.ASSIGNMENTS, b"")) // row_bytes


def groups_table(recorded):
    rows = ["| Group | Holds | Cases | Calls | Assignments | Bytes |", "|---|---|---|---|---|---|"]
    for number, name in cases.GROUPS:
        members = [case for case in recorded if case.group == number]
        size = sum(len(container.case_bytes(case)) for case in members)
        calls = sum(call_lines(case) for case in members)
        lines = sum(assignment_rows(case) for case in members)
        rows.append(f"| {number} | {name} | {len(members):,} | {calls:,} | {lines:,} | {size:,} |")
    return rows


def summary(recorded, data):
    def with_flag(flag):
        return sum(1 for case in recorded if case.flags & flag)

    calls = sum(call_lines(case) for case in recorded)
    longest = max(call_lines(case) for case in recorded)
    refused = sum(1 for case in recorded if is_refused(case))
    rows = sum(assignment_rows(case) for case in recorded)
    program, library = with_flag(container.FOR_PROGRAM), with_flag(container.FOR_LIBRARY)
    return [
        f"- Seed {SEED}: {len(recorded):,} cases in {len(data):,} bytes.",
        f"- {program:,} cases are for the program, {library:,} for the library; most are for both.",
        f"- {refused:,} cases end in the refusal of a file or of books.",
        f"- The others hold {calls:,} calls, {longest:,} of them the turns of one case, and {rows:,} bare assignments.",
    ]


def generated_text(recorded, data, coverage):
    parts = [
        ("What is recorded", summary(recorded, data)),
        ("Groups", groups_table(recorded)),
        ("Answers by call", coverage.answers_table()),
        ("Branches by rule", coverage.branches_table()),
        ("Compiled, not called", coverage.not_called_table()),
        ("Causes of a broken file", coverage.broken_table()),
        ("Faults of settings and books", coverage.faults_table()),
        ("Bounds on results", coverage.results_table()),
        ("Panics of the mended text in 64 bits", coverage.panics_table()),
    ]
    return "\n".join(f"\n## {title}\n\n" + "\n".join(rows) for title, rows in parts) + "\n"


def make():
    build.build_main()
    build.build_traced()
    check_by_hand(cases.hand_made())
    coverage = Coverage()
    recorded = [record(case, number, coverage) for number, case in enumerate(all_cases(), 1)]
    data = container.container_bytes(recorded, SEED)
    assert container.read(data) == (recorded, SEED)
    text = generated_text(recorded, data, coverage)
    coverage.check_names()
    if coverage.missing:
        sys.exit("coverage:\n" + "\n".join(coverage.missing))
    return data, text


def main():
    data, text = make()
    above = README.read_text().split(GENERATED)[0]
    page = above + GENERATED + text
    if "--check" in sys.argv[1:]:
        if RECORDED.read_bytes() != data or README.read_text() != page:
            sys.exit("the recorded data is not what its seed gives")
        print(f"{RECORDED.name} and its tables are what seed {SEED} gives: {len(data):,} bytes")
    else:
        RECORDED.write_bytes(data)
        README.write_text(page)
        print(f"{RECORDED.name}: {len(data):,} bytes")


if __name__ == "__main__":
    main()
