#!/usr/bin/env python3
"""Shows each of the seven places: its smallest input, run mended and with that one place as
published, both in 64 bits. What differs is printed: answers, closing books, the expected list and
what the text says where it errs or panics. 97 is an error that has no number, 98 a panic; the
books are then shown as the text left them."""

import difflib
import sys
from collections import Counter

sys.dont_write_bytecode = True

import build
import cases
import container
import runner
from file_format import read_books
from record import RECORDED

# A case, and the oracle that runs it beside the mended one.
SHOWN = [
    ("place_1", "oracle-without-place-1"),
    ("place_2", "oracle-without-place-2"),
    ("place_3", "oracle-without-place-3"),
    ("place_4", "oracle-without-place-4"),
    ("place_4_epoch", "oracle-without-place-4"),
    ("place_5", "oracle-without-place-5"),
    ("place_5", "oracle-without-place-5-unchecked"),
    ("place_6", "oracle-without-place-6"),
    ("place_6_far", "oracle-without-place-6"),
    ("place_6_far", "oracle-without-place-6-unchecked"),
    ("place_7_known", "oracle-without-place-7"),
    ("place_7_unknown", "oracle-without-place-7"),
]


def books_lines(data):
    books = read_books(data)
    lines = [f"{name} {value}" for name, value in books.scalars.items()]
    for position, one in enumerate(books.validators):
        epochs = f"exit {one.exit} withdrawable {one.withdrawable}"
        lines.append(f"validator {position} prefix {one.credentials[0]:02} balance {one.balance} {epochs}")
    for queue in ("deposits", "partials", "consolidations"):
        lines.append(f"{queue} {getattr(books, queue)}")
    return lines


def shown_lines(case, oracle):
    extra = ["--engine", "64", "--notes"]
    result = runner.run(case, runner.WORK / "places", runner.BIN / oracle, True, extra)
    lines = result.printed.decode().splitlines()
    lines += [f"expected {record}" for record in result.expected]
    return lines + books_lines(result.closing) + result.errors.splitlines()


def replay_unmended():
    """How the text with no place mended answers the recorded calls of accepted books."""
    counts = Counter()
    for case, sections in container.accepted_cases(RECORDED.read_bytes()):
        extra = ["--engine", "64"]
        result = runner.run(case, runner.WORK / "places", runner.BIN / "oracle-unmended", False, extra)
        same = result.printed == sections[container.PRINTED] and result.closing == sections[container.CLOSING]
        counts["as recorded" if same else "differing"] += 1
        for line in result.printed.decode().splitlines()[1:]:
            _, code, answer, _ = line.split()
            if answer in ("97", "98"):
                counts[f"call {code} answers {answer}"] += 1
    return counts


def main():
    build.build_main()
    build.build_variants()
    by_name = {case.name: case for case in cases.hand_made()}
    for name, oracle in SHOWN:
        mended = shown_lines(by_name[name], "oracle")
        published = shown_lines(by_name[name], oracle)
        print(f"== {name}, {oracle}")
        changes = [
            line
            for line in difflib.unified_diff(mended, published, "mended", "as published", n=0, lineterm="")
            if not line.startswith(("@@", "---", "+++"))
        ]
        print("\n".join(changes) if changes else "(no difference)")
    print("== recorded cases, oracle-unmended")
    for name, count in sorted(replay_unmended().items()):
        print(f"{name}: {count}")


if __name__ == "__main__":
    main()
