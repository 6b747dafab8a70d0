#!/usr/bin/env python3
"""Random cases for the oracle itself and for any other program.

    fuzz.py COUNT [--seed S] [--kind small|extreme|rows|all] [--damaged] [--calls N]
                  [--other PROGRAM] [--keep]

Each case is run by the oracle, whose two widths check each other and which judges the books after
each answer 0. Its closing file must read back to itself. With `--other` the program is run in the
case's directory and must print the same bytes; cases that hold calls no file carries are left out
then. With `--damaged` half of the cases have a damaged file. A case that fails stays in
oracle/target/fuzz (every case with `--keep`). The last line is `N cases, 0 failed` if all is well.
"""

import argparse
import pathlib
import shutil
import subprocess
import sys
from collections import Counter

sys.dont_write_bytecode = True

import build
import random_cases
import runner
from cases.common import Case
from file_format import calls_bytes

FUZZ = build.TARGET / "fuzz"


def arguments():
    parser = argparse.ArgumentParser(usage=__doc__)
    parser.add_argument("count", type=int)
    parser.add_argument("--seed", type=int, default=1)
    parser.add_argument("--kind", choices=[*random_cases.KINDS, "all"], default="all")
    parser.add_argument("--damaged", action="store_true")
    parser.add_argument("--calls", type=int, default=24)
    parser.add_argument("--other", type=pathlib.Path)
    parser.add_argument("--keep", action="store_true")
    return parser.parse_args()


def make_case(given, number):
    kinds = random_cases.KINDS
    kind = kinds[number % len(kinds)] if given.kind == "all" else given.kind
    if given.damaged and number % 2:
        return random_cases.make_damaged(given.seed, number, kind)
    steps = 0 if given.other else 20
    return random_cases.make(given.seed, number, kind, given.calls, steps_percent=steps)


def faults_of(case, directory, other):
    if case.fill:
        runner.fill(case, directory)
    trace = directory / "trace"
    result = runner.run(case, directory, expected=True, extra=["--trace", trace])
    faults = []
    if result.status != 0 or result.errors:
        faults.append(f"status {result.status}: {result.errors}")
    if result.closing is not None:
        again = runner.run(Case("reread", result.closing, calls_bytes([])), directory / "reread")
        if again.closing != result.closing:
            faults.append("the closing file does not read back")
    if other:
        done = subprocess.run([other.resolve()], cwd=directory, capture_output=True)
        if done.stdout != result.printed:
            (directory / "other.txt").write_bytes(done.stdout)
            (directory / "oracle.txt").write_bytes(result.printed)
            faults.append("the other program prints something else")
    return result, faults


def count_panics(directory, counts):
    """Where the 64-bit text panics and the answer is 41 or 42."""
    for line in (directory / "trace").read_text().splitlines():
        count, name = line.split("\t")
        if name.startswith("64 bits: "):
            counts[name] += int(count)


def count_answers(result, counts):
    if result.refused():
        counts[result.printed.decode().strip()] += 1
        return
    for line in result.printed.decode().splitlines()[1:]:
        _, code, answer, _ = line.split()
        counts[f"call {code} answer {answer}"] += 1


def main():
    given = arguments()
    build.build_main()
    counts = Counter()
    failed = 0
    for number in range(given.count):
        case = make_case(given, number)
        directory = FUZZ / case.name
        result, faults = faults_of(case, directory, given.other)
        count_answers(result, counts)
        count_panics(directory, counts)
        if faults:
            failed += 1
            print(f"FAILED {case.name}: {'; '.join(faults)}")
        elif not given.keep:
            shutil.rmtree(directory)
    for name in sorted(counts):
        print(f"{name}: {counts[name]}")
    print(f"{given.count} cases, {failed} failed")
    sys.exit(failed != 0)


if __name__ == "__main__":
    main()
