#!/usr/bin/env python3
"""The definitions of crates/rules/specs beside the mended Rust, on random lists of calls.

    definitions.py COUNT [--seed S] [--wrong]

The checker computes the definitions themselves and no code of the library: for each list the answers (`answers`), the
closing books (`run`), the withdrawals expected on these (`get_expected_withdrawals`) and what the list counts
(`counted`). The first three must be what the oracle prints and writes; what is counted is worked out by counting.py
from the books that the oracle leaves after each call. Books that the program `books` would refuse are handed to the
calls all the same: every call is then answered 1, 2 or 3, and the expected withdrawals are left out. Not compared: the
books between two calls, the bare assignment, and buffers for other than 256 records.

Each list is a module of equations by `refl` in a temporary repository with copies of the crates lists and rules; `rt`
must be on the path. With `--wrong` one expected number of one list is changed, and that list alone must be told. The
files of a list that differs stay in oracle/target/definitions. The last line is `N lists, M calls, 0 differences` if
all is well.
"""

import argparse
import pathlib
import re
import shutil
import subprocess
import sys
import tempfile
from collections import Counter

sys.dont_write_bytecode = True

import build
import literals
import random_cases
import runner
from cases.common import PROGRAM_BUFFERS, Case
from counting import Counted
from dice import Dice
from file_format import SCALAR_NAMES, calls_bytes, read_books, read_calls

CRATES = build.HERE.parent / "crates"
KEPT = build.TARGET / "definitions"
LISTS_A_CHECK = 100
MOST_CALLS = 10
# kept under a name that `rt` does not take for a lost file of a crate
EQUATIONS = "equations.txt"

HEAD = f"""use Rattle.std.specs.Prelude.{{◌≡◌, refl, true, false, List, [], ◌∷◌}}
use Rattle.rules.specs.Types.{{Settings, Books}}
use Rattle.rules.specs.BlockProcessing.{{get_expected_withdrawals}}
use Rattle.rules.specs.Calls.{{Call, answers, run}}
use Rattle.rules.specs.Calls.{{{", ".join(literals.OPERATIONS.values())}}}
use Rattle.rules.specs.Counting.{{counted}}
use Rattle.rules.specs.Examples.{{opened}}
"""


def arguments():
    parser = argparse.ArgumentParser(usage=__doc__)
    parser.add_argument("count", type=int)
    parser.add_argument("--seed", type=int, default=1)
    parser.add_argument("--wrong", action="store_true")
    return parser.parse_args()


def carry_out(case, directory):
    """The oracle's result. Books that are refused are lent unjudged."""
    runner.fill(case, directory)
    result = runner.run(case, directory, expected=True)
    if result.refused():
        case.lent = True
        result = runner.run(case, directory)
    assert result.status == 0 and not result.errors, (case.name, result.errors)
    return result


def counted(case, calls, result, directory):
    """What the list counts, each call carried out alone on the books that the last one left."""
    found = Counted()
    books = case.opening
    for call, answer in zip(calls, result.answers(), strict=True):
        alone = Case("alone", books, calls_bytes([call]), steps=case.steps, lent=case.lent)
        after = runner.run(alone, directory / "alone").closing
        if answer == 0:
            found.add(call, read_books(books), read_books(after))
        books = after
    assert books == result.closing, case.name
    return found


def make_wrong(dice, answers, closing, counts):
    """Changes one expected number: an answer, a scalar, a balance or a count."""
    kind = dice.below(4)
    if kind == 0:
        answers[dice.below(len(answers))] += 1
    elif kind == 1:
        closing.scalars[dice.pick(SCALAR_NAMES)] += 1
    elif kind == 2 and closing.validators:
        dice.pick(closing.validators).balance += 1
    else:
        counts.taken_out += 1


def write_equations(case, directory, dice):
    """Writes what must hold of a case, with dice one number of it wrong. Gives the answers."""
    result = carry_out(case, directory)
    opening, calls = read_books(case.opening), read_calls(case.calls)
    answers, closing = result.answers(), read_books(result.closing)
    counts = counted(case, calls, result, directory)
    if dice:
        make_wrong(dice, answers, closing, counts)
    given = [
        ("settings", "Settings", literals.settings(opening)),
        ("opening", "Books", literals.books(opening)),
        ("calls", "List Call", literals.calls(calls, PROGRAM_BUFFERS)),
    ]
    equations = [
        ("same_answers", "answers settings opening calls", literals.listed(answers)),
        ("same_closing", "run settings opening calls", literals.books(closing)),
        ("same_counted", "counted settings opening calls", literals.counted(counts)),
    ]
    if result.expected is not None:
        left = "get_expected_withdrawals settings (run settings opening calls)"
        equations.append(("same_expected", left, literals.withdrawals(result.expected)))
    text = HEAD
    for name, type_name, value in given:
        text += f"\npub {name} : {type_name}\n{name} = {value}\n"
    for name, left, right in equations:
        text += f"\npub {name} : {left} ≡ {right}\nunfolding settings opening calls opened\n{name} = refl\n"
    (directory / EQUATIONS).write_text(text)
    return result.answers()


def lay_out_repository(root):
    for name in ("lists", "rules"):
        for part in ("src", "specs", "proofs"):
            if (CRATES / name / part).exists():
                shutil.copytree(CRATES / name / part, root / "crates" / name / part)
    (root / "crates.txt").write_text("lists:\nrules: lists\nequations: lists rules\n")


def differing(root, directories):
    """Has the checker compute the equations of these lists; gives what it says of each list that differs."""
    crate = root / "crates" / "equations"
    shutil.rmtree(crate, ignore_errors=True)
    for part in ("src", "specs"):
        (crate / part).mkdir(parents=True)
    (crate / "src" / "lib.rt").write_text("// Equations alone, no code.\n\n#![tactic(auto)]\n")
    (crate / "specs" / "Lib.antt").write_text("".join(f"pub mod {one.name}\n" for one in directories))
    for one in directories:
        shutil.copy(one / EQUATIONS, crate / "specs" / f"{one.name}.antt")
    done = subprocess.run(["rt", "check"], cwd=crate, capture_output=True, text=True)
    found = {}
    for name, told in re.findall(r"specs/(\w+)\.antt:\d+:\d+: error: (.*(?:\n  .*)*)", done.stdout):
        found.setdefault(name, []).append(told)
    if (done.returncode == 0) == bool(found) or not found.keys() <= {one.name for one in directories}:
        sys.exit(f"the check ended with {done.returncode}:\n{done.stdout}{done.stderr}")
    return found


def tell(directory, told):
    """Keeps the files of a list that differs; prints which equations fail, and where."""
    shutil.copytree(directory, KEPT / directory.name, dirs_exist_ok=True)
    print(f"DIFFERS {directory.name}")
    for lines in told:
        equation = lines.split(":")[0].strip("`")
        where = [line.strip() for line in lines.split("\n") if line.startswith("  computed")]
        print(f"  {equation}: {(where or [lines])[0][:400]}")


def main():
    given = arguments()
    build.build_main()
    shutil.rmtree(KEPT, ignore_errors=True)
    kinds = random_cases.KINDS
    dice = Dice(given.seed)
    wrong = dice.below(given.count) if given.wrong else None
    counts = Counter()
    differences = 0
    with tempfile.TemporaryDirectory() as temporary:
        root, lists = pathlib.Path(temporary, "repository"), pathlib.Path(temporary, "lists")
        lay_out_repository(root)
        for first in range(0, given.count, LISTS_A_CHECK):
            directories = []
            for number in range(first, min(first + LISTS_A_CHECK, given.count)):
                case = random_cases.make(given.seed, number, kinds[number % len(kinds)], MOST_CALLS)
                directories.append(lists / case.name)
                if number == wrong:
                    print(f"made wrong: {case.name}")
                counts.update(write_equations(case, directories[-1], dice if number == wrong else None))
            for name, told in differing(root, directories).items():
                differences += 1
                tell(lists / name, told)
            shutil.rmtree(lists)
    print("answers:", ", ".join(f"{number} {counts[number]} times" for number in sorted(counts)))
    print(f"{given.count} lists, {counts.total()} calls, {differences} differences")
    sys.exit(differences != 0)


if __name__ == "__main__":
    main()
