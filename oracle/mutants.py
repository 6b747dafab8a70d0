#!/usr/bin/env python3
"""How much the recorded data notices: breaks the text of docs/src in one small spot at a time, in a
copy, builds the oracle from it and replays the recording. A broken text that gives every recorded
answer is printed as unnoticed. Long: a build and a replay for each spot.

    mutants.py [--from N] [--to N]
"""

import argparse
import os
import re
import shutil
import subprocess
import sys

sys.dont_write_bytecode = True

import build
import container
import runner
from record import RECORDED
from verbatim import FILES, FUNCTION

COPY = build.TARGET / "mutants" / "src"
SKIPPED = ("process_registry_updates", "is_eligible_for_activation_queue", "queue_entire_balance_and_reset_validator")
UNCALLED_FILE = "capella/helpers"

# What is broken: each match of a pattern, one at a time.
SPOTS = [
    (r" > ", " >= "),
    (r" >= ", " > "),
    (r" < ", " <= "),
    (r" <= ", " < "),
    (r" == ", " != "),
    (r" != ", " == "),
    (r" &&", " ||"),
    (r" \|\|\s", " && "),
    (r" \+ 1\b", " + 2"),
    (r" - 1\)", ")"),
    (r" \+= 1;", " += 2;"),
    (r" \+ (?!1\b)", " - "),
    (r" - (?!1\b)", " + "),
    (r" / ", " * "),
    (r" \* ", " + "),
    (r" % ", " / "),
    (r"\.min\(", ".max("),
    (r"\.max\(", ".min("),
    (r"::min\(", "::max("),
    (r"\bbreak\b", "continue"),
    (r"\[12\.\.\]", "[13..]"),
    (r"\n +(?:state|validator)\.[a-z_\[\]]+(?:\.\w+)? = [^;]+;", "\n"),
    (r"\n +(?:increase|decrease)_balance\([^;]+;", "\n"),
    (r"\n +[a-z_]+ \+= [^;]+;", "\n"),
    (r"\n +state\.\w+\.drain\([^;]+;", "\n"),
    (r"\n +(?:switch_to|queue_excess|initiate)_[^;]+;", "\n"),
]

# Spots where the broken text does the same.
EQUIVALENT = {
    "electra/block_processing:75 get_expected_withdrawals: 'break' -> 'continue'": "the most are paid, none is added",
}


def source_path(root, file):
    return root / "ethereum-consensus" / "src" / f"{file}.rs"


def compiled_functions():
    _, texts = build.cargo(folder="verbatim", unmended="all")
    for file in FILES:
        text = (texts["rules64"] / (file.replace("/", "_") + ".rs")).read_text()
        for found in FUNCTION.finditer(text):
            name = found.group(1)
            if name not in SKIPPED and not (file == UNCALLED_FILE and name.startswith("is_")):
                yield file, name


def spots():
    """File, function, a label and the broken text of the whole file."""
    for file, name in compiled_functions():
        text = source_path(build.docs_src(), file).read_text()
        function = next(found for found in FUNCTION.finditer(text) if found.group(1) == name)
        body = function.start() + function.group(0).index(" {\n")
        for pattern, new in SPOTS:
            for found in re.compile(pattern).finditer(text, body, function.end()):
                line = text.count("\n", 0, found.start()) + 1
                broken = text[: found.start()] + new + text[found.end() :]
                yield file, f"{file}:{line} {name}: {found.group(0).strip()!r} -> {new.strip()!r}", broken


def first_difference(program, replayed):
    """The number of the first case that differs; None where all are as recorded."""
    for case, sections in replayed:
        listed = container.EXPECTED in sections
        result = runner.run(case, build.TARGET / "mutants" / "case", program, listed, ["--engine", "wide"])
        same = result.printed == sections[container.PRINTED] and result.closing == sections[container.CLOSING]
        if listed and same:
            same = container.expected_payload(result.expected[:16]) == sections[container.EXPECTED]
        if not same:
            return case.name
    return None


def build_broken(file, broken):
    """The program with one broken file; None where the text no longer builds or meets its mends."""
    shutil.rmtree(COPY, ignore_errors=True)
    shutil.copytree(build.docs_src(), COPY)
    path = source_path(COPY, file)
    path.chmod(0o644)
    path.write_text(broken)
    environment = dict(os.environ, DOCS_SRC=str(COPY), UNMENDED="", TRACED="0")
    environment["CARGO_TARGET_DIR"] = str(build.TARGET / "mutants")
    command = ["cargo", "build", "--release", "--offline", "--jobs", "1", "--quiet"]
    done = subprocess.run(command, cwd=build.HERE, env=environment, capture_output=True)
    return build.TARGET / "mutants" / "release" / "oracle" if done.returncode == 0 else None


def main():
    parser = argparse.ArgumentParser(usage=__doc__)
    parser.add_argument("--from", dest="first", type=int, default=0)
    parser.add_argument("--to", dest="last", type=int)
    given = parser.parse_args()
    replayed = list(container.accepted_cases(RECORDED.read_bytes()))
    noticed = unbuilt = 0
    unnoticed = []
    for file, label, broken in list(spots())[given.first : given.last]:
        program = build_broken(file, broken)
        if program is None:
            unbuilt += 1
            print("not built:", label, flush=True)
            continue
        if label in EQUIVALENT:
            print(f"the same: {label} ({EQUIVALENT[label]})", flush=True)
        elif first_difference(program, replayed) is None:
            unnoticed.append(label)
            print("unnoticed:", label, flush=True)
        else:
            noticed += 1
    print(f"{noticed} noticed, {len(unnoticed)} unnoticed, {unbuilt} not built")


if __name__ == "__main__":
    main()
