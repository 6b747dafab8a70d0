#!/usr/bin/env python3
"""Checks that the rules compiled here are the text of docs/src.

With no place mended, every compiled function must stand in its file of docs/src, to the letter and
once. One line is undone before: the limit of the partial queue, a const generic in the commit, is
a number of the context here. Every compiled struct must stand there too, its attributes aside.
With `--changes` the lines that the mends change are printed as well.
"""

import difflib
import re
import sys

sys.dont_write_bytecode = True

import build

FILES = [
    "capella/helpers",
    "capella/withdrawal",
    "phase0/validator",
    "electra/beacon_state",
    "electra/operations",
    "electra/helpers",
    "electra/epoch_processing",
    "electra/block_processing",
]
LIMIT_HERE = "== context.pending_partial_withdrawals_limit &&"
LIMIT_THERE = "== PENDING_PARTIAL_WITHDRAWALS_LIMIT &&"
FUNCTION = re.compile(r"^pub fn (\w+).*?^}\n", re.MULTILINE | re.DOTALL)
STRUCT = re.compile(r"^pub struct (\w+).*?^}\n", re.MULTILINE | re.DOTALL)
ATTRIBUTE = re.compile(r"^ *#\[serde\(.*\)\]\n", re.MULTILINE)


def source_text(file):
    return (build.docs_src() / "ethereum-consensus" / "src" / f"{file}.rs").read_text()


def compiled_text(texts, file):
    return (texts["rules64"] / (file.replace("/", "_") + ".rs")).read_text()


def compare(pattern, compiled, source):
    """How many items were compiled, and the names of those that do not stand in the source once."""
    items = list(pattern.finditer(compiled))
    return len(items), [item.group(1) for item in items if source.count(item.group(0)) != 1]


def check_verbatim():
    _, texts = build.cargo(folder="verbatim", unmended="all")
    functions = structs = limits = 0
    bad = []
    for file in FILES:
        compiled, source = compiled_text(texts, file), source_text(file)
        limits += compiled.count(LIMIT_HERE)
        compiled = compiled.replace(LIMIT_HERE, LIMIT_THERE)
        count, differing = compare(FUNCTION, compiled, source)
        functions += count
        bad += differing
        count, differing = compare(STRUCT, compiled, ATTRIBUTE.sub("", source))
        structs += count
        bad += differing
    if limits != 1:
        bad.append(f"{limits} lines with the limit of the partial queue")
    return functions, structs, bad


def print_changes():
    _, plain = build.cargo(folder="verbatim", unmended="all")
    _, mended = build.cargo(folder="main")
    for file in FILES:
        before = compiled_text(plain, file).splitlines()
        after = compiled_text(mended, file).splitlines()
        for line in difflib.unified_diff(before, after, f"{file} as published", f"{file} mended", n=0, lineterm=""):
            print(line)


def main():
    if "--changes" in sys.argv[1:]:
        print_changes()
    functions, structs, bad = check_verbatim()
    for name in bad:
        print("not verbatim:", name)
    print(f"{functions} functions and {structs} structs compiled, {len(bad)} not verbatim")
    sys.exit(bool(bad))


if __name__ == "__main__":
    main()
