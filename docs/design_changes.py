#!/usr/bin/env python3
"""What changed between two trees, old and new side by side, as docs/DESIGN-PASS.md shows it.

The kit's script that lists contracts writes what this one reads:
    python3 KIT/port/contracts.py OLD_TREE NEW_TREE --json | python3 docs/design_changes.py
"""
import json
import re
import sys
import textwrap


def crate(name):
    return name.split(" ")[0]


def lines(sign, text):
    text = re.sub(r"\s+", " ", text).strip()
    return textwrap.wrap(
        text, 116, initial_indent=f"{sign} ", subsequent_indent=f"{sign}     ",
        break_long_words=False, break_on_hyphens=False,
    ) or [f"{sign} (none)"]


def clauses(word, old, new):
    shown = []
    for sign, these, others in (("-", old, new), ("+", new, old)):
        for name, text in these:
            if [name, text] not in others:
                shown += lines(sign, f"{word} {name + ': ' if name else ''}{text}")
    return shown


def section(title, entries):
    print(f"\n## {title}\n\n```diff")
    last = None
    for where, shown in entries:
        if crate(where) != last:
            last = crate(where)
            print(f"@@ {last} @@")
        print(" " + where[len(last) + 1:])
        print("\n".join(shown))
    print("```")


def main():
    r = json.load(sys.stdin)
    section("Signatures, old and new", sorted(
        (where, lines("-", old) + lines("+", new)) for where, old, new in r["signatures changed"]))
    section("Clauses, old and new", sorted(
        (where, clauses("requires", r0, r1) + clauses("ensures", e0, e1))
        for where, r0, e0, r1, e1 in r["contracts changed"]))
    section("Definitions and laws of specs/, old and new", sorted(
        (f"{c} {name}", [x for o in old for x in lines("-", o)] + [x for n in new for x in lines("+", n)])
        for c, name, old, new in r["definitions"]["changed"]))


main()
