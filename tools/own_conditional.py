#!/usr/bin/env python3
"""Gives the repository's own conditional a name of its own: `if t then x else y` of lists/specs/Base is `when t then x
else y`, since the kit keeps `if` for its own. Run at the top of the repository; a second run changes nothing.
"""
import glob
import re

OLD, NEW = "if◌then◌else◌", "when◌then◌else◌"


def code_and_comment(line):
    m = re.search(r"(^|\s)--(\s|$)", line)
    return (line, "") if not m else (line[:m.start()], line[m.start():])


def turned(text):
    out = []
    for line in text.split("\n"):
        code, comment = code_and_comment(line)
        code = code.replace(OLD, NEW)
        code = re.sub(r"(?<![^\s(\[{,;])if(?=\s|$)", "when", code)
        out.append(code + comment)
    return "\n".join(out)


def main():
    for path in glob.glob("crates/*/specs/**/*.antt", recursive=True) + glob.glob("crates/*/proofs/**/*.antt", recursive=True):
        if path.endswith("/Proof.antt"):
            continue
        text = open(path, encoding="utf-8").read()
        theirs = re.search(r"use Rattle\.std\.[^\n]*if◌then◌else◌", text)
        if OLD not in text or theirs:
            continue
        new = turned(text)
        if new != text:
            open(path, "w", encoding="utf-8").write(new)
    for path in glob.glob("crates/*/must-fail/*.edit"):
        lines = open(path, encoding="utf-8").read().split("\n")
        antt = False
        out = []
        for line in lines:
            if line.startswith("file: "):
                antt = line.rstrip().endswith(".antt")
            elif antt and line.startswith(("old: ", "new: ")):
                line = line[:5] + turned(line[5:])
            out.append(line)
        text = "\n".join(out)
        if text != "\n".join(lines):
            open(path, "w", encoding="utf-8").write(text)


if __name__ == "__main__":
    main()
