#!/usr/bin/env python3
"""Compares the example in docs/FORMAT.md, by words and by bytes, with the files in example/, with the bytes that
file_format.py writes, and with the words in crates/file_format/specs/Example.antt. The last line ends in `ok`.
"""

import pathlib
import re
import sys

sys.dont_write_bytecode = True

from file_format import FAR, MAINNET, SCALAR_NAMES, TURN, G, Books, Validator, books_bytes, calls_bytes, leave, pack

ROOT = pathlib.Path(__file__).resolve().parent.parent
PAGE = ROOT / "docs" / "FORMAT.md"
DEFINITIONS = ROOT / "crates" / "file_format" / "specs" / "Example.antt"


def opening():
    scalars = dict.fromkeys(SCALAR_NAMES, 0) | {"epoch": 1000}
    key, credentials = b"\1" + bytes(47), b"\1" + bytes(31)
    one = Validator(key, credentials, 0, 32 * G, 0, 0, FAR, FAR, 40 * G)
    return books_bytes(Books(list(MAINNET), [256] * 4, scalars, [one], deposits=[(0, G)]))


def calls():
    return calls_bytes([TURN, leave(0, 1000), leave(0, 1000)])


def block(title):
    """The lines of the first fenced block under a title that begins so."""
    return PAGE.read_text().split(f"\n### {title}")[1].split("```\n")[1].splitlines()


def by_words(name):
    """Each line: the place of its first word, its words, what they are."""
    words = []
    for line in block(f"`{name}` by words"):
        place, found, meaning = re.fullmatch(r" *(\d+)  ((?:[0-9a-f]{8} )+) *(\S.*)", line).groups()
        assert int(place) == len(words) and meaning, line
        words += [int(word, 16) for word in found.split()]
    return pack(words)


def by_bytes(name):
    """Each line: the place of its first byte, a colon, its bytes."""
    data = b""
    for line in block(f"`{name}` by bytes"):
        place, found = line.split(": ")
        assert int(place, 16) == len(data), line
        data += bytes.fromhex(found)
    return data


def defined(name):
    text = DEFINITIONS.read_text().split(f"\n{name} =\n")[1].split("[]")[0]
    return pack([int(word, 16) for word in re.findall("0x([0-9a-f]{8})", text)])


def main():
    for name, definition, data in (("opening.w", "opening_words", opening()), ("calls.w", "calls_words", calls())):
        found = {
            "words of the page": by_words(name),
            "bytes of the page": by_bytes(name),
            "file in example/": (ROOT / "example" / name).read_bytes(),
            "words of the definitions": defined(definition),
        }
        for what, other in found.items():
            if other != data:
                sys.exit(f"{name}: the {what} differ from what file_format.py writes")
        print(f"{name}: {len(data)} bytes, {len(found)} comparisons ok")


if __name__ == "__main__":
    main()
