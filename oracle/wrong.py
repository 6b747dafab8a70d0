#!/usr/bin/env python3
"""Makes crates/replay/data/wrong.bin: a few recorded cases, one byte of each wrong, so that the program
`replay` shows that it notices. It reads the recording; no Rust is needed.
"""

import sys

sys.dont_write_bytecode = True

import container
import record

WRONG = record.RECORDED.with_name("wrong.bin")

# group, kind of the section, and the byte that is wrong, counted from its end where negative
PLACES = [
    # a total of the table
    (4, container.PRINTED, -2),
    # the number of a refusal
    (1, container.PRINTED, -2),
    # the end word of the closing books
    (5, container.CLOSING, -4),
    # the count of the expected list
    (9, container.EXPECTED, 0),
    # the answer of a bare assignment
    (13, container.ASSIGNMENTS, 40),
    # a key in books that every call refuses
    (16, container.CLOSING, 4 * 86),
]


def is_wanted(case, group, kind):
    sections = dict(case.sections)
    refused = sections.get(container.PRINTED, b"").startswith(b"refused")
    return case.group == group and kind in sections and refused == (group == 1)


def spoilt(case, number, kind, at):
    sections = dict(case.sections)
    payload = bytearray(sections[kind])
    payload[at] ^= 1
    sections[kind] = bytes(payload)
    return container.Recorded(number, case.group, case.flags, case.buffers, list(sections.items()))


def main():
    recorded, seed = container.read(record.RECORDED.read_bytes())
    wrong = []
    for number, (group, kind, at) in enumerate(PLACES, 1):
        case = next(case for case in recorded if is_wanted(case, group, kind))
        wrong.append(spoilt(case, number, kind, at))
    data = container.container_bytes(wrong, seed)
    WRONG.write_bytes(data)
    print(f"{WRONG.name}: {len(data):,} bytes")


if __name__ == "__main__":
    main()
