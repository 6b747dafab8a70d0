"""The container of the recorded data, as oracle/recorded/README.md describes it."""

import struct
from dataclasses import dataclass

from cases.common import Case

FORMAT = 1
FILES_GROUP = 1

OPENING, CALLS, PRINTED, CLOSING, EXPECTED, ASSIGNMENTS = range(1, 7)

FOR_PROGRAM, FOR_LIBRARY, WITH_STEPS, LENT = 1, 2, 4, 8

LISTED = 16


@dataclass
class Recorded:
    number: int
    group: int
    flags: int
    buffers: int
    # pairs of kind and payload, in the order of the kinds
    sections: list


def words(*values):
    return struct.pack(f"<{len(values)}I", *values)


def number(value):
    """A number of 64 bits: two words, the low one first."""
    return struct.pack("<Q", value)


def section_bytes(kind, payload):
    padding = bytes(-len(payload) % 4)
    return words(kind, len(payload)) + payload + padding


def case_bytes(case):
    sections = b"".join(section_bytes(kind, payload) for kind, payload in case.sections)
    head = words(case.number, case.group, case.flags, case.buffers, len(case.sections), len(sections))
    return head + sections


def container_bytes(recorded, seed):
    body = b"".join(case_bytes(case) for case in recorded)
    head = words(FORMAT, len(recorded), seed, 16 + len(body))
    return head + body


def expected_payload(records):
    """A count, then sixteen records; those past the count are zeros."""
    assert len(records) <= LISTED
    payload = words(len(records))
    for index, validator, address, amount in records:
        payload += number(index) + number(validator) + address + number(amount)
    record_bytes = 3 * 8 + 20
    return payload + bytes((LISTED - len(records)) * record_bytes)


def assignments_payload(rows):
    """Each row: five numbers in; answer (one word), left and epoch out."""
    payload = b""
    for given, (answer, left, epoch) in rows:
        payload += b"".join(number(value) for value in given)
        payload += words(answer) + number(left) + number(epoch)
    return payload


def accepted_cases(data):
    """The cases whose files are accepted, but those about files and the lent ones, with sections."""
    recorded, _ = read(data)
    for one in recorded:
        sections = dict(one.sections)
        if CLOSING in sections and one.group != FILES_GROUP and not one.flags & LENT:
            case = Case(str(one.number), sections[OPENING], sections[CALLS], buffers=one.buffers)
            case.steps = bool(one.flags & WITH_STEPS)
            yield case, sections


def read(data):
    """The cases of a container, checked against every length that it states."""
    form, count, seed, length = struct.unpack_from("<4I", data)
    assert form == FORMAT and length == len(data)
    position = 16
    found = []
    for _ in range(count):
        case_number, group, flags, buffers, section_count, size = struct.unpack_from("<6I", data, position)
        position += 24
        end = position + size
        sections = []
        for _ in range(section_count):
            kind, payload_length = struct.unpack_from("<2I", data, position)
            position += 8
            sections.append((kind, data[position : position + payload_length]))
            position += payload_length + -payload_length % 4
        assert position == end
        found.append(Recorded(case_number, group, flags, buffers, sections))
    assert position == len(data)
    return found, seed
