"""Runs the oracle over a case."""

import pathlib
import subprocess
from dataclasses import dataclass

HERE = pathlib.Path(__file__).resolve().parent
BIN = HERE / "bin"
WORK = HERE / "target" / "cases"
ORACLE = BIN / "oracle"
TRACED = BIN / "oracle-traced"
HEADER = "call code answer total"


@dataclass
class Result:
    status: int
    # what the program `books` prints
    printed: bytes
    errors: str
    closing: bytes | None
    # the list expected on the closing books; None where it was not asked for
    expected: list | None

    def refused(self):
        return self.printed.startswith(b"refused")

    def answers(self):
        lines = self.printed.decode().split("\n")
        assert lines[0] == HEADER and lines[-1] == "", lines[:2]
        return [int(line.split()[2]) for line in lines[1:-1]]


def remove(path):
    path.unlink(missing_ok=True)


def lay_out(case, directory):
    """Writes the two files; a missing one is removed."""
    directory.mkdir(parents=True, exist_ok=True)
    for name, data in (("opening.w", case.opening), ("calls.w", case.calls)):
        if data is None:
            remove(directory / name)
        else:
            (directory / name).write_bytes(data)


def options(case):
    found = ["--buffers", str(case.buffers)]
    if case.steps:
        found.append("--steps")
    if case.lent:
        found.append("--lent")
    return found


def fill(case, directory, oracle=ORACLE):
    """Replaces markers among the calls by the lists expected there."""
    lay_out(case, directory)
    filled = directory / "filled.w"
    remove(filled)
    command = [oracle, "--in", directory, "--fill", filled, *options(case)]
    subprocess.run(command, check=True, capture_output=True)
    if filled.exists():
        case.calls = filled.read_bytes()


def run(case, directory, oracle=ORACLE, expected=False, extra=()):
    """Prints the table, the closing books and, where asked for, the expected list."""
    lay_out(case, directory)
    closing = directory / "closing.w"
    remove(closing)
    command = [oracle, "--in", directory, "--closing", closing, *options(case), *extra]
    if expected:
        command.append("--expected")
    done = subprocess.run(command, capture_output=True)
    lines = done.stdout.splitlines(keepends=True)
    listed = [line for line in lines if line.startswith(b"expected ")]
    return Result(
        status=done.returncode,
        printed=b"".join(line for line in lines if not line.startswith(b"expected ")),
        errors=done.stderr.decode(),
        closing=closing.read_bytes() if closing.exists() else None,
        expected=[record_of(line) for line in listed] if expected else None,
    )


def record_of(line):
    _, index, validator, address, amount = line.decode().split()
    return (int(index), int(validator), bytes.fromhex(address), int(amount))


def assign(rows, oracle=ORACLE, extra=()):
    """Answer, left and epoch of each row of five numbers, by the bare assignment."""
    lines = "".join(" ".join(str(number) for number in row) + "\n" for row in rows)
    command = [oracle, "--assignments", *extra]
    done = subprocess.run(command, input=lines, capture_output=True, text=True)
    assert done.returncode == 0, done.stderr
    return [tuple(int(word) for word in line.split()) for line in done.stdout.splitlines()]
