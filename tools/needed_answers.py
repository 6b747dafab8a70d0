#!/usr/bin/env python3
"""Drops the answers that the check finds alone: python3 tools/needed_answers.py CRATE..   (at the top of a clone)

Each Answers.antt is set aside, the crate is checked with its goals open, and the answers of the goals that stay open
are written back, until the crate proves. A crate that does not prove in five rounds keeps what it had.
"""
import pathlib
import re
import shutil
import subprocess
import sys

START = re.compile(r"(?m)^(?:-- .*\n)*(?:(?:abbrev |unfoldable )?pub )?([\w'-]+)(?: :|\n    :)")


def parts(text):
    """The imports, and each declaration with its name."""
    lines = text.split("\n")
    first = next((i for i, line in enumerate(lines) if line and not line.startswith(("use ", "--"))), len(lines))
    while first and lines[first - 1].startswith("--"):
        first -= 1
    blocks, block = [], []
    for line in lines[first:]:
        if not line and block:
            blocks.append("\n".join(block))
            block = []
        elif line:
            block.append(line)
    if block:
        blocks.append("\n".join(block))
    named = []
    for b in blocks:
        m = re.search(r"(?m)^(?:abbrev |unfoldable )?(?:pub )?([^\s:]+) :", b)
        if m:
            named.append((m.group(1), b))
        elif named:  # a where part or an equation behind an empty line
            named[-1] = (named[-1][0], named[-1][1] + "\n\n" + b)
    return "\n".join(lines[:first]).rstrip(), named


def check(crate):
    run = subprocess.run(
        ["rt", "check", "--allow-holes"], cwd=f"crates/{crate}", capture_output=True, text=True, timeout=1500
    )
    return run.stdout + run.stderr


def proved(out):
    if "logic=proved" in out.split("crate ")[-1]:
        return True
    return re.search(r"(?m)^holes=0$", out) and "the crate is not proved" not in out


def open_goals(out, function):
    """The goals that the check says are open in a function's folder."""
    goals = set()
    for m in re.finditer(r"expected answers in \./(\S+?)/Answers\.antt; `search` did not prove (.*)", out):
        if m.group(1) == function:
            goals |= set(re.findall(r"`([^`]+)`", m.group(2)))
    for m in re.finditer(r"(?m)^\./(\S+?)/Answers\.antt:\d+:\d+: .*?`([\w'-]+)`", out):
        if m.group(1) == function:
            goals.add(m.group(2))
    return goals


def needs(goals, name):
    return any(g == name or g.startswith(name + "-") or name.startswith(g + "-clause") for g in goals)


def write(path, head, named, kept):
    """The kept answers and the local lemmas that they name."""
    wanted = set(kept)
    while True:
        text = "\n".join(b for n, b in named if n in wanted)
        lemmas = [n for n, b in named if n not in wanted and f"goal.{n}" not in b]
        more = {n for n in lemmas if re.search(rf"(?<![\w-]){re.escape(n)}(?![\w-])", text)}
        if not more:
            break
        wanted |= more
    body = [b for n, b in named if n in wanted]
    if body:
        path.write_text(head + "\n\n" + "\n\n".join(body) + "\n")
    elif path.exists():
        path.unlink()


def main():
    for crate in sys.argv[1:]:
        root = pathlib.Path(f"crates/{crate}")
        files = {str(p.parent.relative_to(root)): p for p in root.glob("proofs/**/Answers.antt")}
        old = {f: p.read_text() for f, p in files.items()}
        split = {f: parts(t) for f, t in old.items()}
        kept = {f: set() for f in files}
        for f, p in files.items():
            write(p, *split[f], kept[f])
        for turn in range(5):
            out = check(crate)
            if "the crate is not proved" not in out and "error" not in out:
                break
            more = 0
            for f in files:
                goals = open_goals(out, f)
                for name, block in split[f][1]:
                    if name not in kept[f] and f"goal.{name}" in block and needs(goals, name):
                        kept[f].add(name)
                        more += 1
                write(files[f], *split[f], kept[f])
            if not more:
                # what the messages do not name comes back whole
                for f in files:
                    if re.search(rf"{re.escape(f)}/Answers\.antt", out) or re.search(
                        rf"fn \S*{re.escape(f.split('/')[-1])}: (?:no proof|not proved)", out
                    ):
                        kept[f] = {n for n, b in split[f][1]}
                        write(files[f], *split[f], kept[f])
        out = check(crate)
        if "the crate is not proved" in out or "error" in out:
            for f, p in files.items():
                p.parent.mkdir(parents=True, exist_ok=True)
                p.write_text(old[f])
            print(f"{crate}: kept as it was", out[-600:])
            continue
        before = sum(len(n) for _, n in split.values())
        after = sum(len(k) for k in kept.values())
        lines = sum(p.read_text().count("\n") for p in files.values() if p.exists())
        lines_before = sum(t.count("\n") for t in old.values())
        print(f"{crate}: {after} of {before} answers stay, {lines} lines of {lines_before}")


main()
