#!/usr/bin/env python3
"""Spells the repository's own names in antt in snake case: a dash between words becomes an underscore.

Run once at the top of the repository, after the kit's port.py. A name is the repository's own if a file of specs/ or a
lemma file of proofs/ uses it and does not import it from the kit. Names from the kit, names that the kit makes (in a
function's proof files), functions of src/, strings and comments' plain words keep their spelling: in a comment, and in
README and docs/, only a name between backquotes is turned. Says which names would fall together in a file.
"""
import glob
import re
import sys

IDENT = r"[^\s(){}\[\];,.λ`\"|∣]+"
TOKEN = re.compile(r"(?<![^\s(){}\[\];,.λ`\"|∣])" + IDENT)
COMMENT = re.compile(r"^\s*--|^\s*//")
HYPHEN = re.compile(r"[A-Za-z0-9_'′₀-₉]+(?:-[A-Za-z0-9_'′₀-₉]+)+$")
OWN = re.compile(r"use Rattle\.(" + "|".join(sorted(
    (l.split(":")[0].split()[0] for l in open("crates.txt") if ":" in l.split("#")[0]), key=len, reverse=True)) + r")\.")
EXAMPLES = ("specs", "proofs")


def read(path):
    with open(path, encoding="utf-8") as f:
        return f.read()


def write(path, text):
    with open(path, "w", encoding="utf-8") as f:
        f.write(text)


def split_comment(line, mark):
    """the code of a line, and its comment"""
    i = line.find(mark)
    while i > 0 and not line[i - 1].isspace():
        i = line.find(mark, i + 1)
    return (line, "") if i < 0 else (line[:i], line[i:])


def kit_names(text):
    """what a file imports from the kit"""
    found = set()
    for m in re.finditer(r"^\s*(?:pub )?(?:ghost )?use ([^;{\n]*)(?:\{([^}]*)\})?", text, re.M):
        if not OWN.match("use " + m.group(1)) and m.group(2):
            found.update(w.strip() for w in m.group(2).split(","))
    return found


def hyphened(text, mark):
    for line in text.split("\n"):
        code, _ = split_comment(line, mark)
        for token in TOKEN.findall(code):
            if HYPHEN.match(token):
                yield token


def snake(name):
    return name.replace("-", "_")


antt = sorted(set(glob.glob("crates/*/specs/**/*.antt", recursive=True)))
lemmas = sorted(set(glob.glob("crates/*/proofs/*.antt")))
proofs = sorted(set(glob.glob("crates/*/proofs/**/*.antt", recursive=True)) - set(lemmas))
sources = sorted(set(glob.glob("crates/*/src/**/*.rt", recursive=True)))

own = set()
for path in antt + lemmas:
    text = read(path)
    theirs = kit_names(text)
    own.update(t for t in hyphened(text, "--") if t not in theirs)


def is_made(token):
    """a name that the kit makes in proof files"""
    return False


def turned_code(code, names):
    return TOKEN.sub(lambda m: snake(m.group(0)) if m.group(0) in names else m.group(0), code)


def turned_comment(comment, names):
    def quoted(m):
        return "`" + turned_code(m.group(1), names) + "`"
    return re.sub(r"`([^`]*)`", quoted, comment)


def turned(text, mark, names):
    out = []
    for line in text.split("\n"):
        code, comment = split_comment(line, mark)
        out.append(turned_code(code, names) + turned_comment(comment, names))
    return "\n".join(out)


def fall_together(path, text, mark, names):
    seen = set(TOKEN.findall("\n".join(split_comment(l, mark)[0] for l in text.split("\n"))))
    for token in sorted(seen & names):
        if snake(token) in seen:
            print(f"falls together: {path}: {token}")


if "--list" in sys.argv:
    print("\n".join(sorted(own)))
    sys.exit()
for path in antt + lemmas:
    text = read(path)
    names = own - kit_names(text)
    fall_together(path, text, "--", names)
    write(path, turned(text, "--", names))
for path in proofs:
    # only what the file imports from the repository's own modules, and fields of the repository's own records
    text = read(path)
    names = own - kit_names(text)
    fall_together(path, text, "--", names)
    write(path, turned(text, "--", names))
for path in sources:
    text = read(path)
    fall_together(path, text, "//", own)
    write(path, turned(text, "//", own))
for path in sorted(glob.glob("docs/*.md") + ["README.md"]):
    text = read(path)
    fenced = False
    out = []
    for line in text.split("\n"):
        if line.startswith("```"):
            fenced = not fenced
        out.append(turned_code(line, own) if fenced else turned_comment(line, own))
    write(path, "\n".join(out))
