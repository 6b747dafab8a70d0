#!/usr/bin/env python3
"""The places of docs/DESIGN-PASS.md in crates/*/src, point by point: python3 docs/design_places.py [OPTION] [COMMIT]

With a commit the tree of that commit is counted, else the files as they lie. --list prints each place. --kept prints
each place with the line that says why it stays, and counts those that have none: the line stands in the comment above
the place, or in a comment of its own, with an empty line behind it, for the whole file.
"""
import collections
import re
import subprocess
import sys

POINTS = {
    1: "own Option or Result, a flag beside a value, numbers for kinds or refusals",
    2: "twins",
    3: "loops that count an index by hand",
    4: "equality, order, conversion, printing by hand",
    5: "facts in three or more contracts, parameters that travel together",
    6: "buffers with a length or a place beside them",
    7: "switches on which step to run",
}


def sources(commit):
    if commit:
        names = subprocess.run(
            ["git", "ls-tree", "-r", "--name-only", commit, "crates"],
            check=True, capture_output=True, text=True,
        ).stdout.split()
    else:
        names = subprocess.run(
            ["git", "ls-files", "crates"], check=True, capture_output=True, text=True
        ).stdout.split()
    for name in sorted(names):
        if not re.fullmatch(r"crates/\w+/src/\w+\.rt", name):
            continue
        if commit:
            text = subprocess.run(
                ["git", "show", f"{commit}:{name}"], check=True, capture_output=True, text=True
            ).stdout
        else:
            text = open(name).read()
        yield name, text


FUNCTION = re.compile(r"(?ms)^( *)((?:pub )?(?:extern \"C\" )?fn (\w+).*?)^\1\}\n")


def functions(text):
    """Each function: line, name, head with its clauses, body."""
    for m in FUNCTION.finditer(text):
        whole = m.group(2)
        cut = re.search(r"(?m)^ *\{$|\{$", whole)
        head, body = (whole[: cut.start()], whole[cut.end():]) if cut else (whole, "")
        yield text.count("\n", 0, m.start()) + 1, m.group(3), head, body


def signature(head):
    return re.split(r"\n\s*(?:requires|ensures)\b", head)[0]


def shape(body):
    """The body with its names and numbers numbered as they come first, so that twins have one shape."""
    seen = {}
    out = []
    for token in re.findall(r"[A-Za-z_]\w*|\d[\w]*|\S", re.sub(r"//.*", "", body)):
        if re.match(r"[A-Za-z_0-9]", token) and token not in KEYWORDS:
            out.append("#" + str(seen.setdefault(token, len(seen))))
        else:
            out.append(token)
    return " ".join(out)


KEYWORDS = {
    "let", "mut", "if", "else", "while", "for", "in", "return", "match", "true", "false", "as", "break", "continue",
    "fn", "self", "Self", "loop", "ref", "move",
}


def places(commit):
    found = collections.defaultdict(list)
    shapes = collections.defaultdict(list)
    clauses = collections.defaultdict(list)
    names = collections.defaultdict(list)
    for name, text in sources(commit):
        for m in re.finditer(r"(?ms)^(?:pub )?enum (\w+) \{(.*?)^\}", text):
            variants = [v for v in re.split(r",\s*\n|\n", m.group(2)) if v.strip()]
            held = sum("(" in v for v in variants)
            if held == 1 and len(variants) > 1:
                found[1].append((name, text.count("\n", 0, m.start()) + 1, f"enum {m.group(1)}: own Option or Result"))
        for m in re.finditer(r"(?ms)^(?:pub )?struct (\w+)[^;{]*\{(.*?)^\}", text):
            fields = re.findall(r"(\w+): ([^,\n]+)", m.group(2))
            flags = ("number", "within", "good", "ok", "done", "code")
            kinds = [k for f, k in fields if f in flags and k in ("u8", "bool")]
            line = text.count("\n", 0, m.start()) + 1
            if kinds and len(fields) > 1:
                found[1].append((name, line, f"struct {m.group(1)}: a number or a flag beside a value"))
            if any(re.match(r"\[.*; \d+\]", k) for _, k in fields) and any(f in ("count", "length") for f, _ in fields):
                found[6].append((name, line, f"struct {m.group(1)}: an array and a count"))
        for m in re.finditer(r"(?m)^pub const (\w+): u8 = \d+;", text):
            found[1].append((name, text.count("\n", 0, m.start()) + 1, f"const {m.group(1)}: a number for a cause"))
        for line, fn, head, body in functions(text):
            sig = signature(head)
            if re.search(r"-> u8$", sig.strip()) and re.search(r"answers::|\bnumber\b", body) and "extern" not in sig:
                found[1].append((name, line, f"fn {fn}: answers a number for a cause"))
            if "BOUND + 1" in body:
                found[1].append((name, line, f"fn {fn}: BOUND + 1 for none"))
            if re.search(r"(?s)\bwhile\b.*(?:(\w+) \+= 1;|(\w+) = \2 \+ 1;|(\w+) -= 1;)", body):
                for w in re.finditer(r"\bwhile\b", body):
                    rest = body[w.start():]
                    if re.search(r"(\w+) \+= 1;|(\w+) = \2 \+ 1;|(\w+) -= 1;|\+= \d+;", rest):
                        found[3].append((name, line, f"fn {fn}: a counted loop"))
            if re.fullmatch(r"min|max|min_usize|saturating_sub|same_\w+|has_same_\w+", fn):
                found[4].append((name, line, f"fn {fn}: comparison by hand"))
            converts = re.search(r"(?:_of|_from|from_row|_numbers|numbers_of|scalars_in|settings_in|_scalars)$", fn)
            if converts and re.search(r"\[u64; \d+\]|-> Settings|-> Scalars", sig):
                found[4].append((name, line, f"fn {fn}: conversion by hand"))
            if re.search(r"put_decimal|digit\(", body) or fn == "digit":
                found[4].append((name, line, f"fn {fn}: printing by hand"))
            named = re.findall(r"(\w+): ", sig)
            tables = sum(t in named for t in ("identities", "validators", "deposits", "partials", "consolidations"))
            if tables >= 3:
                found[5].append((name, line, f"fn {fn}: {tables} tables side by side"))
            if re.search(r"(?:out|bytes|file): &(?:mut )?\[u8\],\s*(?:k|at|size|p): usize", sig):
                found[6].append((name, line, f"fn {fn}: a buffer and a place in it"))
            if re.search(r"list: \[Withdrawal; 16\],\s*(?:n|count): usize", sig):
                found[6].append((name, line, f"fn {fn}: an array and a count"))
            if len(re.findall(r"if (?:code|kind|step) (?:==|<=) ", body)) >= 2:
                found[7].append((name, line, f"fn {fn}: a switch on a code"))
            for c in re.findall(r"(?s)\n\s*requires (?:\w+ )?\{(.*?)\}(?=\n)", head):
                clauses[re.sub(r"\s+", " ", c).strip()].append((name, line, fn))
            if body.count("\n") >= 4:
                shapes[shape(body)].append((name, line, fn))
            kin = re.sub(r"deposits?|partials?|consolidations?|\d+|_?(?:key|credentials|address)", "*", fn)
            if "*" in kin:
                names[(name, kin)].append((name, line, fn))
    twins = {}
    for group in [*shapes.values(), *names.values()]:
        if len(group) > 1:
            for name, line, fn in group:
                others = ", ".join(f for n, l, f in group if (n, l) != (name, line))
                twins.setdefault((name, line), f"fn {fn}: beside {others}")
    found[2] = [(name, line, what) for (name, line), what in twins.items()]
    for clause, group in clauses.items():
        if len(group) >= 3:
            for name, line, fn in group:
                found[5].append((name, line, f"fn {fn}: requires {clause[:60]}"))
    return found


def reason(text, line):
    """Why the item of this line stays: a comment above it, or one for the whole file."""
    lines = text.split("\n")
    above = []
    i = line - 2
    while i >= 0 and re.match(r"\s*(//|#\[|\)\]|  +crate::)", lines[i]):
        above.insert(0, lines[i].strip())
        i -= 1
    blocks = [above]
    for block in text.split("\n\n"):
        rows = [r.strip() for r in block.strip("\n").split("\n")]
        if all(r.startswith("//") for r in rows):
            blocks.append(rows)
    for block in blocks:
        words = " ".join(r.lstrip("/ ") for r in block if r.startswith("//"))
        for sentence in re.split(r"(?<=[.;]) (?=[A-Z])", words):
            if re.search(r"\bstays?\b", sentence):
                return sentence
    return None


def kept(found):
    texts = dict(sources(None))
    without = 0
    for point, words in POINTS.items():
        print(f"{point}. {words}")
        for name, line, what in sorted(found[point]):
            why = reason(texts[name], line)
            without += why is None
            print(f"   {name}:{line}: {what}\n      {why or 'NO REASON'}")
    print(f"places with no reason: {without}")


def main():
    args = [a for a in sys.argv[1:] if not a.startswith("--")]
    found = places(args[0] if args else None)
    if "--kept" in sys.argv:
        kept(found)
        return
    for point, words in POINTS.items():
        print(f"{point}. {words}: {len(found[point])}")
        if "--list" in sys.argv:
            for name, line, what in sorted(found[point]):
                print(f"   {name}:{line}: {what}")


main()
