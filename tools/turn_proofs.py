#!/usr/bin/env python3
"""Turns the Proof.antt files of a crate to Invariants.antt and Answers.antt.

    tools/turn_proofs.py CRATE NAMES.json

NAMES.json is what `rt check --generated DIR --old-names` writes for the crate: each goal's and each step's old and new
name. A file that this does not read whole is left as it is, and said. Answers that say only `omega arith`, `search
rules` or `cc` are left out, since the check tries as much by itself.
"""
import importlib
import json
import os
import re
import sys

sys.path.insert(0, os.path.dirname(os.path.abspath(__file__)))
conditional = importlib.import_module("own_conditional")

STOP = r"\s(){}\[\];,.λ`\"|∣"
TOKEN = re.compile(rf"(?<![^{STOP}])([^{STOP}]+)")
TRIVIAL = {"omega arith", "search rules", "cc", "refl", "grind arith"}


def norm(s):
    return s.replace("_", "-").strip("«»")


def pieces(text):
    """comment and `use` lines, and the declarations, each a list of lines"""
    lines = text.rstrip("\n").split("\n")
    head, uses, decls, cur = [], [], [], []
    i = 0
    while i < len(lines):
        l = lines[i]
        if l.startswith("use ") or (l.startswith((" ", "}")) and uses and not decls and not cur and (
                ("}" not in uses[-1] and "{" in uses[-1]) or uses[-1].endswith(" as"))):
            if l.startswith("use "):
                uses.append(l)
            else:
                uses[-1] += " " + l.strip()
        elif l.strip() == "":
            if cur:
                decls.append(cur)
                cur = []
        elif not uses and not decls and not cur and l.startswith("--"):
            head.append(l)
        elif l[0].isspace() and not cur and decls:
            decls[-1] += ["", l] if lines[i - 1].strip() == "" else [l]
        else:
            cur.append(l)
        i += 1
    if cur:
        decls.append(cur)
    return head, uses, decls


def parse(decl):
    """comments, modifiers, name, signature, unfolding lines, clauses (as text)"""
    comments = []
    d = list(decl)
    while d and d[0].startswith("--"):
        comments.append(d.pop(0))
    if not d:
        return comments, "", "", "", [], []
    m = re.match(r"((?:abbrev |unfoldable |pub )*)([^\s:]+)", d[0])
    mods, name = m.group(1), m.group(2)
    sig = []
    while d:
        l = d[0]
        if sig and not l.startswith("    ") and not (l and l[0].isspace()):
            break
        sig.append(l)
        d.pop(0)
    unf = []
    while d and re.match(r"\s*unfolding ", d[0]):
        unf.append(d.pop(0))
        while d and d[0].startswith("    "):
            unf.append(d.pop(0))
    return comments, mods, name, "\n".join(sig), unf, d


class Fn:
    def __init__(self, entry):
        self.e = entry
        self.places = {}
        self.new = {}
        for p, n in zip(entry["places"], entry["places_by_name"]):
            self.places.setdefault(norm(p[0]), p)
            self.new.setdefault(norm(p[0]), n)

    def parent(self, place):
        p = self.places.get(norm(place))
        return p[1] if p else None

    def step(self, place, name):
        """the new name of a step, seen from a place if it can be, else anywhere in the function"""
        q = place
        while q:
            p = self.places[norm(q)]
            old, new = p[2]
            if old and norm(old) == norm(name):
                return new
            q = p[1]
        for p in self.places.values():
            if p[2][0] and norm(p[2][0]) == norm(name):
                return p[2][1]
        return None

    def arg(self, path):
        """`.args .t1` and the like: a parameter has its own name now"""
        for old, new in self.e["args"]:
            o = old.replace(" ", "")
            if o.startswith(".") and (path + ".").startswith(o + "."):
                return new.replace(" ", "") + path[len(o):]
        return path


PATH = r"((?:\.before)*)((?:\.[^\s(){}\[\];,.λ`\"|∣]+)*)"


def turn_paths(text, vars_, fn, problems):
    """paths of variables that stand for places: vars_ maps a variable to its place"""
    out, i = [], 0
    names = "|".join(re.escape(v) for v in sorted(vars_, key=len, reverse=True))
    pat = re.compile(rf"(?<![^\s(){{}}\[\];,λ`\"|∣])({names})((?:\.before)*)((?:\.[^\s(){{}}\[\];,.λ`\"|∣]+)*)(?=[{STOP}]|$)")

    def sub(m):
        v, rest = m.group(1), m.group(3)
        if not rest:
            return "c"
        parts = rest[1:].split(".")
        parts[0] = {"pre": "requires", "type-inv": "type_inv", "well-formed": "well_formed"}.get(parts[0], parts[0])
        rest = "." + ".".join(parts)
        new = fn.step(vars_[v], parts[0])
        if new is None:
            if norm(parts[0]) not in ("args", "requires", "ranges", "lifetimes", "well-formed", "type-inv"):
                problems.append(f"step {parts[0]} not known at {vars_[v]}")
            return "c" + fn.arg(rest)
        return "c." + ".".join([new] + parts[1:])

    return pat.sub(sub, text)


def plain_tests(text):
    """a test of `!x` gives what `x` is; what a wrapping operation promises has a name"""
    atom = rf"(?:\([^()]*\)|[^{STOP}]+(?:\.[^{STOP}]+)*)"
    fact = rf"(c\.(?:if|loop|in)-[^{STOP}]*(?:\.[^{STOP}]+)*\.(?:true|false))"
    text = re.sub(rf"\(not-(?:true|false)\s+{atom}\s+{fact}\)", r"\1", text)
    text = re.sub(rf"(?<![^{STOP}])not-(?:true|false)\s+{atom}\s+{fact}", r"\1", text)
    text = re.sub(rf"ap not \(sym ([^{STOP}]+(?:\.[^{STOP}]+)*)\)\s+∙\s+(c\.if-not-[^{STOP}]*(?:\.[^{STOP}]+)*\.(?:true|false))", r"ap not (sym \1 ∙ \2)", text)
    text = re.sub(r"(c\.wrapping_\w+(?:-\w+)*\.ensures)(?![.\w])", r"\1.value", text)
    return text.replace(".type-inv.", ".type_inv.")


def place_helpers(text, vars_, helpers):
    """a helper that names a place above its argument is the argument"""
    names = "|".join(re.escape(v) for v in sorted(vars_, key=len, reverse=True))
    while True:
        old = text
        for h, what in helpers.items():
            if what and what[2].startswith("tie."):
                text = re.sub(rf"\({re.escape(h)}\s+((?:{names})(?:\.before)*)\)", r"\1", text)
                text = re.sub(rf"(?<![^{STOP}]){re.escape(h)}\s+((?:{names})(?:\.before)*)(?![^{STOP}]|\.)", r"\1", text)
        if text == old:
            return text


def place_lets(text, vars_, fn):
    """`let b = c.before.before in` binds a place: drop the let, remember the place"""
    while True:
        names = "|".join(re.escape(v) for v in sorted(vars_, key=len, reverse=True))
        m = re.search(rf"let ([\w-]+) = ({names})((?:\.before)+) in\s*", text)
        if not m:
            m = re.search(rf"let ([\w-]+) = ({names})() in\s*", text)
            if not m:
                return text
        vars_[m.group(1)] = vars_[m.group(2)]
        text = text[: m.start()] + text[m.end():]


def subst_tokens(text, table):
    def sub(m):
        t = m.group(1)
        if t in table and not text[: m.start()].endswith("."):
            after = text[m.end():m.end() + 3]
            if re.match(r"\s=\s", after) and re.search(r"[{;]\s*$", text[: m.start()]):
                return t
            return table[t]
        return t
    return TOKEN.sub(sub, text)


def place_of(fn, name):
    """the place that a type tie.X names"""
    for p in fn.places.values():
        if norm(p[0]) == norm(name):
            return p[0]
    return None


def turn(path, crate, key, entry):
    problems = []
    text = open(path, encoding="utf-8").read()
    for old, new in entry["args"]:
        if old.startswith(".args ."):
            text = re.sub(rf"{re.escape(old[6:])}(?![\w-])", new[6:], text)
    if "if◌then◌else◌" in text:
        text = conditional.turned(text)
    head, uses, decls = pieces(text)
    fn = Fn(entry)
    fname = key.split(".")[-2]
    needs = {}
    for (old, new), place in zip(entry["needs"], entry["asked_at"]):
        needs[norm(old)] = (new, place[0])
    loops = {}
    for ((old, new), vars_), changed in zip(entry["loops"], entry["changed"]):
        loops[norm(old)] = (new, vars_, changed)
    invariants, answers, helpers, order = [], [], {}, []
    flat_decls = []
    for decl in decls:
        at = next((i for i, l in enumerate(decl) if l.startswith("module _ (")), None)
        if at is None:
            flat_decls.append((decl, None))
            continue
        header = re.sub(r"(tie\.[^\s)]+)(?: (?:invariant|decreases)-[^\s)]+)*", r"\1", decl[at])
        param = re.match(r"module _ (\(\S+ : tie\.\S+\))(?: \([^()]*\))* where", header)
        if not param:
            problems.append(f"module: {decl[at]}")
            continue
        inner = "\n".join(l[2:] if l.startswith("  ") else l for l in decl[at + 1:])
        for part in re.split(r"\n\s*\n", inner):
            lines = [l for l in part.split("\n")]
            if lines and lines[0].strip():
                flat_decls.append((lines, param.group(1)))
    module_places = {}
    for decl, param in flat_decls:
        comments, mods, name, sig, unf, clauses = parse(decl)
        if not name:
            continue
        flat = " ".join(sig.split())
        body = "\n".join(clauses)
        if param:
            flat = re.sub(r"^((?:abbrev |pub |unfoldable )*\S+) : ", rf"\1 : {param} → ", flat)
            v = re.match(r"\((\S+) :", param).group(1)
            body = re.sub(rf"^{re.escape(name)}(?=\s)", f"{name} {v}", body)
        m = re.search(r": tie\.(invariant|decreases)-(\S+)", flat)
        if m:
            kind, old = m.group(1), m.group(2)
            if norm(old) not in loops:
                problems.append(f"loop {old} not known")
                continue
            new, vs, changed = loops[norm(old)]
            m2 = re.match(rf"{re.escape(name)}\s+(.*?)\s*=(?:\s|$)(.*)", body, re.S)
            if not m2:
                problems.append(f"clause of {name}")
                continue
            params = m2.group(1).split()
            want = [f"l.initial.{v}" if ch else f"l.{v}" for v, ch in zip(vs, changed)]
            want += [f"l.{v}" for v, ch in zip(vs, changed) if ch]
            if len(params) != len(want):
                problems.append(f"{name}: {len(params)} arguments for {len(want)}: {params} {want}")
            table = dict(zip(params, want))
            table.pop("_", None)
            b = subst_tokens(m2.group(2), table)
            invariants.append((comments, f"abbrev pub {kind}-{new} : goal.{kind}-{new}", unf,
                               f"{kind}-{new} l = {b.strip()}" if "\n" not in b.strip() else
                               f"{kind}-{new} l =\n    {b.strip()}"))
            continue
        m = re.search(r": tie\.Need-(\S+)", flat)
        if m:
            old = m.group(1)
            n = norm(old)
            if n not in needs:
                n2 = re.sub(r"^(overflow|nonzero|bounds)-", "", n)
                n = n2 if n2 in needs else n
            if n not in needs:
                problems.append(f"goal {old} not known")
                continue
            answers.append((n, comments, name, unf, body))
            continue
        if "statement M" in flat:
            continue
        m = re.search(r"tie\.", flat)
        if m:
            loop_args = r"(?: (?:invariant|decreases)-[^\s)]+)*"
            flat = re.sub(rf"(tie\.[^\s)]+){loop_args}", r"\1", flat)
            m3 = re.match(r"(?:abbrev |pub |unfoldable )*\S+ : (?:\((\S+) : tie\.([^\s)]+)\)|tie\.([^\s)]+))(?: →)? (.*)$", flat)
            if not m3:
                problems.append(f"helper {name}: {flat[:90]}")
                continue
            var = m3.group(1) or "c"
            place = place_of(fn, m3.group(2) or m3.group(3))
            if place is None:
                problems.append(f"helper {name}: place {m3.group(2) or m3.group(3)}")
                continue
            helpers[name] = (var, place, m3.group(4), mods, unf, body, comments)
            order.append(name)
            if param and m3.group(4).startswith("tie."):
                module_places[name] = place_of(fn, m3.group(4)[4:]) or place
            continue
        helpers[name] = None
        order.append(name)
        answers.append((None, comments, name, unf, "\n".join(decl)))

    def helper_let(name):
        var, place, typ, mods, unf, body, comments = helpers[name]
        m = re.match(rf"{re.escape(name)}\s+(\S+)((?:\s+\S+)*?)\s*=(?:\s|$)(.*)", body, re.S)
        if not m:
            problems.append(f"helper {name}: clause")
            return None
        v, extra, b = m.group(1), m.group(2).split(), m.group(3).strip()
        vs = {v: place, **module_places}
        for _ in range(4):
            b = place_helpers(b, vs, helpers)
            b = place_lets(b, vs, fn)
        b = plain_tests(turn_calls(turn_paths(b, vs, fn, problems)))
        if extra:
            b = "λ " + " ".join(extra) + ". " + b
        ts = {v: place, var: place, **module_places}
        typ = place_helpers(typ, ts, helpers)
        typ = place_lets(typ, ts, fn)
        typ = place_helpers(typ, ts, helpers)
        t = turn_calls(turn_paths(typ, ts, fn, problems))
        if "abbrev" in mods or re.match(r"^(ℕ|Books|Settings|Tables|Scalars|List .*|Bool|Validator)$", t):
            return f"let {name} = {b} in" if not extra else f"let {name} : {t} = {b} in"
        return f"let {name} : {t} = {b} in"

    def turn_calls(b):
        """a helper is a let of the answer: its argument, a place, goes"""
        for h in helpers:
            if helpers[h] is None:
                continue
            b = re.sub(rf"\({re.escape(h)}\s+(?:c|\(c\))\)", h, b)
            b = re.sub(rf"(?<![^{STOP}]){re.escape(h)}\s+\(c\)", h, b)
            b = re.sub(rf"(?<![^{STOP}]){re.escape(h)}\s+c(?![^{STOP}]|\.)", h, b)
        return b

    def used(b):
        seen = set()

        def visit(t):
            for h in order:
                if helpers.get(h) and h not in seen and re.search(rf"(?<![^{STOP}]){re.escape(h)}(?=[{STOP}]|$)", t):
                    seen.add(h)
                    visit(helpers[h][5])
                    visit(helpers[h][2])

        visit(b)
        return [h for h in order if h in seen]

    out = []
    for need, comments, name, unf, body in answers:
        if need is None:
            out.append("\n".join(comments + [l for l in body.split("\n") if l not in comments]))
            continue
        new, place = needs[need]
        clauses = re.match(rf"{re.escape(name)}\s+(\S+)((?:\s+\S+)*?)\s*=(?:\s|$)(.*)", body, re.S)
        if not clauses:
            problems.append(f"answer {name}: clause")
            continue
        v, extra, b = clauses.group(1), clauses.group(2).split(), clauses.group(3).strip()
        if b in TRIVIAL and not unf:
            continue
        extra = [x for x in extra if not x.startswith("κ")]
        vs = {v: place}
        for _ in range(4):
            b = place_helpers(b, vs, helpers)
            b = place_lets(b, vs, fn)
        h = [x for x in used(b) if not helpers[x][2].startswith("tie.")]
        b = plain_tests(turn_calls(turn_paths(b, vs, fn, problems)))
        lets = [helper_let(x) for x in h]
        if None in lets:
            continue
        # a helper's own unfolding goes with it
        more = [u.strip()[len("unfolding "):].split() for x in h for u in helpers[x][4] if u.strip().startswith("unfolding ")]
        names = [w for u in unf for w in u.strip()[len("unfolding "):].split()] if unf else []
        for ws in more:
            names += [w for w in ws if w not in names]
        lines = list(comments) + [f"pub {new} : goal.{new}"]
        if names:
            lines.append("unfolding " + " ".join(names))
        params = " ".join(["c"] + extra)
        if lets or "\n" in b or len(b) > 80:
            lines.append(f"{new} {params} =")
            lines += ["    " + l for l in lets]
            lines.append("    " + b)
        else:
            lines.append(f"{new} {params} = {b}")
        out.append("\n".join(lines))

    folder = os.path.dirname(path)
    module = key[: -len(".Lts")].replace("Rattle-", "Rattle.", 1)
    module = re.sub(r"^Rattle\.(\w+)-proofs", r"Rattle.\1.proofs", module)
    keep = [u for u in uses if ".Statement.{" not in u and not u.rstrip().endswith(".Tie as tie")]
    keep = [u for u in keep if ".Tie." not in u and ".Statement" not in u and ".Reads as" not in u]
    if problems:
        print(f"{path}: not whole: " + "; ".join(problems[:6]))
    kept = {}
    for need, comments, name, unf, body in answers:
        if need is None:
            kept[name] = "\n".join(comments + [l for l in body.split("\n") if l not in comments])
    shared = set()
    text_inv = " ".join(b for _, _, _, b in invariants)
    again = True
    while again:
        again = False
        for name, b in kept.items():
            if name not in shared and re.search(rf"(?<![^{STOP}]){re.escape(name)}(?=[{STOP}]|$)", text_inv):
                shared.add(name)
                text_inv += " " + b
                again = True
    if shared:
        out = [o for o in out if o not in [kept[n] for n in shared]]
        keep_a = [f"use {module}.Invariants." + "{" + ", ".join(n for n in kept if n in shared) + "}"]
    else:
        keep_a = []
    if invariants:
        t = "\n".join(head + keep + [f"use {module}.Given as goal", ""])
        for name in kept:
            if name in shared:
                b = kept[name]
                b = re.sub(rf"^((?:abbrev |unfoldable )?)({re.escape(name)})(?= )", r"\1pub \2", b, count=1, flags=re.M)
                t += "\n" + b + "\n"
        for comments, sig, unf, b in invariants:
            t += "\n" + "\n".join(comments + [sig] + unf + [b]) + "\n"
        open(folder + "/Invariants.antt", "w", encoding="utf-8").write(t)
    if out:
        t = "\n".join(head + keep + keep_a + [f"use {module}.Goals as goal", ""]) + "\n" + "\n\n".join(out) + "\n"
        open(folder + "/Answers.antt", "w", encoding="utf-8").write(t)
    os.remove(path)
    return not problems


crate, names = sys.argv[1], json.load(open(sys.argv[2]))
root = f"crates/{crate}/proofs"
for d, _, files in sorted(os.walk(root)):
    if "Proof.antt" in files:
        rel = os.path.relpath(d, root).replace("/", ".")
        key = f"Rattle-{crate}-proofs.{rel}.Lts"
        path = os.path.join(d, "Proof.antt")
        t = open(path, encoding="utf-8").read()
        if ".Tie as tie" not in t:
            print(f"{path}: walks the code by hand")
            continue
        if key not in names:
            print(f"{path}: no names for {key}")
            continue
        turn(path, crate, key, names[key])
