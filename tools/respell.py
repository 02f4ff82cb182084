#!/usr/bin/env python3
"""Brings the repository's own definitions and lemmas to today's spelling: words in snake case, types in camel case.

usage: python3 tools/respell.py [--check]        at the top of the repository, once, right after the kit's port.py

Turned are names that this repository declares in specs/ and proofs/ (with their uses in clauses, must-fail edits, tests/vectors and the
code spans of pages), and local variables. Names of the kit, names that Rattle makes and names of Rust source stay. --check only lists.
"""
import collections
import os
import re
import sys

WORD = re.compile(r"[^\s(){}.;,@\"«»]+")
DECL = re.compile(r"^\s*(?:(?:pub|abbrev|unfoldable|instance)\s+)*(?:(record|data)\s+)?([^\s(){}.;,@\"«»:]+)(?=\s)(.*)$")
KIT = os.path.join(os.path.dirname(os.path.dirname(os.path.realpath(os.popen("command -v rt").read().strip()))), "rattle")
# types whose names have a dash
TYPES = {"Close-ran": "CloseRan", "Close-ready": "CloseReady", "Open-ran": "OpenRan", "Open-ready": "OpenReady"}
# a lemma that would fall together with its function's name; a field that would
LEMMAS = """agent-out agents-joined agents-one at-end bad-counts cell-at debit-at file-text first-uses floor-at in-cycle is-plain line-here
month-before new-credit of-user pv-total same-cycle user-out users-joined users-one""".split()
OVER = {w: w.replace("-", "_") + "_lem" for w in LEMMAS}
OVER.update({"payee-rows": "rows_of_payees", "point-rows": "rows_of_points", "user-rows": "rows_of_users", "use-charge": "use_charges"})
# the same of names that stand in snake case already, by file
FIRST = {
    "crates/format/proofs/CheckPlace.antt": ["goes_on"],
    "crates/charges/proofs/scan/step/Proof.antt": ["going_on"],
    "crates/charges/proofs/point/cents/Proof.antt": ["half_up"],
    "crates/format/proofs/Takes.antt": ["is_digit"],
    "crates/format/proofs/Sound.antt": ["is_digit"],
    "crates/format/proofs/Values.antt": ["is_digit", "past_end"],
    "crates/format/specs/Bytes.antt": ["is_digit"],
    "crates/monthfile/proofs/ValueSteps.antt": ["is_digit"],
    "crates/format/proofs/Live.antt": ["is_stuck"],
    "crates/format/proofs/FileCheck.antt": ["is_stuck"],
    "crates/format/proofs/Scans.antt": ["is_stuck"],
    "crates/rules/proofs/SisterUsers.antt": ["moved_up", "in_order"],
    "crates/rules/proofs/Cycle.antt": ["one_more", "in_order"],
    "crates/monthfile/proofs/Checking.antt": ["no_room", "goes_on"],
    "crates/monthfile/proofs/check/files/Proof.antt": ["no_room", "goes_on"],
    "crates/format/proofs/Examples.antt": ["too_many"],
    "crates/format/proofs/Slices.antt": ["too_many"],
    "crates/format/proofs/Answers.antt": ["too_many"],
    "crates/format/proofs/Lib.antt": ["too_many"],
}
# the kit's own word for a part of a name
PARTS = {"getD": "get_or", "natAbs": "nat_abs", "sumℤ": "sum_ℤ"}


def dirty(w):
    return bool(re.search(r"[^\W_'#?]['#?]*-\w|[⊖Σ≤]-\w", w) or (w[:1].islower() and re.search(r"[a-z0-9][A-ZℤℕΣ]", w)))


def part(p):
    for old, new in PARTS.items():
        p = p.replace(old, new)
    p = re.sub(r"(?<=[a-z0-9])(?=[A-Z])", "_", p)
    return "_".join(s if re.match(r"[A-Z][A-Z0-9]", s) or not s else s[0].lower() + s[1:] for s in p.split("_"))


def turned(w):
    if w in TYPES or w in OVER:
        return TYPES.get(w) or OVER[w]
    head, *rest = w.split("-")
    upper = head[:1].isupper()
    return "_".join([head if upper else part(head)] + [part(r) if not r[:1].isupper() or re.match(r"[A-Z][a-z]", r) is None else r for r in rest])


def files(kinds):
    for folder, dirs, names in os.walk("crates"):
        dirs[:] = sorted(d for d in dirs if d != "out")
        for n in sorted(names):
            if n.endswith(kinds):
                yield os.path.join(folder, n)


def read(path):
    with open(path, encoding="utf-8") as f:
        return f.read()


def goals(text):
    """Names that stand for goals: declared at a type `tie.X` or `goal.X`."""
    return set(re.findall(r"(?m)^\s*(?:pub |abbrev )*([^\s(){}.;,@\"«»:]+) : (?:tie|goal)\.", text))


def imported(text, crates):
    """Names that a file brings in, each with whether it is this repository's."""
    out = {}
    for path, names in re.findall(r"use ([\w.·'+-]+)\.\{([^}]*)\}", text):
        own = path.startswith("Rattle.") and path.split(".")[1] in crates
        for item in names.split(","):
            for w in re.split(r"\s+as\s+", item.strip()):
                out[w.strip()] = own
    return out


def main():
    check = "--check" in sys.argv[1:]
    crates = set(os.listdir("crates"))
    kit = set()
    for folder, dirs, names in os.walk(KIT):
        dirs[:] = [d for d in dirs if d not in ("examples", "docs", "out")]
        for n in names:
            if n.endswith(".antt"):
                for line in read(os.path.join(folder, n)).splitlines():
                    m = DECL.match(line)
                    if m and (m.group(1) or re.match(r"\s*:(\s|$)", m.group(3))):
                        kit.add(m.group(2))
    own, fields = set(), set()
    for f in files(".antt"):
        text = read(f)
        skip = goals(text)
        record = False
        for line in text.splitlines():
            m = DECL.match(line)
            if re.match(r"^(pub |abbrev )*record ", line):
                record = True
            elif line[:1].strip():
                record = False
            if m and (m.group(1) or re.match(r"\s*:(\s|$)", m.group(3))) and m.group(2) not in skip:
                own.add(m.group(2))
                if record and line[:1] == " ":
                    fields.add(m.group(2))
    table = {w: turned(w) for w in own if dirty(w)}
    news = collections.defaultdict(set)
    for a, b in table.items():
        news[b].add(a)
    for b, a in sorted(news.items()):
        if len(a) > 1 or b in own:
            print("falls together:", b, sorted(a), "(declared already)" if b in own else "")
        if b in kit:
            print("the kit has it too:", b, sorted(a))
    changed = 0
    for f in files((".antt", ".rt", ".edit")):
        text = before = read(f)
        for w in FIRST.get(f.replace(os.sep, "/"), []):
            text = re.sub(rf"(?<![\w'-]){w}(?![\w'-])", w + "_lem", text)
        brought = imported(text, crates)
        skip = goals(text)
        function = bool(re.search(r"/proofs/.+/", f))
        if f.endswith(".rt"):
            skip |= set(re.findall(r"\bfn (\w+)", text))

        def turn(m):
            w = m.group()
            if not dirty(w) or w in skip or brought.get(w) is False:
                return w
            dot = text[m.start() - 1 : m.start()] == "."
            if function and dot and w not in fields:
                # after a dot: a field of ours, or a module's member (as ℤs.Σ-add); the rest is Rattle's
                head = re.search(r"([^\s(){}.;,@\"«»]+)\.$", text[max(0, m.start() - 80) : m.start()])
                if not (head and w in table and re.match(r"[A-Z]|ℤs|[a-z]*s$", head.group(1))):
                    return w
            if w in table:
                return table[w]
            if dot or function or w in kit or w in brought or f.endswith((".rt", ".edit")):
                return w
            return turned(w)

        new = WORD.sub(turn, text)
        if new != before:
            changed += 1
            if not check:
                with open(f, "w", encoding="utf-8") as out:
                    out.write(new)
    # pages: code spans; the facts that tests write
    pages = ["README.md", "tests/vectors/generate.py", "tests/vectors/Asked.antt.txt", "tests/sold/run"] + [os.path.join(d, n) for d, _, ns in os.walk("docs") for n in ns if n.endswith(".md")]
    for f in pages:
        if not os.path.exists(f):
            continue
        text = read(f)
        span = r"`[^`\n]+`" if f.endswith(".md") else r"[\s\S]+"
        new = re.sub(span, lambda m: WORD.sub(lambda w: re.sub(r"[^\s(){}.;,@\"«»`:\[\]|']+", lambda x: table.get(x.group(), x.group()), w.group()), m.group()), text)
        if new != text:
            changed += 1
            if not check:
                with open(f, "w", encoding="utf-8") as out:
                    out.write(new)
    print(f"{len(table)} names, {changed} files")
    if check:
        for a, b in sorted(table.items()):
            print(f"{a} -> {b}")


main()
