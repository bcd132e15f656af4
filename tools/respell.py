#!/usr/bin/env python3
"""Brings this repository's own definitions, lemmas, fields and local names to snake case.

usage: tools/respell.py            at the top: rewrites specs/, proofs/, the clauses of src/, and the edits' texts, in place
       tools/respell.py --list     prints what it would rename, and the names that would fall together

    recordOf, length-rows, byChild  ->  record_of, length_rows, by_child

Types, facts and modules (upper camel case) keep their spelling, as do names of the toolchain's libraries, what Rattle makes
(the names below `tie.`, `goal.` and `c.`), and everything in src/ but what a clause or a `ghost use` line cites.
It was run once, right after port.py (docs/PORT.md).
"""

import os
import re
import sys

CRATES = "crates"
TOKEN = re.compile(r"--[^\n]*|[^\s(){}.;,@\"«»\[\]\\]+")
NAME = re.compile(r"[A-Za-z][A-Za-z0-9]*(?:[-_][A-Za-z0-9]+)*['₀-₉]*")
# Names that would fall together with another of the same file: what each is called instead.
APART = {n: n.replace("-", "_") + "-is" for n in (
    "time-of pos_of node-of child-row missing-row joint-edges up-row reached-row low-row all-rows stands-row row-in marks-at states-at "
    "state-cell room_within index-of node-table clean-shown first-of low-at room-answer par-of first-refused parent-in low-cell"
).split()}
APART["fit_then"] = "fit_next"


def snake(name):
    if name in APART:
        return APART[name]
    if name[0].isupper() and "-" not in name:
        return name
    return "_".join(re.sub(r"(?<=[a-z0-9])(?=[A-Z])", "_", p) for p in re.split(r"[-_]", name)).lower()


def needs(name):
    return bool(NAME.fullmatch(name)) and snake(name) != name


def files():
    for folder, dirs, names in os.walk(CRATES):
        dirs[:] = sorted(d for d in dirs if d != "out")
        for n in sorted(names):
            if n.endswith((".antt", ".rt")):
                yield os.path.join(folder, n)


def read(p):
    with open(p, encoding="utf-8", newline="") as f:
        return f.read()


USE = re.compile(r"^(?:ghost |pub )*use ([^\s{;]+?)(?:\.\{([^}]*)\})?(?: as \w+)?;?$", re.M)


def imports(text):
    """The names that a file imports: of this repository's crates, and of the libraries."""
    own, lib = set(), set()
    for m in USE.finditer(text):
        path, names = m.group(1), m.group(2) or ""
        parts = path.split(".")
        mine = parts[0] == "Rattle" and len(parts) > 1 and os.path.isdir(os.path.join(CRATES, parts[1]))
        for n in re.split(r"[,\s]+", names):
            if n and n != "as":
                (own if mine else lib).add(n)
    return own, lib


def is_walk(p):
    return os.path.basename(p) in ("Proof.antt", "Answers.antt", "Invariants.antt")


SIG = re.compile(r"^(?:abbrev |unfoldable )?(?:pub )?(?:record )?([^\s:(){}]+)\s*:(?!=)(.*)$", re.M)
FIELD = re.compile(r"^ +pub ([^\s:(){}]+) : ", re.M)


def fields():
    out = set()
    for p in files():
        if p.endswith(".antt") and not is_walk(p):
            out |= {n for n in FIELD.findall(read(p)) if needs(n)}
    return out


def names_of(p, text, own_fields):
    """The names of a file that are turned, by the kind of file."""
    own, lib = imports(text)
    if p.endswith(".rt"):
        return {n for n in own if needs(n)}
    if is_walk(p):
        made = set()
        for m in SIG.finditer(text):
            if not re.match(r"\s*(tie\.|goal\.|statement|\{M : Type 1\})", m.group(2)):
                made.add(m.group(1))
        return {n for n in (own | made) if needs(n)} - lib
    bare = {t for t in TOKEN.findall(text) if not t.startswith("--") and needs(t)}
    return bare - lib


def turn(p, text, names, own_fields):
    walk = is_walk(p)

    def one(m):
        t = m.group()
        if t.startswith("--"):
            return re.sub(r"[\w-]+", lambda k: snake(k.group()) if k.group() in names and re.search(r"[a-z][A-Z]", k.group()) else k.group(), t)
        if walk and text[m.start() - 1] == ".":
            head = re.split(r"[\s(){},;]", text[max(0, m.start() - 300):m.start() - 1])[-1]
            if t in own_fields or (head.startswith("Rattle") and t in names):
                return snake(t)
            return t
        if t in names or (walk and t in own_fields):
            # In a walk a record of the walk's own may have a field's name: it is a field only before `=`.
            if walk and t not in names and not re.match(r"\s*=", text[m.end():]):
                return t
            return snake(t)
        return t

    return TOKEN.sub(one, text)


def clauses(text):
    """The spans of a source file that are contracts: from a clause's brace to its match; and the ghost use lines."""
    spans = [(m.start(), m.end()) for m in re.finditer(r"^ghost use [^;]*;", text, re.M)]
    for m in re.finditer(r"\b(?:requires|ensures)\*?(?: \w+)? \{|\bghost (?:\w+ )?\w+: \{|\bghost \w+: \{", text):
        depth, i = 1, m.end()
        while depth and i < len(text):
            depth += {"{": 1, "}": -1}.get(text[i], 0)
            i += 1
        spans.append((m.end(), i))
    return sorted(spans)


def turn_source(text, names):
    out, at = [], 0
    for a, b in clauses(text):
        if a < at:
            continue
        out.append(text[at:a])
        out.append(TOKEN.sub(lambda m: snake(m.group()) if m.group() in names else m.group(), text[a:b]))
        at = b
    return "".join(out) + text[at:]


def main():
    own_fields = fields()
    listing = "--list" in sys.argv
    everywhere = {}
    bad = 0
    for p in files():
        text = read(p)
        names = names_of(p, text, own_fields)
        for n in names:
            everywhere.setdefault(n, set()).add(p)
        if p.endswith(".rt"):
            code = set(re.findall(r"\b\w+\b", re.sub(r"//.*", "", text)))
            for n in names:
                if snake(n) in code and snake(n) != n:
                    params = set(re.findall(r"\b(\w+): ", text)) | set(re.findall(r"\blet (?:mut )?(\w+)", text))
                    if snake(n) in params:
                        print(f"hidden: {p}: {n} -> {snake(n)} is a parameter there"); bad += 1
        else:
            here = {t for t in TOKEN.findall(text) if NAME.fullmatch(t)}
            for n in names:
                for o in here - {n}:
                    if o == snake(n) or (o in names and snake(o) == snake(n)):
                        print(f"together: {p}: {n} and {o} -> {snake(n)}"); bad += 1
        if not listing:
            new = turn_source(text, names) if p.endswith(".rt") else turn(p, text, names, own_fields)
            if new != text:
                with open(p, "w", encoding="utf-8", newline="") as f:
                    f.write(new)
    if not listing:
        for p in ["README.md"] + ["docs/" + n for n in sorted(os.listdir("docs")) if n.endswith(".md")]:
            text = read(p)
            new = re.sub(r"`[^`\n]+`", lambda m: TOKEN.sub(lambda k: snake(k.group()) if k.group() in everywhere and re.search(r"[-A-Z]", k.group()) else k.group(), m.group()), text)
            with open(p, "w", encoding="utf-8", newline="") as f:
                f.write(new)
    if listing:
        for n in sorted(everywhere):
            print(n, snake(n), len(everywhere[n]))
    print(f"respell: {len(everywhere)} names, {bad} that fall together", file=sys.stderr)


main()
