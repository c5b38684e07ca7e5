#!/usr/bin/env python3
"""Brings the repository's own definitions, lemmas and local names to one spelling: words in snake case.

usage: respell.py [--list] [ROOT]

It was run once, right after the kit's port.py, which respells only such names as a library has too. A name that a library
declares, or that Rattle makes for a proof (a goal's, a step's), keeps its spelling, and so does every name of src/, every
string and every exported name. --list prints the table and writes nothing.
"""
import glob
import os
import re
import sys

NAME = r"(?<![\w'\-«·])[^\W\d_][\w']*(?:-[\w']+)*"
TOKEN = re.compile(r"--[^\n]*|\"(?:[^\"\\]|\\.)*\"|«[^»]*»|(?:" + NAME + r"\.)*" + NAME)
# Definitions whose lemma port.py had spelled as they are now: the lemma takes the ending. And a function into types.
FIRST = {"borderInCDoes": "border_in_c_does", "afterLine": "after_line", "bumpAt": "bump_at", "goOn": "go_on", "rowMore": "row_more", "yOf": "y_of"}
ALSO = {"maxHeight": "max_height", "seedIn": "seed_in", "writtenTo": "written_to"}
IN_FILE = {
    "crates/journal_format/specs/Follow.antt": {"after_line": "after_line_lem"},
    "crates/chunk_tally/specs/Ids.antt": {"bump_at": "bump_at_lem"},
    "crates/marked/specs/Example.antt": {"holds": "Holds"},
    "crates/marked/specs/Ground.antt": {"holds": "Holds"},
    "crates/takeover/specs/Contracts.antt": {"set_Reads": "set_reads"},
}


def read(path):
    with open(path, encoding="utf-8") as f:
        return f.read()


def snake(name):
    """The words of a name joined by underscores. A run of capitals is one word."""
    return re.sub(r"(?<=[a-z0-9'])(?=[A-Z])", "_", name.replace("-", "_")).lower()


def spelled(names, kept):
    """The new spelling of each name. A lemma that would have its function's name, or one that is there already, ends in _lem."""
    table = {}
    for n in sorted(names, key=lambda n: ("-" in n, n)):
        new = FIRST.get(n) or snake(n)
        while n not in FIRST and (new in kept or new in table.values()):
            new += "_lem"
        table[n] = new
    return table


def wants(name):
    return not name[:1].isupper() and ("-" in name or re.search(r"[a-z0-9'][A-Z]", name) is not None)


def ours(path, crates):
    """Whether a module's path leads into a crate of the repository."""
    m = re.match(r"Rattle\.(\w+)", path)
    return bool(m) and m[1] in crates


def foreign(text, crates):
    """The names that a file takes from libraries of the kit, or from modules that Rattle makes."""
    out = set()
    for m in re.finditer(r"(?m)^(?:pub )?use ([^\s{]+?)(?:\.\{([^}]*)\})?(?: as \S+)?$", text):
        path, names = m[1], m[2]
        made = ".proofs." in path and re.search(r"\.(Statement|Tie|Met|Lts|Kinds|Reads|Code|Goals|Given)$", path) or ".declared." in path
        if names and (made or not ours(path, crates)):
            out.update(n.strip().split(" as ")[-1] for n in names.split(","))
    return out


def bound(text):
    """The names that a file declares: by a signature, as a field, by a let, a λ or a typed parameter."""
    out = set()
    code = re.sub(r"--[^\n]*", "", text)
    for m in re.finditer(r"(?m)^ *(?:(?:pub|abbrev|unfoldable|pattern) )*(" + NAME + r") : (\S+)", code):
        if not m[2].startswith("tie."):
            out.add(m[1])
    for m in re.finditer(r"(?m)^ *(?:(?:pub|abbrev|unfoldable|pattern) )*(" + NAME + r") :$", code):
        out.add(m[1])
    for m in re.finditer(r"(?m)^(?:pub )?use [^\n]*", code):
        out.update(re.findall(r" as (" + NAME + r")", m[0]))
    for m in re.finditer(r"\blet (" + NAME + r")", code):
        out.add(m[1])
    for m in re.finditer(r"[({]((?:" + NAME + r" )+):", code):
        out.update(m[1].split())
    for m in re.finditer(r"λ ((?:" + NAME + r" ?)+)\.", code):
        out.update(m[1].split())
    for m in re.finditer(r"\bλ ([^.]*)\.", code):
        out.update(re.findall(NAME, m[1]))
    return {n for n in out if wants(n)}


def declared(text):
    """The names with a signature that keep their spelling."""
    code = re.sub(r"--[^\n]*", "", text)
    return {n for n in re.findall(r"(?m)^ *(?:(?:pub|abbrev|unfoldable|pattern) )*(" + NAME + r") :(?= |$)", code) if not wants(n)}


def turned(text, table, taken):
    """The text with the names of the table turned. Behind a path only a last part that is ours is turned."""

    def one(m):
        word = m[0]
        if word.startswith('"') or word.startswith("«"):
            return word
        if word.startswith("--"):
            word = re.sub(r"`([^`]*)`", lambda q: "`" + TOKEN.sub(lambda t: one(t) if not t[0].startswith("--") else t[0], q[1]) + "`", word)
            return re.sub(NAME, lambda q: table.get(q[0], q[0]) if re.search(r"[a-z][A-Z]", q[0]) else q[0], word)
        parts = word.split(".")
        if parts[0] in ("borrow", "lib", "mathlib", "native", "mir", "denote", "Prim", "seplogic", "base", "tie"):
            return word
        if parts[0] == "Rattle" and len(parts) > 1 and parts[1] not in CRATES:
            return word
        return ".".join(p if p in taken and i == 0 else table.get(p, p) for i, p in enumerate(parts))

    return TOKEN.sub(one, text)


def ghost_parts(text):
    """The spans of a .rt file that are ghost: use items, clauses and what a ghost member holds."""
    spans = []
    for m in re.finditer(r"ghost use [^;]*;", text):
        spans.append(m.span())
    for m in re.finditer(r"\b(?:requires|ensures|invariant|decreases)\*?(?: \w+)? \{|\bghost \w+: \{", text):
        depth, at = 1, m.end()
        while depth and at < len(text):
            depth += {"{": 1, "}": -1}.get(text[at], 0)
            at += 1
        spans.append((m.end(), at))
    return sorted(spans)


def turned_source(text, table):
    out, at = [], 0
    for a, b in ghost_parts(text):
        if a < at:
            continue
        out.append(text[at:a])
        out.append(re.sub(NAME, lambda q: table.get(q[0], q[0]), text[a:b]))
        at = b
    return "".join(out) + text[at:]


def main():
    if set(w for w in sys.argv[1:] if w.startswith("-")) - {"--list"}:
        sys.exit(__doc__)
    words = [w for w in sys.argv[1:] if not w.startswith("--")]
    root = words[0] if words else "."
    global CRATES
    CRATES = {os.path.basename(os.path.dirname(p)) for p in glob.glob(f"{root}/crates/*/src")}
    files = sorted(glob.glob(f"{root}/crates/*/specs/**/*.antt", recursive=True) + glob.glob(f"{root}/crates/*/proofs/**/*.antt", recursive=True))
    texts = {p: read(p) for p in files}
    names, kept = set(), set()
    for p, t in texts.items():
        if not p.endswith("/Proof.antt"):
            names |= bound(t) - foreign(t, CRATES)
            kept |= declared(t)
    shared = {**spelled(names, kept), **ALSO}
    if "--list" in sys.argv:
        for n in sorted(shared):
            print(n, shared[n])
        return
    for p, t in texts.items():
        taken = foreign(t, CRATES)
        local = spelled(bound(t) - taken - set(shared), set())
        table = {**local, **shared, **IN_FILE.get(os.path.relpath(p, root), {})}
        now = turned(t, table, taken)
        if now != t:
            with open(p, "w", encoding="utf-8") as f:
                f.write(now)
    for p in sorted(glob.glob(f"{root}/crates/*/src/**/*.rt", recursive=True)):
        t = read(p)
        now = turned_source(t, shared)
        if now != t:
            with open(p, "w", encoding="utf-8") as f:
                f.write(now)


if __name__ == "__main__":
    main()
