#!/usr/bin/env python3
"""Lists the places of src/ that docs/DESIGN-PASS.md counts, point by point.

usage: places.py [-l] [COMMIT]     counts the places in the files as they stand, or at a commit; -l prints each

What is counted is text: a hit may be a place that stays for a reason, and the page says which do.
"""
import re, subprocess, sys

FLAGS = [it for it in sys.argv[1:] if it.startswith("-")]
COMMIT = next((it for it in sys.argv[1:] if not it.startswith("-")), None)


def read():
    """Returns the text of each file of src/, by path."""
    run = lambda *words: subprocess.run(["git", *words], capture_output=True, text=True, check=True).stdout
    names = run("ls-tree", "-r", "--name-only", COMMIT, "crates") if COMMIT else run("ls-files", "--cached", "--others", "--exclude-standard", "crates")
    found = {}
    for it in names.split("\n"):
        if re.fullmatch(r"crates/\w+/src/.*\.rt", it):
            try:
                found[it] = run("show", f"{COMMIT}:{it}") if COMMIT else open(it).read()
            except FileNotFoundError:
                pass
    return found


def functions(text):
    """Returns (line, name, parameters, clauses) of each function."""
    found = []
    for it in re.finditer(r"^ *(?:pub )?(?:extern \"C\" )?fn (\w+)[^(]*\(", text, re.M):
        depth, i = 1, it.end()
        while depth:
            depth += {"(": 1, ")": -1}.get(text[i], 0)
            i += 1
        body = re.search(r"^ *\{$|\{$", text[i:], re.M)
        head = text[i:i + (body.start() if body else 400)]
        found.append((text.count("\n", 0, it.start()) + 1, it[1], text[it.end():i - 1], head))
    return found


def lines(pattern, files):
    """Returns the places where a line has the pattern."""
    return [f"{path}:{n}: {line.strip()}" for path, text in files.items() for n, line in enumerate(text.split("\n"), 1)
            if re.search(pattern, line) and not line.strip().startswith("//")]


def loops(files):
    """Returns the loops that count an index by hand: a `while` with a line `x += 1` or the like in it."""
    found = []
    for path, text in files.items():
        rows = text.split("\n")
        for n, line in enumerate(rows):
            if re.match(r" *while ", line):
                indent = len(line) - len(line.lstrip())
                end = next(k for k in range(n + 1, len(rows)) if rows[k].startswith(" " * indent + "}"))
                if any(re.match(r" *(\w+) (\+= 1|= \1 \+ 1|-= 1|= \1 - 1);", it) for it in rows[n:end]):
                    found.append(f"{path}:{n + 1}: {line.strip()}")
    return found


def facts(files):
    """Returns the facts that stand in the `requires` of three functions or more."""
    where = {}
    for path, text in files.items():
        for n, name, _, head in functions(text):
            for clause in re.findall(r"requires(?: \w+)? \{(.*?)\}\n", head + "\n", re.S):
                for fact in clause.split("×"):
                    fact = " ".join(fact.split()).removeprefix("(").removesuffix(")")
                    where.setdefault(fact, []).append(f"{path}:{n}: {name}")
    return [f"{fact}: {len(them)} functions" for fact, them in sorted(where.items()) if len(them) > 2]


def together(files):
    """Returns the groups of three parameters or more that stand in one order in three functions or more."""
    where = {}
    for path, text in files.items():
        for n, name, given, _ in functions(text):
            words = [re.sub(r"^mut ", "", it.split(":")[0].strip()) for it in given.split(",") if ":" in it]
            for k in range(len(words) - 2):
                where.setdefault(tuple(words[k:k + 3]), []).append(f"{path}:{n}: {name}")
    return [f"{', '.join(three)}: {len(them)} functions" for three, them in sorted(where.items()) if len(them) > 2]


def main():
    files = read()
    points = [
        ("1, variants of own enums that stand for None or Err", lines(r"^\s+(Refused|Bad|Wrong|Fails|Failed|End)\b", files)),
        ("1, flags beside values", lines(r"^\s+pub \w+: bool", files)),
        ("1, functions that answer a refusal's number", lines(r"fn (refuse\w*|limits|config_limits|refusal_of)\(.*-> u32", files)),
        ("1, tests of a refusal's number", lines(r"[!=]= OK\b", files)),
        ("1, constants for refusals", lines(r"^pub const \w+: u32 = \d+;", {k: v for k, v in files.items() if k.endswith("/refusals.rt")})),
        ("1, fields that hold a refusal's number", lines(r"\b(number|refusal): u32", files)),
        ("3, loops that count an index", loops(files)),
        ("3, other while loops", [it for it in lines(r"^\s*while ", files) if it not in loops(files)]),
        ("4, functions that turn one type or name into another", lines(r"fn (\w+_of|same_\w+|wide\w*|face|number_of|\w+_answer|\w+_start)\(", files)),
        ("5, facts in the requires of three functions or more", facts(files)),
        ("5, three parameters together in three functions or more", together(files)),
        ("6, arrays with a length beside them", lines(r"^\s+pub \w+: \[", files)),
        ("6, functions over parallel slices (floors and eases)", [f"{p}:{n}: {name}" for p, t in files.items() for n, name, given, _ in functions(t) if "floors" in given and "eases" in given]),
        ("7, chains of tests of one number", lines(r"^\s*if (k|tag|letter|n) == [0-9b']", files)),
    ]
    for name, found in points:
        print(f"{len(found):4} {name}")
        if "-l" in FLAGS:
            print("".join(f"       {it}\n" for it in found), end="")


main()
