#!/usr/bin/env python3
"""Brings the must-fail edits over: their texts get the spelling that the files have now.

usage: edits.py OLD [ROOT]

OLD is a checkout of the repository as it was for the older kit. An edit's text stands in a line of a file there. Where that text, respelled,
stands once in today's file, the edit is written so. What is left is printed, with today's lines that are most like the old ones.
"""
import difflib
import glob
import os
import re
import sys

sys.path.insert(0, os.path.dirname(os.path.realpath(__file__)))
import respell


LIBRARY = {"leZ": "le_z", "ltZ": "lt_z", "getD": "get_or", "natAbs": "nat_abs", "ofInt": "of_int", "toZ": "to_z", "modZ": "mod_z", "wrapW": "wrap_w", "quotZ": "quot_z", "shrZ": "shr_z"}


def table(old):
    respell.CRATES = {os.path.basename(os.path.dirname(p)) for p in glob.glob(f"{old}/crates/*/src")}
    return {}


def pairs(text):
    out, file = [], None
    for line in text.split("\n"):
        if line.startswith("file: "):
            file = line[6:]
        m = re.match(r"(old|new):( .*|)$", line)
        if m:
            out.append((m[1], m[2][1:]))
    return file, out


def forms(t, names):
    """Ways to write an old text today."""
    t0 = re.sub(respell.NAME, lambda m: names.get(m[0], m[0]), t)
    t1 = re.sub(r" \.(?=[\w«])", ".", t0).replace("«", "").replace("»", "")
    t2 = re.sub(r"(?<![\w◌])_([^\w\s(){}.]+)_(?!\w)", r"◌\1◌", t1)
    t3 = re.sub(r"\bnow \((\w+)\.exit\)", r"\1.new", t2)
    t3 = re.sub(r"\bnow \((\w+)\.entry\)", r"\1.old", t3)
    t3 = re.sub(r"\bnow (\w+)", r"\1.now", t3)
    for a, b in LIBRARY.items():
        t3 = re.sub(r"(?<![\w'])" + a + r"(?![\w'])", b, t3)
    t3 = re.sub(r"(?<![\w'])\(([\w']+(?:\.[\w']+)+)\)", r"\1", t3)
    t3 = re.sub(r"\bnow ([\w']+(?:\.[\w']+)*)", r"\1.now", t3)
    t4 = t3.replace("′", "'").replace("⌜ ", "").replace(" ⌝", "")
    t5 = re.sub(r"ensures \{ λ r\. r ≡", "ensures { result ≡", t4)
    out = []
    for x in (t, t0, t1, t2, t3, t4, t5):
        if x not in out:
            out.append(x)
    return out


def main():
    old = sys.argv[1]
    root = sys.argv[2] if len(sys.argv) > 2 else "."
    names = {}
    for line in open(sys.argv[3] if len(sys.argv) > 3 else os.path.join(root, "tools/names.txt")):
        w = line.split()
        if len(w) == 2:
            names[w[0]] = w[1]
    good = left = 0
    for p in sorted(glob.glob(f"{root}/crates/*/must-fail/*.edit")):
        text = open(p).read()
        file, ps = pairs(text)
        crate = os.path.dirname(os.path.dirname(p))
        now = open(os.path.join(crate, file)).read()
        out = text
        ok = True
        step = now
        for (k1, a), (k2, b) in zip(ps[0::2], ps[1::2]):
            fa, fb = forms(a, names), forms(b, names)
            hit = [i for i, x in enumerate(fa) if step.count(x) == 1]
            if not hit:
                ok = False
                lines = step.split("\n")
                near = difflib.get_close_matches(fa[-1].strip(), [l.strip() for l in lines], 2, 0.5)
                print(f"left: {p}\n  old: {a}\n  new: {b}\n  now: {near}")
                break
            x = fa[hit[-1]]
            y = fb[-1] if len(fb) > 1 or len(fa) == 1 else fb[0]
            y = forms(b, names)[-1] if x == fa[-1] else fb[min(hit[-1], len(fb) - 1)]
            step = step.replace(x, y)
            out = out.replace("old: " + a + "\n", "old: " + x + "\n").replace("new: " + b + "\n", "new: " + y + "\n")
        if ok:
            good += 1
            if out != text:
                open(p, "w").write(out)
        else:
            left += 1
    print(good, "stand,", left, "left")


if __name__ == "__main__":
    main()
