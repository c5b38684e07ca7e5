#!/usr/bin/env python3
"""Splits the imports of src/ and specs/ that are wider than 160 characters into several lines. What else is too wide is printed."""
import glob
import re

for p in sorted(glob.glob("crates/*/specs/**/*.antt", recursive=True) + glob.glob("crates/*/src/**/*.rt", recursive=True)):
    lines = open(p, encoding="utf-8").read().split("\n")
    out, changed = [], False
    for number, l in enumerate(lines, 1):
        m = re.match(r"((?:pub |ghost )?use [^{]+\.\{)([^}]*)(\};?)$", l)
        if len(l) > 160 and m:
            now = []
            for n in m[2].split(", "):
                if now and len(m[1] + ", ".join(now + [n]) + m[3]) > 150:
                    out.append(m[1] + ", ".join(now) + m[3])
                    now = []
                now.append(n)
            out.append(m[1] + ", ".join(now) + m[3])
            changed = True
        else:
            out.append(l)
            if len(l) > 160:
                print(f"{p}:{number}: {len(l)}")
    if changed:
        open(p, "w", encoding="utf-8").write("\n".join(out))
