#!/usr/bin/env python3
"""Gives the pages the names that definitions and lemmas have now: what stands in backquotes, by tools/names.txt."""
import re
import sys

sys.path.insert(0, "tools")
import respell

names = dict(l.split() for l in open("tools/names.txt"))
for page in sys.argv[1:]:
    t = open(page, encoding="utf-8").read()

    def one(m):
        return "`" + re.sub(respell.NAME, lambda n: names.get(n[0], n[0]), m[1]) + "`"

    now = re.sub(r"`([^`\n]+)`", one, t)
    if now != t:
        open(page, "w", encoding="utf-8").write(now)
