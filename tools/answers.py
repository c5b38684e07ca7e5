#!/usr/bin/env python3
"""Turns the Proof.antt files of a crate into Invariants.antt and Answers.antt, the form of today's proofs.

usage: answers.py NAMES CRATE [FUNCTION..]

NAMES is the names.json that `rt check --generated DIR --old-names` writes for the crate, and CRATE the folder above proofs/.
A goal's answer keeps its term; the goal, the places and the steps get the names that NAMES gives. An answer that only says
`search rules` goes, since the check searches by itself. It was used once, for the move to today's Rattle.
"""
import json
import os
import re
import sys

NAME = r"(?<![\w'\-«·])[^\W\d_][\w']*(?:-[\w']+)*"
LOCAL = r"[\w'₀-₉]+(?:-[\w']+)*"


def norm(name):
    return re.sub("-+", "-", name.replace("_", "-"))


def chunks(text):
    """The top-level declarations of a file, each with the comments above it."""
    out, now = [], []
    for line in text.split("\n"):
        if line and not line[0].isspace() and now and not all(l.startswith("--") or not l for l in now):
            head = [l for l in now if l and not l.startswith("--")]
            sig = head[0] if head else ""
            name = re.sub(r"^(?:(?:pub|abbrev|unfoldable) )*", "", sig).split(" ")[0]
            cont = line.startswith(name + " ") and not re.match(re.escape(name) + r" :", line) or line.startswith("unfolding ")
            if not cont:
                out.append("\n".join(now).strip("\n"))
                now = []
        now.append(line)
    out.append("\n".join(now).strip("\n"))
    return [c for c in out if c.strip()]


def head_of(chunk):
    for l in chunk.split("\n"):
        if l and not l.startswith("--"):
            return l
    return ""


def declared(chunk):
    h = re.sub(r"^(?:(?:pub|abbrev|unfoldable|pattern) )*", "", head_of(chunk))
    m = re.match(r"(record|data) (\S+)", h)
    if m:
        return m[2]
    return h.split(" ")[0]


def split_args(text):
    """The arguments of an application, parenthesised ones whole."""
    out, depth, now = [], 0, ""
    for ch in text:
        if ch in "([{":
            depth += 1
        if ch in ")]}":
            depth -= 1
        if ch.isspace() and depth == 0:
            if now:
                out.append(now)
            now = ""
        else:
            now += ch
    if now:
        out.append(now)
    return out


class Stop(Exception):
    pass


class Turn:
    def __init__(self, crate, path, names):
        self.crate, self.path, self.names = crate, path, names
        self.module = f"Rattle.{crate}.proofs.{path}"
        self.needs = names["needs"]
        self.labels = {}
        for i, (old, parent, pair, fn, rest) in enumerate(names["places"]):
            if pair[0]:
                self.labels[norm(pair[0])] = pair[1]
        self.places = {norm(p[0]): n for p, n in zip(names["places"], names["places_by_name"])}
        self.callee = {pair[1]: fn for old, parent, pair, fn, rest in names["places"] if fn}
        self.parent = {n: None for n in names["places_by_name"]}
        index = {p[0]: n for p, n in zip(names["places"], names["places_by_name"])}
        for p, n in zip(names["places"], names["places_by_name"]):
            self.parent[n] = index.get(p[1])
        self.asked = {new: at[1] for (old, new), at in zip(names["needs"], names["asked_at"])}
        self.cited_places = set()
        self.env = {}
        self.steps = {}
        self.gives = {}
        self.left = []

    def up(self, place, k):
        for _ in range(k):
            place = self.parent.get(place) if place else None
        return place

    def label(self, part):
        n = norm(part)
        if n in self.labels:
            return self.labels[n]
        if n.endswith("-lem") and n[:-4] in self.labels:
            return self.labels[n[:-4]]
        return None

    def chain(self, m):
        root, parts = m[1], m[2].split(".")[1:]
        if root and root.split(".")[0] in ("tie", "goal", "Rattle", "mathlib", "lib", "borrow", "mir", "native", "Prim"):
            return m[0]
        k = 0
        while k < len(parts) and parts[k] == "before":
            k += 1
        if k == len(parts):
            at = self.env.get(root)
            if at:
                place, key = at
                target = self.up(place, k)
                if target:
                    self.cited_places.add(target)
                    if key == place:
                        self.cited_places.add(place)
                    return f"(goal.at.{key} {root}).{target}"
            self.left.append("a place: " + m[0])
            return m[0]
        if k < len(parts):
            if parts[k] in ("args", "requires", "ranges", "well-formed", "well_formed", "lifetimes", "type-inv", "type_inv"):
                new = parts[k].replace("-", "_")
            elif k or root in self.env or root == ")" or root == "c":
                new = self.label(parts[k])
            else:
                new = None
            if new and (k or parts[k] in ("args", "requires", "ranges") or root == "" or True):
                parts = [new] + parts[k + 1 :]
        # what a call left in a borrowed parameter goes by the parameter's name
        if root in self.steps and parts[0] in ("new", "auto"):
            step = self.names.get("params", {}).get(self.callee.get(self.steps[root]) or "", [])
            n = 0
            while 1 + n < len(parts) and parts[1 + n] == "1":
                n += 1
            if step and 1 + n < len(parts) and parts[1 + n] == "0" and n < len(step):
                parts = [parts[0], step[n]] + parts[2 + n :]
        params = self.names.get("params", {}).get(self.callee.get(parts[0]) or "", [])
        if len(parts) > 2 and parts[1] in ("new", "auto") and params:
            n = 0
            while 2 + n < len(parts) and parts[2 + n] == "1":
                n += 1
            if 2 + n < len(parts) and parts[2 + n] == "0" and n < len(params):
                parts = parts[:2] + [params[n]] + parts[3 + n :]
        if root not in self.labels:
            parts = [{"taken": "true", "left": "false"}.get(p, p) if i == 1 and (parts[0].isdigit() or parts[0].startswith("if-") or parts[0].endswith("-test")) else p for i, p in enumerate(parts)]
        parts = ["requires" if p == "pre" else p for p in parts]
        if len(parts) > 1 and parts[0] == "args" and re.fullmatch(r"t\d+", parts[1]) and int(parts[1][1:]) <= len(self.params):
            parts[1] = self.params[int(parts[1][1:]) - 1]
        parts = [p.replace("type-inv", "type_inv").replace("well-formed", "well_formed") for p in parts]
        return root + "." + ".".join(parts)

    def applied(self, code):
        """Chains behind an application of a helper that gives a place."""
        while True:
            m = re.search(r"\(([\w'₀-₉]+) ([^()]*)\)((?:\.before)+)(?![.\w])", code)
            if not m:
                return code
            place = self.gives.get(m[1])
            target = self.up(place, m[3].count(".before")) if place else None
            if not target:
                self.left.append("a place: " + m[0])
                return code
            self.cited_places |= {place, target}
            code = code[: m.start()] + f"(goal.at.{place} ({m[1]} {m[2]})).{target}" + code[m.end() :]

    def term(self, text):
        out = []
        for line in text.split("\n"):
            code, dash, note = (line, "", "") if "--" not in line else line.partition("--")
            code = self.applied(code)
            b = re.match(r"\s*let ([\w'₀-₉]+) = ([\w'₀-₉]+)((?:\.before)*) in\s*$", code)
            b2 = re.match(r"\s*let ([\w'₀-₉]+) = \(([\w'₀-₉]+) [^()]*\)((?:\.before)*) in\s*$", code)
            b3 = re.match(r"\s*let ([\w'₀-₉]+) = ([\w'₀-₉]+) [\w'₀-₉]+ in\s*$", code)
            made = None
            if b and b[2] in self.env:
                made = (b[1], self.up(self.env[b[2]][0], b[3].count(".before")), self.env[b[2]][1] if not b[3] else None)
            elif b2 and b2[2] in self.gives:
                made = (b2[1], self.up(self.gives[b2[2]], b2[3].count(".before")), None)
            elif b3 and b3[2] in self.gives:
                made = (b3[1], self.gives[b3[2]], None)
            code = re.sub(r"((?:" + LOCAL + r"|\)|\}))((?:\.[^\s(){}.;,\"«»\[\]\\]+)+)", self.chain, code)
            if made and made[1]:
                self.env[made[0]] = (made[1], made[2] or made[1])
            code = re.sub(r"(?<![\w'\-.])not-(?:true|false) (?:_|[\w'.\-₀-₉]+|\([^()]*\)) ((?:\([^()]*\)|[\w'₀-₉]+)\.if-[\w'\-]+\.(?:true|false))", r"\1", code)
            s = re.match(r"\s*let ([\w'₀-₉]+) = .*\.([\w'₀-₉]+(?:-[\w']+)*) in\s*$", code)
            if s and s[2] in self.callee:
                self.steps[s[1]] = s[2]
            out.append(code + dash + note)
        return "\n".join(out)

    def unaliased(self, text):
        """Drops a let that only names an earlier place, where each use of it reads a step."""
        while True:
            m = re.search(r"let (" + LOCAL + r") = (" + LOCAL + r")((?:\.before)+) in\s*", text)
            at = 0
            done = False
            for m in re.finditer(r"let (" + LOCAL + r") = (" + LOCAL + r")((?:\.before)+) in[ \t]*(\n[ \t]*)?", text):
                var, root = m[1], m[2]
                rest = text[m.end() :]
                uses = list(re.finditer(r"(?<![\w'.\-])" + re.escape(var) + r"(?![\w'\-])", rest))
                ok = all(re.match(r"\.(?!before)", rest[u.end() :]) for u in uses) and uses
                if ok:
                    rest = re.sub(r"(?<![\w'.\-])" + re.escape(var) + r"(?=\.)", root, rest)
                    text = text[: m.start()] + rest
                    done = True
                    break
            if not done:
                return text

    def run(self, text):
        parts = chunks(text)
        uses = [l for l in text.split("\n") if re.match(r"(pub )?use ", l)]
        uses = [l for l in uses if not re.search(r"\.(Statement|Tie)( as \w+|\.\{[^}]*\})?$", l)]
        head = "\n".join(l for l in parts[0].split("\n") if l.startswith("--")) if parts else ""
        decls = []
        for c in parts:
            lines = [l for l in c.split("\n") if not re.match(r"(pub )?use ", l)]
            c2 = "\n".join(lines).strip("\n")
            if c2 and not all(l.startswith("--") or not l.strip() for l in lines):
                decls.append(c2)
        first_comment = []
        for l in text.split("\n"):
            if l.startswith("--"):
                first_comment.append(l)
            else:
                break
        if decls and first_comment and decls[0].startswith("\n".join(first_comment)):
            decls[0] = decls[0][len("\n".join(first_comment)) :].strip("\n")
        final = [d for d in decls if re.search(r"\(?tie\.spec\b", d)]
        if len(final) != 1:
            raise Stop("no single tie.spec")
        decls.remove(final[0])
        m = re.search(r"tie\.close\s*\(tie\.spec(.*)\)\s*$", final[0], re.S)
        m2 = re.search(r"tie\.close\s+tie\.spec\s*$", final[0], re.S)
        if not m and not m2:
            raise Stop("tie.close has another form")
        args = split_args(m[1]) if m else []
        nl = len(self.names["loops"])
        if len(args) != 2 * nl + len(self.needs):
            raise Stop(f"{len(args)} arguments, {nl} loops and {len(self.needs)} goals: {[n[0] for n in self.needs]} / {args}")
        loops, answers = args[: 2 * nl], args[2 * nl :]
        kinds = {}
        goal_of, renamed = {}, {}
        for a, (old, new) in zip(answers, self.needs):
            goal_of.setdefault(a, []).append(new)
        by_name = {declared(d): d for d in decls}
        # the loops
        inv = {}
        order = [("invariant", "decreases")[i % 2] for i in range(2 * nl)]
        # tie.spec takes all invariants and measures in the order of the loops
        for i, a in enumerate(loops):
            sig = head_of(by_name.get(a, ""))
            kind = "invariant" if "tie.invariant" in sig else "decreases"
            inv.setdefault(kind, []).append(a)
        out_inv, inv_names = [], []
        for kind in ("invariant", "decreases"):
            got = inv.get(kind, [])
            if len(got) != nl:
                raise Stop("loops without a definition: " + " ".join(loops))
        loop_names = [l[0] for l in self.names["loops"]]
        for k in range(nl):
            for kind in ("invariant", "decreases"):
                a = inv[kind][k]
                d = by_name[a]
                # which loop: by the name after the kind
                which = norm(a)[len(kind) + 1 :]
                idx = next((i for i, l in enumerate(loop_names) if norm(l[0]) == which), k)
                out_inv.append((d, kind, idx, a))
                inv_names.append(a)
        # what the invariants need
        rest = [d for d in decls if declared(d) not in inv_names]
        needed, grow = set(), "\n".join(by_name[a] for a in inv_names)
        while True:
            more = {declared(d) for d in rest if declared(d) not in needed and "tie." not in d and declared(d) not in ("module",) and re.search(r"(?<![\w'\-.])" + re.escape(declared(d)) + r"(?![\w'\-])", grow)}
            if not more:
                break
            needed |= more
            grow += "\n" + "\n".join(by_name[n] for n in more)
        files = {}
        inv_text = ""
        if nl:
            body = []
            for d in rest:
                if declared(d) in needed:
                    body.append(self.public(d))
            for d, kind, idx, a in sorted(out_inv, key=lambda t: t[2]):
                body.append(self.loop(d, kind, idx, a))
            inv_text = "\n\n".join(body)
            places = ""
            files["Invariants.antt"] = (inv_text, [f"use {self.module}.Given as goal"])
        # the answers
        body, used_places, names_now = [], [], {}
        for a, news in goal_of.items():
            if re.fullmatch(NAME, a):
                names_now[a] = news[0]
        dropped = []
        texts = []
        for d in rest:
            n = declared(d)
            if n in needed:
                continue
            texts.append((n, d))
        everything = "\n".join(d for n, d in texts)
        for n, d in texts:
            if n in goal_of:
                clause = re.sub(r"^--[^\n]*\n", "", d)
                is_search = re.search(r"(?s)^[^\n]*\n" + re.escape(n) + r" c(?: \S+)? = search rules\s*$", "\n".join(l for l in d.split("\n") if not l.startswith("--")))
                used = len(re.findall(r"(?<![\w'\-.])" + re.escape(n) + r"(?![\w'\-])", everything))
                own = len(re.findall(r"(?<![\w'\-.])" + re.escape(n) + r"(?![\w'\-])", d))
                if is_search and used == own:
                    dropped.append(n)
                    continue
            body.append((n, d))
        out = []

        def of_place(text):
            return [self.places[norm(x)] for x in re.findall(r"tie\.(" + LOCAL + r")", text) if norm(x) in self.places]

        for n, d in texts:
            sig = "\n".join(l for l in d.split("\n") if not l.startswith("--"))
            for m in re.finditer(r"(?m)^ *(?:(?:pub|abbrev|unfoldable) )*([\w'₀-₉]+(?:-[\w']+)*) : ([^\n]*)$", sig):
                got = of_place(m[2])
                last = m[2].split("→")[-1]
                if of_place(last) and "≡" not in last:
                    self.gives[m[1]] = of_place(last)[-1]
        for n, d in body:
            t = d
            self.env = {}
            self.steps = {}
            if n in goal_of:
                g = goal_of[n][0]
                self.env["c"] = (self.asked[g], g)
            for m in re.finditer(r"\(([\w'₀-₉ ]+) : tie\.(" + LOCAL + r")", d):
                if norm(m[2]) in self.places:
                    for v in m[1].split():
                        self.env[v] = (self.places[norm(m[2])], self.places[norm(m[2])])
            for m in re.finditer(r"(?m)^ *(?:(?:pub|abbrev|unfoldable) )*([\w'₀-₉]+(?:-[\w']+)*) : tie\.(" + LOCAL + r")([^\n]*)$", d):
                if n in goal_of or norm(m[2]) not in self.places:
                    continue
                if "→" in m[3]:
                    c = re.search(r"(?m)^ *" + re.escape(m[1]) + r" ([\w'₀-₉]+) =", d)
                    if c:
                        self.env[c[1]] = (self.places[norm(m[2])], self.places[norm(m[2])])
                else:
                    self.env[m[1]] = (self.places[norm(m[2])], self.places[norm(m[2])])
            # the type of an answer
            if n in goal_of:
                new = goal_of[n][0]
                t = re.sub(r"(?m)^" + re.escape(n) + r" : tie\.[^\n]*$", f"pub {n} : goal.{new}", t, count=1)
                if f"goal.{new}" not in t:
                    self.left.append(f"signature of {n}")
            # places
            def place(m):
                p = norm(m[1])
                if p in self.places:
                    used_places.append(self.places[p])
                    return self.places[p]
                if p.startswith("Need-"):
                    key = p[5:]
                    for old, new in self.needs:
                        if norm(old) == key or norm(old) == re.sub("^overflow-", "", key):
                            return "goal." + new
                self.left.append("place " + m[1])
                return m[0]

            loops_after = "".join(r"(?: " + re.escape(x) + ")?" for x in loops)
            t = re.sub(r"tie\.(" + LOCAL + r")" + loops_after, place, t)
            t = self.unaliased(t)
            t = self.term(t)
            t = re.sub(r"(?<![\w'\-.])" + NAME.replace(r"(?<![\w'\-«·])", "") + r"(?![\w'\-])", lambda m: names_now.get(m[0], m[0]), t)
            if not re.search(r"κs", "\n".join(l for l in t.split("\n") if not re.match(r"\S+ c κs =", l)).replace(" c κs =", "")):
                t = re.sub(r"(?m)^(\S+ c) κs =", r"\1 =", t)
            out.append(t)
            for extra in goal_of.get(n, [])[1:]:
                out.append(f"pub {extra} : goal.{extra}\n{extra} = {names_now[n]}")
        for a, news in goal_of.items():
            if not re.fullmatch(NAME, a) or a not in by_name:
                for new in news:
                    out.append(f"pub {new} : goal.{new}\n{new} = {self.term(a)}")
        if out:
            more = [f"use {self.module}.Goals as goal"]
            used_places = set(used_places) | self.cited_places
            if used_places:
                more.insert(0, f"use {self.module}.Goals.{{{', '.join(sorted(set(used_places)))}}}")
            if needed:
                more.insert(0, f"use {self.module}.Invariants.{{{', '.join(sorted(needed))}}}")
            text = "\n\n".join(out)
            more = [m for m in more if not m.endswith("as goal") or "goal." in text]
            files["Answers.antt"] = (text, more)
        done = {}
        said = False
        for f, (t, more) in files.items():
            lines = []
            for u in uses:
                m = re.match(r"((?:pub )?use [^\s{]+\.)\{([^}]*)\}$", u)
                if m:
                    keep = [n.strip() for n in m[2].split(",") if self.cited(n.strip(), t)]
                    if keep:
                        lines.append(m[1] + "{" + ", ".join(keep) + "}")
                else:
                    alias = u.split(" as ")[-1] if " as " in u else u.split(".")[-1]
                    if re.search(r"(?<![\w'])" + re.escape(alias) + r"\.", t) or " as " not in u and alias in t:
                        lines.append(u)
            comment = "\n".join(first_comment) + "\n" if first_comment and (f == "Invariants.antt" or "Invariants.antt" not in files) else ""
            done[f] = comment + "\n".join(lines + more) + "\n\n" + t + "\n"
        return done, dropped

    def cited(self, name, text):
        name = name.split(" as ")[-1].strip()
        if "◌" in name:
            return any(re.search(re.escape(p), text) for p in name.split("◌") if p)
        return re.search(r"(?<![\w'\-])" + re.escape(name) + r"(?![\w'\-])", text) is not None

    def public(self, d):
        lines = d.split("\n")
        for i, l in enumerate(lines):
            if l and not l.startswith("--") and not l[0].isspace():
                if re.match(r"(record|data) ", l):
                    lines[i] = "pub " + l
                elif re.match(r"abbrev (?!pub)", l):
                    lines[i] = l.replace("abbrev ", "abbrev pub ", 1)
                elif re.match(r"unfoldable (?!pub)", l):
                    lines[i] = l.replace("unfoldable ", "unfoldable pub ", 1)
                elif not l.startswith("pub ") and " : " in l or l.endswith(" :"):
                    lines[i] = "pub " + l
                break
        if "record " in head_of(d):
            lines = [re.sub(r"^(  )(?=[a-z][\w']*(?:[ ][a-z][\w']*)* : )", r"\1pub ", l) for l in lines]
        return "\n".join(lines)

    def loop(self, d, kind, idx, a):
        (old, new), vars = self.names["loops"][idx][0], self.names["loops"][idx][1]
        changed = self.names["changed"][idx]
        lines = d.split("\n")
        at = next(i for i, l in enumerate(lines) if re.match(re.escape(a) + r"[ ](?!:)", l))
        notes = [l for l in lines[:at] if l.startswith("--")]
        unf = [l for l in lines[:at] if l.startswith("unfolding")]
        clause = "\n".join(lines[at:])
        m = re.match(re.escape(a) + r"((?: " + r"[^\s=]+)*) =(\s.*)$", clause, re.S)
        params = m[1].split()
        body = m[2]
        want = [(v, "l.initial." + v if c else "l." + v) for v, c in zip(vars, changed)] + [(v, "l." + v) for v, c in zip(vars, changed) if c]
        if len(params) != len(want):
            raise Stop(f"{a} has {params}, the loop has {vars} {changed}")
        to = {p: w for p, (v, w) in zip(params, want) if p != "_"}
        body = re.sub(r"(?<![\w'\-.₀-₉])[^\W\d][\w'₀-₉]*(?:-[\w']+)*(?![\w'\-₀-₉])", lambda m: to.get(m[0], m[0]), body)
        # a signed number is a number of ℤ in today's loops
        body = re.sub(r"\(to_z w(?:8|16|32|64) (l\.[\w.']+)\)|to_z w(?:8|16|32|64) (l\.[\w.']+)", lambda m: m[1] or m[2], body)
        name = f"{kind}-{new}"
        return "\n".join(notes + [f"abbrev pub {name} : goal.{name}"] + unf + [f"{name} l ={body}"])


def main():
    names = json.load(open(sys.argv[1]))
    crate = sys.argv[2].rstrip("/")
    only = sys.argv[3:]
    cname = os.path.basename(crate)
    for folder, dirs, files in sorted(os.walk(os.path.join(crate, "proofs"))):
        if "Proof.antt" not in files:
            continue
        path = os.path.relpath(folder, os.path.join(crate, "proofs")).replace("/", ".")
        if only and path not in only:
            continue
        key = f"Rattle-{cname}-proofs.{path}.Lts"
        if key not in names:
            print(f"left: {path}: no names")
            continue
        text = open(os.path.join(folder, "Proof.antt"), encoding="utf-8").read()
        t = Turn(cname, path, names[key])
        code = "\n".join(open(os.path.join(f, n), encoding="utf-8").read() for f, d, ns in os.walk(os.path.join(crate, "src")) for n in ns if n.endswith(".rt"))
        sig = re.search(r"\bfn " + re.escape(path.split(".")[-1]) + r"\s*\(([^)]*)\)", code)
        t.params = re.findall(r"(\w+): ", sig[1]) if sig else []
        try:
            done, dropped = t.run(text)
        except Stop as e:
            print(f"left: {path}: {e}")
            continue
        for l in t.left:
            print(f"look: {path}: {l}")
        os.remove(os.path.join(folder, "Proof.antt"))
        for f, s in done.items():
            with open(os.path.join(folder, f), "w", encoding="utf-8") as out:
                out.write(s)
        if not done:
            os.rmdir(folder)


if __name__ == "__main__":
    main()
