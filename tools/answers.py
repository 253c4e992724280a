#!/usr/bin/env python3
"""Turns the old proof files of a crate, proofs/F/Proof.antt, into Invariants.antt and Answers.antt.

usage, in the crate's folder: rt check --generated DIR --old-names; ../../tools/answers.py DIR/names.json [F..]

A need that `search rules` met is left out, as the check meets it by itself. Steps are named by what the old file called them; what could not be
told is marked '-- left:' in the new file. The old file becomes Proof.old beside it, to be removed when the function is proved. Cycles (folders
that begin with +) are left to the hand."""

import glob
import json
import os
import re
import sys

ID = r"[^\s(){}\[\];,.\"`«»:=]+"


def norm(s):
    s = re.sub(r"^(overflow|nonzero|bounds|shape-of)-", "", s.replace("_", "-"))
    return re.sub(r"-(\d+)$", r"\1", re.sub(r"-lem$", "", s))


def clauses():
    """crate::module::fn -> {'requires': names, 'ensures': names}"""
    out = {}
    for f in glob.glob("../*/src/**/*.rt", recursive=True):
        parts = f.split("/")
        crate, rest = parts[1], "/".join(parts[3:])[:-3]
        mod = "" if rest in ("lib", "main") else rest.replace("/", "::") + "::"
        text = open(f).read()
        for m in re.finditer(r"\bfn (\w+)(.*?)\n\{", text, re.S):
            head = m.group(2)
            front = re.split(r"\n\s+(?:requires|ensures)", head)[0]
            while re.search(r"\[[^\[\]]*\]", front):
                front = re.sub(r"\[[^\[\]]*\]", "", front)
            if ";" in front:
                continue
            it = {k: re.findall(r"^\s+%s\*? ?(\w*) ?\{" % k, head, re.M) for k in ("requires", "ensures")}
            it["params"] = re.findall(r"(\w+)\s*:", front)
            out[f"{crate}::{mod}{m.group(1)}"] = it
    return out


CLAUSES = None


def by_name(names, path):
    """A path into pairs that nest to the right, by the clauses' names."""
    if len(names) < 2 or not path or not path[0].isdigit():
        return path
    at = 0
    path = list(path)
    while path and path[0].isdigit() and at < len(names):
        d = path.pop(0)
        if d == "0":
            return [names[at]] + path
        at += 1
        if at == len(names) - 1:
            return [names[at]] + path
    return ["left"] + path


def step_path(callee, rest):
    """What follows a call's name: its clauses by their names, and what is behind its &mut arguments by theirs."""
    it = CLAUSES.get(callee, {})
    if rest and rest[0] in ("ensures", "requires"):
        return [rest[0]] + by_name(it.get(rest[0], []), rest[1:])
    if rest and rest[0] in ("new", "auto") and len(rest) > 1 and rest[1].isdigit():
        names, path, at = it.get("params", []), rest[1:], 0
        while path and path[0] == "1":
            path, at = path[1:], at + 1
        if path and path[0] == "0" and at < len(names):
            return [rest[0], names[at]] + path[1:]
    return rest


class Fn:
    def __init__(self, key, data, crate):
        self.key = key
        self.crate = crate
        self.folder = key[len("Rattle-" + crate + "-proofs."):-len(".Lts")]
        self.d = data
        self.places = data["places"]
        self.index = {p[0]: i for i, p in enumerate(self.places)}
        self.newname = data["places_by_name"]
        self.goals = {norm(o): n for o, n in data["needs"]}
        for o, n in data["needs"]:
            self.goals.setdefault(norm(n), n)
        self.at = {}
        for (o, n), (po, pn) in zip(data["needs"], data["asked_at"]):
            self.at[n] = (po, pn)
        self.fn = f"{crate}::" + self.folder.replace(".", "::")

    def chain(self, place):
        while place is not None:
            i = self.index[place]
            yield i
            place = self.places[i][1]

    def find(self, place, path):
        """The new path of what the old file called path, a list, from the place on; None where it is not found."""
        return self.seek(place, path, 0) or self.seek(place, path, 1)

    def seek(self, place, path, which):
        head = norm(path[0])
        for i in self.chain(place):
            name, parent, (old, new), callee, _ = self.places[i]
            arm = self.d["arms"][i]
            if arm:
                for piece, field, sub in arm[2]:
                    if norm(field) == head:
                        want = [str(x) for x in (sub or [])]
                        if path[1:1 + len(want)] == want and want:
                            return [arm[0], piece] + path[1 + len(want):]
            if old and norm((old, new)[which]) == head:
                return [new] + (step_path(callee, path[1:]) if callee else path[1:])
        return None

    def place_of(self, word):
        """The new name of a place by its old name, as in tie.After-number."""
        for i, p in enumerate(self.places):
            if norm(p[0]) == norm(word) or norm(self.newname[i]) == norm(word):
                return p[0], self.newname[i]
        return None


def parts(s):
    """The parts of a tuple '(a, b)', or None where s is none."""
    s = s.strip()
    if not (s.startswith("(") and s.endswith(")")):
        return None
    depth, out, at = 0, [], 1
    for i, ch in enumerate(s):
        if ch in "({[":
            depth += 1
        elif ch in ")}]":
            depth -= 1
            if depth == 0 and i < len(s) - 1:
                return None
        elif ch == "," and depth == 1:
            out.append(s[at:i])
            at = i + 1
    last = s[at:-1]
    if last.strip():
        out.append(last)
    return out if len(out) > 1 else None


def as_record(body, names):
    """A tuple that ends the body, as a record of the clauses' names."""
    if len(names) < 2:
        return body
    text = body.rstrip()
    if not text.endswith(")"):
        return body
    depth = 0
    for i in range(len(text) - 1, -1, -1):
        depth += text[i] in ")}]"
        depth -= text[i] in "({["
        if depth == 0:
            break
    if text[:i].strip() and not text[:i].rstrip().endswith(" in"):
        return body
    got, rest = [], text[i:]
    while len(got) < len(names) - 1:
        p = parts(rest)
        if not p:
            return body
        if len(p) == len(names) - len(got):
            got += p
            rest = None
            break
        got.append(p[0])
        rest = p[1] if len(p) == 2 else "(" + ",".join(p[1:]) + ")"
    if rest is not None:
        got.append(rest)
    return text[:i] + "record {\n" + "".join(f"      {n} = {g.strip()};\n" for n, g in zip(names, got)) + "    }"


def blocks(text):
    """The top-level declarations: (name, type or None, lines)."""
    out, cur = [], []
    for line in text.split("\n"):
        if line and not line[0].isspace() and not re.match(r"[)\]}]", line):
            out.append(line)
        elif out:
            out[-1] += "\n" + line
        else:
            out.append(line)
    return out


class File:
    def __init__(self, fn, text):
        self.fn = fn
        self.uses, self.body = [], []
        self.decls = []
        self.inv = []
        self.places = set()
        self.left = []
        note = []
        items = blocks(text)
        self.comment = []
        i = 0
        while i < len(items):
            b = items[i].rstrip("\n")
            if b.startswith("use "):
                self.uses.append(b.strip())
            elif b.startswith("--"):
                note.append(b)
            elif b.strip():
                last = re.match(r"(?:abbrev |pub |unfoldable )*(%s) :\s" % ID, self.decls[-1][1]) if self.decls else None
                if last and (b.startswith("unfolding ") or re.match(re.escape(last.group(1)) + r"(?![\w'₀-])", b)):
                    self.decls[-1] = (self.decls[-1][0], self.decls[-1][1] + "\n" + "\n".join(note + [b]))
                else:
                    self.decls.append((note, b))
                note = []
            i += 1

    def types(self):
        self.helpers = {}
        for note, b in self.decls:
            m = re.match(r"(?:abbrev |pub |unfoldable )*(%s) : (.*)" % ID, b, re.S)
            if m:
                h = re.match(r"(?:\(\w+ : )?(?:tie|lts)\.(%s)" % ID, m.group(2))
                if h and not h.group(1).startswith(("Need-", "invariant-", "decreases-")):
                    self.helpers[m.group(1)] = h.group(1)

    def paths(self, body, var, place, goal):
        alias = {var}
        # aliases of the record itself
        for _ in range(4):
            for m in re.finditer(r"let (%s) = (%s)((?:\.before)*) in" % (ID, ID), body):
                if m.group(2) in alias and m.group(1) not in alias:
                    alias.add(m.group(1))
        body = re.sub(r"[ ]*let (%s) = (?:%s)(?:\.before)* in ?\n?[ ]*" % (ID, "|".join(map(re.escape, sorted(alias)))), lambda m: "    " if m.group(1) in alias else m.group(0), body) if len(alias) > 1 else body

        def one(m):
            name, tail = m.group(1), m.group(2)
            if name not in alias:
                return m.group(0)
            path = tail.split(".")[1:]
            while path and path[0] == "before":
                path.pop(0)
            if not path:
                # bare: an argument of a helper?
                before = body[:m.start()].rstrip()
                h = re.search(r"(%s)$" % ID, before)
                if h and h.group(1) in self.helpers:
                    p = self.fn.place_of(self.helpers[h.group(1)])
                    if p:
                        if goal is None:
                            return var if p[0] == place else f"(goal.at.{self.fn.newname[self.fn.index[place]]} {var}).{p[1]}"
                        return f"(goal.at.{goal} {var}).{p[1]}"
                return var
            if path[0] in ("args", "ranges"):
                if len(path) > 1 and re.fullmatch(r"t\d+", path[1]):
                    params = CLAUSES.get(self.fn.fn, {}).get("params", [])
                    if 0 < int(path[1][1:]) <= len(params):
                        path[1] = params[int(path[1][1:]) - 1]
                return ".".join([var] + path)
            if path[0] in ("requires", "pre"):
                names = CLAUSES.get(self.fn.fn, {}).get("requires", [])
                return ".".join([var, "requires"] + by_name(names, path[1:]))
            new = self.fn.find(place, path)
            if new is None:
                self.left.append(m.group(0))
                return m.group(0)
            return ".".join([var] + new)

        body = re.sub(r"(?<![\w.'-])(%s)((?:\.%s)*)" % ("[A-Za-z][\\w'-]*", ID), one, body)
        callees = {new: callee for (_, _, (_, new), callee, _) in self.fn.places if callee}
        own = CLAUSES.get(self.fn.fn, {})
        for m in re.finditer(r"let (%s) = %s\.([^\s()]+) in" % (ID, re.escape(var)), body):
            alias, path = m.group(1), m.group(2).split(".")
            if path == ["requires"]:
                new = lambda rest: by_name(own.get("requires", []), rest)
            elif path == ["args"]:
                new = lambda rest: [own["params"][int(rest[0][1:]) - 1]] + rest[1:] if rest and re.fullmatch(r"t\d+", rest[0]) and 0 < int(rest[0][1:]) <= len(own.get("params", [])) else rest
            elif len(path) == 1 and path[0] in callees:
                new = lambda rest, callee=callees[path[0]]: step_path(callee, rest)
            elif len(path) == 2 and path[0] in callees and path[1] in ("ensures", "new", "requires", "auto"):
                new = lambda rest, callee=callees[path[0]], head=path[1]: step_path(callee, [head] + rest)[1:]
            else:
                continue
            head, tail = body[:m.end()], body[m.end():]
            tail = re.sub(r"(?<![\w.'-])%s((?:\.%s)+)" % (re.escape(alias), ID), lambda k: ".".join([alias] + new(k.group(1).split(".")[1:])), tail)
            body = head + tail
        return body

    def run(self):
        self.types()
        fn = self.fn
        loops = {norm(o[0]): (o[1], vs, ch) for (o, vs), ch in zip(fn.d["loops"], fn.d["changed"])}
        out = []
        for note, b in self.decls:
            m = re.match(r"((?:abbrev |pub |unfoldable )*)(%s) :\s+(.*?)\n((?:unfolding[^\n]*\n)?)(.*)" % ID, b, re.S)
            if not m:
                out.append("\n".join(note + [b]))
                continue
            mods, name, typ, unf, rest = m.groups()
            if re.search(r"→ statement M|statement M", typ) or name.endswith("_spec"):
                continue
            # the type may go over several lines
            if not re.match(r"\s*%s\b" % re.escape(name), rest):
                k = re.search(r"^%s(?![\w'-])" % re.escape(name), rest, re.M)
                if k:
                    typ, rest = typ + "\n" + rest[:k.start()].rstrip("\n"), rest[k.start():]
                    u = re.search(r"\n(unfolding[^\n]*)$", typ)
                    if u:
                        unf, typ = u.group(1) + "\n", typ[:u.start()]
            t = re.match(r"tie\.(invariant|decreases)-(\S+)", typ)
            if t:
                kind, loop = t.groups()
                e = re.match(r"%s(.*?) =\s*(.*)" % re.escape(name), rest, re.S)
                params, body = e.group(1).split(), e.group(2)
                if norm(loop) not in loops:
                    self.left.append("loop " + loop)
                    out.append("-- left: " + b.replace("\n", "\n-- "))
                    continue
                new, vs, ch = loops[norm(loop)]
                want = [(v, c) for v, c in zip(vs, ch)]
                to = {}
                if len(params) == len(vs) + sum(ch):
                    for p, (v, c) in zip(params, want):
                        to[p] = ("l.initial." if c else "l.") + v
                    for p, v in zip(params[len(vs):], [v for v, c in want if c]):
                        to[p] = "l." + v
                else:
                    self.left.append(f"{kind} of {loop}: {len(params)} names for {vs} {ch}")
                    for p in params:
                        to[p] = "l." + p
                body = re.sub(r"(?<![\w.'₀-])(%s)(?![\w'₀-])" % "|".join(map(re.escape, sorted(to, key=len, reverse=True))), lambda k: to[k.group(1)], body) if to else body
                self.inv.append("\n".join(note + [f"abbrev pub {kind}-{new} : goal.{kind}-{new}"] + ([unf.rstrip()] if unf else []) + [f"{kind}-{new} l = {body}"]))
                continue
            t = re.match(r"tie\.Need-(\S+)", typ)
            if t:
                goal = fn.goals.get(norm(t.group(1)))
                e = re.match(r"%s((?:\s+%s)*?)\s*=(.*)" % (re.escape(name), ID), rest, re.S)
                if not e:
                    out.append("-- left: " + b.replace("\n", "\n-- "))
                    continue
                args, body = e.group(1).split(), e.group(2)
                if body.strip() in ("search rules", "search rules at 100"):
                    continue
                if goal is None:
                    if body.strip() in ("omega arith", "refl"):
                        continue
                    self.left.append("no goal for " + t.group(1))
                    out.append("-- left: " + b.replace("\n", "\n-- "))
                    continue
                body = self.paths(body, args[0] if args else "c", fn.at[goal][0], goal)
                if goal.startswith("returns"):
                    body = as_record(body, CLAUSES.get(fn.fn, {}).get("ensures", []))
                elif "-requires" in goal:
                    callee = [c for c in fn.d["params"] if c.split("::")[-1] == re.sub(r"-.*", "", goal)]
                    if callee:
                        body = as_record(body, CLAUSES.get(callee[0], {}).get("requires", []))
                out.append("\n".join(note + [f"pub {goal} : goal.{goal}"] + ([unf.rstrip()] if unf else []) + [f"{goal} {args[0] if args else 'c'} ={body}"]))
                continue
            h = re.match(r"(\((\w+) : )?(?:tie|lts)\.(%s)((?:\([^()]*\)|[^()→])*)(\)| ?→)" % ID, typ)
            if h and not h.group(3).startswith(("Need-", "invariant-", "decreases-")):
                p = fn.place_of(h.group(3))
                var = h.group(2)
                if not var:
                    e = re.match(r"%s\s+(%s)" % (re.escape(name), ID), rest)
                    var = e.group(1) if e else "c"
                if p:
                    self.places.add(p[1])
                    tail = self.paths(typ[h.end():], var, p[0], None)
                    typ = f"({var} : {p[1]})" + tail if h.group(1) else f"{p[1]} →" + tail
                    rest = self.paths(rest, var, p[0], None)
                else:
                    self.left.append("no place for " + h.group(3))
            out.append("\n".join(note + [f"{mods}{name} : {typ}"] + ([unf.rstrip()] if unf else []) + [rest]))
        return out

    def imports(self, text):
        keep = []
        for u in self.uses:
            m = re.match(r"use (\S+?)\.?\{([^}]*)\}$", u)
            if re.search(r"\.(Statement|Tie|Lts|Reads|Kinds)\b", u) and ".proofs." in u:
                continue
            if not m:
                keep.append(u)
                continue
            names = []
            for n in m.group(2).split(","):
                n = n.strip()
                word = n.split(" as ")[-1].strip()
                if "◌" in word:
                    op = [w for w in word.split("◌") if w]
                    if all(o in text for o in op):
                        names.append(n)
                elif re.search(r"(?<![\w'-])%s(?![\w'-])" % re.escape(word), text):
                    names.append(n)
            if names:
                keep.append(f"use {m.group(1)}.{{{', '.join(names)}}}")
        return keep


def main():
    global CLAUSES
    CLAUSES = clauses()
    data = json.load(open(sys.argv[1]))
    crate = os.path.basename(os.getcwd())
    only = sys.argv[2:]
    for key, d in data.items():
        if not key.endswith(".Lts") or not key.startswith(f"Rattle-{crate}-proofs."):
            continue
        fn = Fn(key, d, crate)
        folder = "proofs/" + fn.folder.replace(".", "/")
        src = folder + "/Proof.antt"
        if only and not any(fn.folder.endswith(o) for o in only):
            continue
        if not os.path.exists(src):
            src = folder + "/Proof.old"
            if not os.path.exists(src):
                continue
        text = open(src).read()
        f = File(fn, text)
        out = f.run()
        head = re.match(r"((?:--[^\n]*\n)+)", text)
        head = head.group(1).rstrip("\n") if head else ""
        out = [o.replace(head + "\n", "", 1) if head and o.startswith(head) else o for o in out]
        f.inv = [o.replace(head + "\n", "", 1) if head and o.startswith(head) else o for o in f.inv]
        head = head.replace("`bytes::", "`octets::").replace(" Assumes nothing.", "").replace("Assumes nothing.", "").rstrip()
        os.rename(src, folder + "/Proof.old")
        made = f"use Rattle.{crate}.proofs.{fn.folder}"
        for path, parts, end in ((folder + "/Invariants.antt", f.inv, ".Given as goal"), (folder + "/Answers.antt", out, ".Goals as goal")):
            if not parts:
                continue
            body = "\n\n".join(p.strip("\n") for p in parts)
            extra = [made + end]
            if f.places and end.startswith(".Goals"):
                extra.append(made + ".Goals.{" + ", ".join(sorted(f.places)) + "}")
            open(path, "w").write("\n".join(([head] if head else []) + f.imports(body) + extra) + "\n\n" + body + "\n")
        for x in f.left:
            print(f"{folder}: left: {x}")
        print(f"{folder}: {len(f.inv)} of loops, {len(out)} answers")


main()
