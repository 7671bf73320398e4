#!/usr/bin/env python3
"""Turns a walk of the older form, proofs/F/Proof.antt over `Tie`, into Invariants.antt and Answers.antt.

usage: tools/answers.py NAMES CRATE     NAMES is the names.json of `rt check --generated DIR --old-names` in the crate's folder
"""

import json
import os
import re
import sys

alike = lambda s: re.sub(r"[-_']", "", s).lower()
COMP = r"[^\s().,;{}\[\]]+"


def chunks(text):
    """The text's parts that begin in the first column, each with the lines that belong to it."""
    out = []
    for line in text.split("\n"):
        if line and not line[0].isspace() and not (out and line[0] in ")}]"):
            out.append([line])
        elif out:
            out[-1].append(line)
    return ["\n".join(c).rstrip() for c in out]


class Decl:
    def __init__(self, name, sig):
        self.name, self.sig, self.unfolding, self.body, self.comment = name, sig, "", [], []
        self.macro = False


def parse(text):
    uses, decls, comment, head = [], [], [], []
    cur = None
    for c in chunks(text):
        if c.startswith("--"):
            comment.append(c)
            continue
        if c.startswith("use ") or c.startswith("open "):
            if comment and not uses:
                head += comment
                comment = []
            uses.append(c)
            continue
        if c.startswith("unfolding"):
            cur.unfolding = c
            continue
        m = re.match(r"((?:pub |abbrev |unfoldable |data |record )*)(" + COMP + r")", c)
        name = m.group(2)
        if cur and name == cur.name and not m.group(1):
            cur.body.append(c)
            continue
        cur = Decl(name, c)
        cur.comment = comment
        comment = []
        decls.append(cur)
    return head, uses, decls


class Names:
    def __init__(self, d):
        self.needs = d["needs"]
        self.asked_at = d["asked_at"]
        self.places = {p[0]: p for p in d["places"]}
        self.new_place = dict(zip([p[0] for p in d["places"]], d["places_by_name"]))
        self.loops, self.changed, self.params = d["loops"], d["changed"], d["params"]
        self.arms = dict(zip([p[0] for p in d["places"]], d["arms"]))

    def place(self, old):
        for k in self.places:
            if alike(k) == alike(old):
                return k
        return None

    def need(self, old):
        """The place and the new name of a need."""
        o = re.sub(r"^slice-bounds-", "part-", old)
        o = re.sub(r"^overflow-(?=(add|sub|mul|shl|shr|cast|neg)\b)", "", o)
        for k, (a, b) in enumerate(self.needs):
            if alike(a) in (alike(o), alike(old)):
                return k, b
        return None


def parameters_of(crate_folder, module):
    """The names of a function's parameters, in their order, from its source."""
    for folder, _, files in os.walk(os.path.join(crate_folder, "src")):
        for f in files:
            with open(os.path.join(folder, f), encoding="utf-8") as it:
                m = re.search(r"\bfn " + re.escape(module.split(".")[-1]) + r"(?:<[^>]*>)?\(([^)]*)\)", it.read())
            if m:
                return [re.sub(r"^(&?'?\w* ?mut |&|mut )*", "", p.split(":")[0].strip()) for p in m.group(1).split(",") if p.strip()]
    return []


class Bad(Exception):
    pass


def turn_text(text, env, names, goal, notes):
    """A term with its chains of places resolved. env: variable -> place."""
    env = dict(env)
    root = next(iter(env.values()), "Start")
    word = re.compile(r"(?<![\w.'₀-₉-])(" + r"[A-Za-z_][\w'₀-₉-]*" + r")((?:\." + COMP + r")*)")

    def resolve(v, path):
        """(place, rest) after the chain of `before`s."""
        place = env[v]
        parts = [p for p in path.split(".") if p]
        while parts and parts[0] == "before":
            parts = parts[1:]
            place = names.places[place][1] or place
        return place, parts

    def parameters(callee, rest):
        """What a call left, by the parameter's name in place of its position."""
        if len(rest) > 1 and rest[0] in ("new", "auto") and callee in names.params and re.fullmatch(r"[01]", rest[1]):
            k, i = 0, 1
            while i < len(rest) and rest[i] == "1":
                k, i = k + 1, i + 1
            if i < len(rest) and rest[i] == "0" and k < len(names.params[callee]):
                return [rest[0], names.params[callee][k]] + rest[i + 1 :]
        return rest

    calls = {}

    def step(place, parts):
        p = names.places[place]
        first = re.sub(r"_lem$", "", parts[0])
        parts = [{"well-formed": "well_formed", "type-inv": "type_inv"}.get(x, x) for x in parts]
        if first == "args" and len(parts) > 1 and re.fullmatch(r"t\d+", parts[1]) and len(names.own) >= int(parts[1][1:]):
            parts[1] = names.own[int(parts[1][1:]) - 1]
        if first in ("args", "requires", "ranges", "lifetimes", "well_formed", "well-formed"):
            if first == "args" and len(parts) > 1:
                parts[1] = parts[1].replace("-", "_")
            return "c." + ".".join(parts)
        # the steps on the way to where the goal is asked, the last first: a step may have come between since
        way = [root]
        while names.places[way[-1]][1]:
            way.append(names.places[way[-1]][1])
        stem = lambda s: re.sub(r"\d+$", "", alike(s))
        if stem(first) != stem(p[2][0]):
            at = [q for q in way if alike(names.places[q][2][0]) == alike(first)]
            if at:
                place, p = at[0], names.places[at[0]]
        first = p[2][0] if stem(first) == stem(p[2][0]) else first
        for q in way:
            arm = names.arms.get(q)
            for field, of, fields in arm[2] if arm else []:
                if alike(of) == alike(first) and fields and parts[1 : 1 + len(fields)] == fields:
                    return "c." + ".".join([arm[0], field] + parts[1 + len(fields) :])
            for field, of, fields in arm[2] if arm else []:
                if alike(of) == alike(first) and not fields:
                    return "c." + ".".join([arm[0], field] + parts[1:])
        if place == "Start":
            return "c." + ".".join(parts)
        first = p[2][0] if stem(first) == stem(p[2][0]) else first
        if alike(first) not in (alike(p[2][0]), alike(p[2][1])):
            notes.append(f"{goal}: {first} is no step of {place} ({p[2]})")
            return "c.FIX-" + ".".join(parts)
        path = "c." + ".".join([p[2][1]] + parameters(p[3], parts[1:]))
        if re.match(r"(if|loop\S*)-not-", p[2][1]) and parts[1:] in (["true"], ["false"]):
            return "NOT " + path
        return path

    steps, arguments, loops = {}, set(), set()
    kept = any("kept" in l[1] for l in names.loops)
    out, pos = [], 0
    let = re.compile(r"let ([A-Za-z_][\w'₀-₉]*) = ([A-Za-z_][\w'₀-₉]*)((?:\." + COMP + r")*) in\s*")
    while pos < len(text):
        m = let.match(text, pos) if text.startswith("let ", pos) and (pos == 0 or not text[pos - 1].isalnum()) else None
        if m and m.group(2) in env:
            place, parts = resolve(m.group(2), m.group(3))
            if not parts:
                env[m.group(1)] = place
                pos = m.end()
                continue
            if parts[0] not in ("args", "requires", "ranges") and any(a and any(alike(of) == alike(re.sub(r"_lem$", "", parts[0])) for _, of, _ in a[2]) for a in names.arms.values()):
                steps[m.group(1)] = (place, parts)
                pos = m.end()
                continue
            if parts[-1] == "args":
                arguments.add(m.group(1))
            if parts[0] == "loop" or parts[0].startswith("loop") and len(parts) == 1:
                loops.add(m.group(1))
            callees = [q[3] for q in names.places.values() if alike(q[2][0]) == alike(re.sub(r"_lem$", "", parts[0])) and q[3]]
            if len(parts) == 1 and callees:
                calls[m.group(1)] = callees[0]
            env.pop(m.group(1), None)
        elif text.startswith("let ", pos):
            n = re.compile(r"let ([A-Za-z_][\w'₀-₉]*)").match(text, pos)
            if n and n.group(1) in env:
                pass
        m = word.match(text, pos)
        if m and (pos == 0 or not re.match(r"[\w.'₀-₉-]", text[pos - 1])):
            v, path = m.group(1), m.group(2)
            if v in env:
                place, parts = resolve(v, path)
                if parts:
                    if kept and len(parts) == 2 and parts[0].startswith("loop") and parts[1] == "auto":
                        parts = [parts[0], "kept"]
                    out.append(step(place, parts))
                elif goal.startswith("helper:"):
                    if goal == "helper:" + place:
                        out.append("c")
                    else:
                        notes.append(f"{goal}: passes {place}")
                        out.append(f"(FIX-{names.new_place[place]})")
                else:
                    out.append(f"(goal.at.{goal} c).{names.new_place[place]}")
            elif v in steps:
                place, parts = steps[v]
                out.append(step(place, parts + [x for x in path.split(".") if x]))
            elif v in arguments and re.match(r"\.t\d+(?!\w)", path) and len(names.own) >= int(re.match(r"\.t(\d+)", path).group(1)):
                n = re.match(r"\.t(\d+)", path)
                out.append(v + "." + names.own[int(n.group(1)) - 1] + path[n.end() :])
            elif v in arguments and "-" in path:
                ps = [x for x in path.split(".") if x]
                out.append(".".join([v, ps[0].replace("-", "_")] + ps[1:]))
            elif v in loops and kept and re.match(r"\.auto(?![\w.])", path):
                out.append(v + ".kept" + path[5:])
            elif v in calls:
                out.append(".".join([v] + parameters(calls[v], [x for x in path.split(".") if x])))
            else:
                out.append(m.group(0))
            pos = m.end()
            continue
        out.append(text[pos])
        pos += 1
    text = re.sub(r"\(?not[-_](?:true|false) \S+ NOT (c\.[^\s(),]+)", lambda m: m.group(1) if not m.group(0).startswith("(") else "(" + m.group(1), "".join(out))
    text = re.sub(r"(?<=\brw )NOT |(?<=\brw \()NOT |(?<=, )NOT (?=c\.[^\s(),]+\)$)", "", text)
    return re.sub(r"NOT (c\.[^\s(),]+)", r"(ap not \1)", text)


def argument(text, at):
    """The end of the argument that begins at a place: a name with its fields, or what stands in parentheses."""
    if text[at] == "(":
        depth = 0
        for k in range(at, len(text)):
            depth += {"(": 1, ")": -1}.get(text[k], 0)
            if depth == 0:
                return k + 1
    m = re.compile(r"[^\s(),;\]]+").match(text, at)
    return m.end()


def joins(text, ctors):
    """A choice over a join of two branches, by the names of its branches."""
    out, pos = [], 0
    while True:
        at = text.find("⊎_elim", pos)
        if at < 0:
            return "".join(out) + text[pos:]
        ends, k = [], at + len("⊎_elim")
        try:
            for _ in range(3):
                while text[k].isspace():
                    k += 1
                e = argument(text, k)
                ends.append((k, e))
                k = e
        except (IndexError, AttributeError):
            ends = []
        m = re.fullmatch(r"c\.(if-\S+)\.branch", text[ends[2][0] : ends[2][1]]) if len(ends) == 3 else None
        if not m:
            out.append(text[pos : at + 6])
            pos = at + 6
            continue
        step = m.group(1)
        made = []
        for (a, b), word, outcome in zip(ends, ("then", "else"), ("true", "false")):
            it = text[a:b]
            f = re.match(r"\(λ (\w+)\. (.*)\)$", it, re.S)
            name = step.replace("if-", word + "-", 1)
            ctors.add(name)
            if f:
                w, body = f.groups()
                body = re.sub(r"(?<![\w.])" + w + r"\.0\.(taken|left)\b", f"{w}.{step}.{outcome}", body)
                body = re.sub(r"omega \(arith, " + w + r"\.1\)", "omega arith", body)
                body = re.sub(r"omega \(arith, " + w + r"\.1, ", "omega (arith, ", body)
                made.append(f"{name} {w} ↦ {joins(body, ctors).strip()}")
            else:
                made.append(f"{name} w ↦ {it} w")
        out.append(text[pos:at] + f"elim c.{step}.branch [ " + " | ".join(made) + " ]")
        pos = ends[2][1]


PATH = r"[^\W\d][\w'₀-₉-]*(?:\." + COMP + ")*"


def expand(text, macros):
    """The text with calls of an abbreviation over a place, or of another answer, written out."""
    for _ in range(12):
        hit = None
        for name, (var, body) in macros.items():
            m = re.search(r"(?<![\w.'₀-₉-])" + re.escape(name) + r"(?![\w'₀-₉:-])\s+(?=[\w(])", text)
            if m and not re.match(r"\s*[:=]", text[m.end() - 1 :]):
                hit = (m, var, body)
                break
        if not hit:
            return text
        m, var, body = hit
        e = argument(text, m.end())
        arg = text[m.end() : e].strip()
        if re.fullmatch(r"\(" + PATH + r"\)", arg):
            arg = arg[1:-1]
        if not re.fullmatch(PATH, arg):
            inner = expand(arg, macros)
            if inner == arg:
                return text
            text = text[: m.end()] + inner + text[e:]
            continue
        it = re.sub(r"(?<![\w.'₀-₉-])" + re.escape(var) + r"(?![\w'₀-₉-])", arg, body)
        inside = m.start() > 0 and text[m.start() - 1] == "(" and text[e : e + 1] == ")"
        it = it if inside or re.fullmatch(PATH, it) else "(" + it + ")"
        text = text[: m.start()] + it + text[e:]
        text = re.sub(r"(?<![\w'₀-₉-])\((" + PATH + r")\)", r"\1", text)
    return text


def used(uses, text):
    """The `use` lines of which the text needs something, with what it needs."""
    words = set(re.findall(r"[^\s(){}.;,\[\]]+", text))
    out = []
    for u in uses:
        m = re.match(r"use (\S+?)\.\{(.*)\}$", u, re.S)
        if m:
            keep = []
            for it in [i.strip() for i in m.group(2).split(",")]:
                name = it.split(" as ")[-1].strip()
                if name == "[]":
                    if "[]" in text:
                        keep.append(it)
                    continue
                ops = [p for p in name.split("◌") if p]
                if name in words or ("◌" in name and ops and all(o in words for o in ops)) or (name == "refl"):
                    if name == "refl" and "refl" not in words:
                        continue
                    keep.append(it)
            if keep:
                out.append(f"use {m.group(1)}.{{{', '.join(keep)}}}")
        else:
            name = u.split(" as ")[-1].strip() if " as " in u else u.split(".")[-1]
            if name in words or re.search(r"(?<![\w.])" + re.escape(name) + r"\.", text):
                out.append(u)
    return out


def turn(crate, folder, module, d):
    path = os.path.join(folder, "Proof.antt")
    with open(path, encoding="utf-8") as f:
        text = f.read()
    head, uses, decls = parse(text)
    names = Names(d)
    names.own = parameters_of(os.path.dirname(os.path.dirname(path)).split("/proofs")[0], module)
    notes = []
    prefix = f"Rattle.{crate}.proofs.{module}"
    uses = [u for u in uses if not re.search(r"\.(Statement\.\{statement\}|Tie as tie)$", u)]
    inv, ans = [], []
    imported = set()
    macros = {}
    for x in decls:
        if len(x.body) != 1 or "statement M" in x.sig:
            continue
        m = re.match(re.escape(x.name) + r"\s+([^\W\d][\w'₀-₉]*)(?: κs)?\s=\s+(.*)$", x.body[0], re.S)
        if not m:
            continue
        over = re.match(r"abbrev .*:\s*(?:\(\w+ : )?tie\.\S+", x.sig)
        cited = re.search(r":\s*tie\.Need-", x.sig) and any(
            y is not x and "tie.spec" not in " ".join(y.body) and re.search(r"(?<![\w.'-])" + re.escape(x.name) + r"(?![\w'-])\s+[\w(]", " ".join(y.body)) for y in decls
        )
        if over or cited:
            macros[x.name] = (m.group(1), m.group(2).strip())
            x.macro = bool(over)
    for x in decls:
        if macros and "statement M" not in x.sig and not x.macro:
            h = re.match(r"(.*?\s=)(\s+.*)$", x.sig, re.S)
            x.sig = expand(x.sig, macros)
            out = []
            for b in x.body:
                k = re.match(r"(.*?\s=)(\s+.*)$", b, re.S)
                out.append(k.group(1) + expand(k.group(2), {a: v for a, v in macros.items() if a != x.name}) if k else b)
            x.body = out
    decls = [x for x in decls if not x.macro]
    over = {}
    for x in decls:
        m = re.match(re.escape(x.name) + r" : \((\w+) : tie\.[A-Za-z]\S*[^)]*\)\s*→\s*(.*)$", x.sig, re.S)
        k = re.match(re.escape(x.name) + r"\s+(\w+)\s=\s+(.*)$", x.body[0], re.S) if len(x.body) == 1 else None
        if m and k and not re.search(r"tie\.Need-", x.sig):
            said = re.sub(r"(?<![\w.'-])" + m.group(1) + r"(?![\w'-])", k.group(1), m.group(2))
            over[x.name] = (k.group(1), f"let it : {said} = {k.group(2).strip()} in it")
    for x in decls:
        if x.name in over:
            others = {a: v for a, v in over.items() if a != x.name}
            var = over[x.name][0]
            for a in list(others):
                # the same place is passed on as it is
                if not re.search(r"(?<![\w.'-])" + re.escape(a) + r"\s+\(?" + var + r"\.", " ".join(x.body)):
                    others.pop(a)
            if others:
                k = re.match(r"(.*?\s=)(\s+.*)$", x.body[0], re.S)
                x.body = [k.group(1) + expand(k.group(2), others)]
    for x in decls:
        m = re.search(r":\s*tie\.(invariant|decreases)-(\S+)$", x.sig)
        if m:
            k = next((i for i, l in enumerate(names.loops) if alike(l[0][0]) == alike(m.group(2))), None)
            if k is None:
                raise Bad(f"no loop {m.group(2)}")
            (old, new), live = names.loops[k]
            changed = names.changed[k]
            b = x.body[0]
            h, body = re.match(r"(.*?)\s=\s+(.*)$", b, re.S).groups() if re.search(r"\s=\s", b) else re.match(r"(.*?)\s=\n(.*)$", b, re.S).groups()
            args = h.split()[1:]
            want = [f"l.initial.{v}" if c else f"l.{v}" for v, c in zip(live, changed)] + [f"l.{v}" for v, c in zip(live, changed) if c]
            if len(args) != len(want):
                raise Bad(f"{m.group(1)}-{m.group(2)}: {len(args)} arguments, {len(want)} wanted: {args} {want}")
            to = dict((a, w) for a, w in zip(args, want) if a != "_")
            body = re.sub(r"(?<![\w.'₀-₉-])([^\W\d][\w'₀-₉-]*)", lambda n: to.get(n.group(1), n.group(1)), body)
            name = f"{m.group(1)}-{new}"
            sep = "\n" if "\n" in body and not b.split("\n")[0].rstrip().endswith("=") is False else " "
            lead = "\n    " if b.split("\n")[0].rstrip().endswith("=") else " "
            inv.append("\n".join(x.comment + [f"abbrev pub {name} : goal.{name}"] + ([x.unfolding] if x.unfolding else []) + [f"{name} l ={lead}{body.strip()}"]))
            continue
        m = re.search(r":\s*tie\.Need-(\S+)", x.sig)
        if m and not re.search(r"→", x.sig):
            found = names.need(m.group(1))
            if not found:
                notes.append(f"no need {m.group(1)}: dropped {x.name}: {' '.join(x.body)[:200]}")
                continue
            k, new = found
            place = names.asked_at[k][0]
            if len(x.body) != 1:
                raise Bad(f"{x.name}: {len(x.body)} clauses")
            h, body = re.match(r"(.*?)\s=(\s+.*)$", x.body[0], re.S).groups()
            args = h.split()[1:]
            env = {args[0]: place} if args and args[0] != "_" else {}
            if body.strip() == "search rules" and not x.unfolding:
                continue
            body = joins(turn_text(body.strip(), env, names, new, notes), imported)
            lead = "\n    " if "\n" in body or len(body) > 100 else " "
            ans.append("\n".join(x.comment + [f"pub {new} : goal.{new}"] + ([x.unfolding] if x.unfolding else []) + [" ".join([new, "c"] + [v for v in args[1:] if v != "κs"]) + f" ={lead}{body}"]))
            continue
        if re.match(r"tie\.close", re.sub(r"^.*?=\s*", "", " ".join(x.body), flags=re.S).strip()) or "statement M" in x.sig:
            continue
        # a lemma of the file's own
        full = x.sig + "\n" + "\n".join(x.body)
        places = re.findall(r"\((\w+) : tie\.([A-Za-z][\w-]*)[^)]*\)", x.sig)
        places = [(v, names.place(p)) for v, p in places]
        if "tie." in full and len(places) != 1:
            notes.append(f"own lemma {x.name} by hand")
        if places and places[0][1]:
            v, p = places[0]
            sig = re.sub(r"\((\w+) : tie\.[A-Za-z][\w-]*[^)]*\)", "@@", x.sig, count=1)
            a, b = sig.split("@@", 1)
            b = turn_text(b, {v: p}, names, "helper:" + p, notes)
            sig = a + f"(c : {names.new_place[p]})" + b
            imported.add(names.new_place[p])
            bodies = []
            for it in x.body:
                h, body = re.match(r"(.*?)\s=(\s+.*)$", it, re.S).groups()
                args = h.split()
                env = {}
                if len(args) > 1:
                    env = {args[1]: p}
                    args[1] = "c"
                body = turn_text(body.strip(), env, names, "helper:" + p, notes)
                bodies.append(" ".join(args) + " =\n    " + body)
            ans.append("\n".join(x.comment + [sig] + ([x.unfolding] if x.unfolding else []) + bodies))
        else:
            ans.append("\n".join(x.comment + [x.sig] + ([x.unfolding] if x.unfolding else []) + x.body))
    bodies = "\n".join(inv)
    for x in decls:
        if re.search(r"tie\.|statement M", x.sig) or not re.search(r"(?<![\w.'-])" + re.escape(x.name) + r"(?![\w'-])", bodies):
            continue
        text_of = "\n".join(x.comment + [x.sig] + ([x.unfolding] if x.unfolding else []) + x.body)
        if text_of in ans:
            ans.remove(text_of)
        sig = x.sig
        if not re.search(r"\bpub\b", sig.split(":")[0]):
            m2 = re.match(r"((?:abbrev |unfoldable )*)(.*)$", sig, re.S)
            sig = m2.group(1) + "pub " + m2.group(2)
        inv.insert(0, "\n".join(x.comment + [sig] + ([x.unfolding] if x.unfolding else []) + x.body))
        uses.append(f"use {prefix}.Invariants.{{{x.name}}}")
        bodies += text_of
    for x in decls:
        m = re.search(r"\((\w+) : tie\.([A-Za-z][\w-]*)[^)]*\)", x.sig)
        if m and names.place(m.group(2)):
            to = names.new_place[names.place(m.group(2))]
            ans = [re.sub(r"(?<![\w.'-])(" + re.escape(x.name) + r" \(goal\.at\.\S+ c\)\.)[^\s(),;{}\[\]]+", lambda n: n.group(1) + to, a) for a in ans]
    real = [a for a in ans if re.search(r"(?m)^pub \S+ : goal\.", a)]
    if not real:
        ans = []
    head_text = "\n".join(head)
    for name, parts, module_name in (("Invariants", inv, "Given"), ("Answers", ans, "Goals")):
        if not parts:
            continue
        body = "\n\n".join(parts)
        if "ap not c." in body:
            uses = uses + ["use mathlib.Core.Path.{ap}"] * (not any(re.search(r"[{ ]ap[,}]", u) for u in uses)) + ["use mathlib.Core.Bool.{not}"] * (not any(re.search(r"[{ ]not[,}]", u) for u in uses))
        lines = ([head_text] if head_text and (name == "Answers" or not ans) else []) + [u for u in used(uses, body) if name == "Answers" or f"{prefix}.Invariants." not in u]
        lines += [f"use {prefix}.Goals.{{{', '.join(sorted(imported))}}}"] if imported and name == "Answers" else []
        lines += [f"use {prefix}.{module_name} as goal", ""]
        with open(os.path.join(folder, name + ".antt"), "w", encoding="utf-8") as f:
            f.write("\n".join(lines) + "\n" + body + "\n")
    os.remove(path)
    if not os.listdir(folder):
        os.rmdir(folder)
    for n in notes:
        print(f"{crate}/{module}: {n}")


def main(names, crate_folder):
    with open(names, encoding="utf-8") as f:
        d = json.load(f)
    crate = os.path.basename(os.path.abspath(crate_folder))
    for key, it in sorted(d.items()):
        m = re.match(r"Rattle-.*?-proofs\.(.*)\.Lts$", key)
        if not m:
            continue
        module = m.group(1)
        folder = os.path.join(crate_folder, "proofs", *module.split("."))
        path = os.path.join(folder, "Proof.antt")
        if not os.path.exists(path):
            continue
        text = open(path, encoding="utf-8").read()
        if "tie.close" not in text:
            print(f"{crate}/{module}: a walk of another form")
            continue
        try:
            turn(crate, folder, module, it)
        except Bad as e:
            print(f"{crate}/{module}: left: {e}")
        except Exception as e:
            print(f"{crate}/{module}: left: {type(e).__name__} {e}")


if __name__ == "__main__":
    main(*sys.argv[1:3])
