#!/usr/bin/env python3
"""Turns each proof that was written for the older walk (proofs/F/Proof.antt over `tie.spec`) into Invariants.antt and
Answers.antt, by the list of old and new names that the check writes.

usage: python3 tools/turn_proofs.py CRATE NAMES     CRATE: the folder above proofs/; NAMES: the names.json of
                                                    `rt check --generated DIR --old-names`
"""
import json
import os
import re
import sys

ID = r"[A-Za-z_\u0370-\u03ff\u2080-\u209c\u2115][\w\u2080-\u209c'-]*"


def plain(s):
    return s.replace("_", "-")


def blocks(text):
    """The declarations of a file: lists of lines, each beginning in column 0 (comments go with what follows)."""
    out, cur = [], []
    name = None
    text = re.sub(r"(?m)^use [^\n{]*\{[^}]*\}", lambda m: " ".join(x.strip() for x in m.group().split("\n")), text)
    for line in text.split("\n"):
        head = line[:1] not in ("", " ", "\t", ")", "]", "}")
        if head:
            word = re.match(r"(?:abbrev |unfoldable |pub )*(" + ID + r")", line)
            new = word.group(1) if word and not line.startswith("--") else None
            isuse = line.startswith("use ") or line.startswith("open ")
            comment = line.startswith("--")
            if isuse:
                if cur:
                    out.append((name, cur))
                cur, name = [line], "use"
                out.append((name, cur))
                cur, name = [], None
                continue
            if comment:
                if cur and name is not None:
                    out.append((name, cur))
                    cur = []
                name = None
                cur.append(line)
                continue
            if line.startswith("unfolding") or (name is not None and new == name):
                cur.append(line)
                continue
            if cur and name is not None:
                out.append((name, cur))
                cur = []
            name = new
            cur.append(line)
        else:
            cur.append(line)
    if cur:
        out.append((name, cur))
    res = []
    for n, ls in out:
        while ls and not ls[-1].strip():
            ls = ls[:-1]
        while ls and not ls[0].strip():
            ls = ls[1:]
        if ls:
            res.append((n, ls))
    return res


class Names:
    def __init__(self, of):
        self.needs = of["needs"]
        self.loops = of["loops"]
        self.changed = of["changed"]
        self.asked = of.get("asked") or {}
        self.asked_at = of["asked_at"]
        self.pre = (of.get("pre") or {}).get("fields")
        self.places = {}
        self.order = []
        for i, p in enumerate(of["places"]):
            self.places[p[0]] = dict(parent=p[1], step=p[2], callee=p[3], clauses=of["clauses"][i], i=i, arm=(of.get("arms") or [None] * len(of["places"]))[i])
        self.args = dict()
        for a, b in of.get("args") or []:
            if a.startswith(".args "):
                self.args[a.split(".")[-1].strip()] = b.split(".")[-1].strip()
        self.params = of.get("params") or {}
        self.stem = of.get("stem")

    def arms(self, place):
        out = {}
        while place:
            p = self.places.get(place)
            if not p:
                break
            if p["arm"]:
                for field, step, path in p["arm"][2]:
                    if path:
                        out.setdefault((plain(step),) + tuple(path), [p["arm"][0], field])
            place = p["parent"]
        return out

    def steps(self, place):
        out = {}
        while place:
            p = self.places.get(place)
            if not p:
                break
            if p["step"][0]:
                out.setdefault(plain(p["step"][0]), (p["step"][1], p))
            place = p["parent"]
        return out


CRATES = None
LENT = {}


def lent_by(callee):
    """The parameters of a function that it may change."""
    if callee not in LENT:
        parts = callee.split("::")
        found = []
        for d, _, fs in os.walk(os.path.join(CRATES, parts[0], "src")):
            for f in fs:
                text = open(os.path.join(d, f), encoding="utf-8").read()
                for m in re.finditer(r"\bfn " + re.escape(parts[-1]) + r"(?:<[^(]*>)?\(", text):
                    depth, k = 1, m.end()
                    while depth:
                        depth += text[k] in "([{"
                        depth -= text[k] in ")]}"
                        k += 1
                    sig = text[m.end():k - 1]
                    got = ["self"] if re.search(r"&(?:'\w+ )?mut self", sig) else []
                    got += re.findall(r"(\w+)\s*:\s*&(?:'\w+ )?mut\b", sig)
                    if got:
                        found = got
        LENT[callee] = found
    return LENT[callee]


def clause(fields, segs):
    """The clause that a path of numbers reaches, in pairs nested to the right, and how many of them it took."""
    j, k = 0, 0
    while k < len(segs) and segs[k].isdigit():
        d = int(segs[k])
        k += 1
        if d > 1 and k == 1 and d < len(fields):
            return fields[d], 1
        if d == 0:
            return fields[j], k
        j += 1
        if j == len(fields) - 1:
            return fields[j], k
    if 0 < j < len(fields):
        return fields[j], k
    return None, 0


def convert(segs, n, steps, params):
    """A path of field names below c, old to new."""
    out = []
    i = 0
    while segs and segs[0] == "before":
        segs = segs[1:]
    if segs and segs[0] not in ("args", "requires", "ranges"):
        segs = [x for k, x in enumerate(segs) if x != "before" or k and segs[k - 1] == "args"]
    if "args" in segs[1:2] and segs[0] == "before":
        segs = segs[1:]
    arms = steps.get("") or {}
    if segs:
        key = tuple([plain(segs[0])] + segs[1:])
        for k in range(len(key), 1, -1):
            if key[:k] in arms:
                return arms[key[:k]] + segs[k:]
    while i < len(segs):
        s = segs[i]
        if i == 0:
            k = plain(s)
            if k not in steps and k.endswith("-lem"):
                k = k[:-4]
            if k not in steps and k == "well-formed":
                out.append("well_formed")
                i += 1
                continue
            if k not in steps:
                k = next((x for x in steps if x.lower() == k.lower()), k)
            if k in steps:
                new, p = steps[k]
                out.append(new)
                if i + 1 < len(segs) and segs[i + 1] in ("taken", "left") and new.startswith(("if-", "loop")):
                    out.append({"taken": "true", "left": "false"}[segs[i + 1]])
                    i += 2
                    continue
                cl = p["clauses"]
                if cl and i + 2 < len(segs) and segs[i + 1] == "ensures" and segs[i + 2].isdigit():
                    name, took = clause(cl["fields"], segs[i + 2:])
                    if name:
                        out += ["ensures", name]
                        i += 2 + took
                        continue
                if p["callee"] and i + 2 < len(segs) and segs[i + 1] in ("new", "auto") and segs[i + 2].isdigit():
                    lent = n.params.get(p["callee"]) or lent_by(p["callee"])
                    j, k2 = 0, i + 2
                    while k2 < len(segs) and segs[k2] == "1":
                        j, k2 = j + 1, k2 + 1
                    if k2 < len(segs) and segs[k2] == "0":
                        k2 += 1
                    if j < len(lent):
                        out += [segs[i + 1], lent[j]]
                        i = k2
                        continue
                i += 1
                continue
            if s == "args" and i + 1 < len(segs):
                a = segs[i + 1]
                b = n.args.get(a) or next((q for q in params if plain(q) == plain(a)), a)
                out += ["args", b]
                i += 2
                continue
            if s == "requires" and n.pre and i + 1 < len(segs) and segs[i + 1].isdigit():
                name, took = clause(n.pre, segs[i + 1:])
                if name:
                    out += ["requires", name]
                    i += 1 + took
                    continue
        out.append(s)
        i += 1
    return out


PATH = re.compile(r"(?<![\w.'◌-])(" + ID + r")((?:\.(?:" + ID + r"|\d+))*)(?![\w'-])")
LET = re.compile(r"let (" + ID + r") = (" + ID + r")((?:\.(?:" + ID + r"|\d+))*) in\b")


def of_a_call(step, steps):
    """Whether a test is `if !f(..)`: it now says of the answer itself what it said of its negation; of a field it does not."""
    m = re.fullmatch(r"if-not-(.*?)(?:-\d+|-in-.*|-then-.*|-else-.*)?", step)
    return bool(m) and any(v[1]["callee"] and v[1]["callee"].split("::")[-1] == m.group(1) for k, v in steps.items() if k)


def rewrite(body, n, steps, params, goals):
    env = {"c": []}
    known = set(goals)
    # aliases in order
    for m in LET.finditer(body):
        v, root, rest = m.group(1), m.group(2), m.group(3)
        if root in env:
            env[v] = env[root] + [x for x in rest.split(".") if x]
    for m in re.finditer(r"let (" + ID + r") = rw [^;=]*? at (" + ID + r")((?:\.(?:" + ID + r"|\d+))*) in\b", body):
        if m.group(2) in env and m.group(1) not in env:
            env[m.group(1)] = env[m.group(2)] + [x for x in m.group(3).split(".") if x]
    def one(m):
        root, rest = m.group(1), m.group(2)
        segs = [x for x in rest.split(".") if x]
        if root not in env:
            return m.group()
        base = convert(env[root], n, steps, params)
        full = convert(env[root] + segs, n, steps, params)
        new = full[len(base):]
        return root + "".join("." + x for x in new)
    lines = []
    text = PATH.sub(one, body)
    # an `if !x` now says of x itself what it said of its negation
    ATOM = r"(?:" + ID + r"(?:\.(?:" + ID + r"|\d+))*|\((?:[^()]|\([^()]*\))*\)|_)"
    def plainly(m):
        h = m.group(2).strip("()")
        p = PATH.fullmatch(h)
        if not p or p.group(1) not in env:
            return m.group()
        segs = env[p.group(1)] + [x for x in p.group(2).split(".") if x]
        full = convert(env[p.group(1)], n, steps, params) + [x for x in p.group(2).split(".") if x]
        return h if full and of_a_call(full[0], steps) else m.group()
    text = re.sub(r"(?<![\w'-])not-(?:true|false)\s+(" + ATOM + r")\s+(" + ATOM + r")", lambda m: "«" + plainly(m) + "»" if plainly(m) != m.group() else m.group(), text)
    def negated(m):
        if m.group(1) not in env:
            return m.group()
        full = convert(env[m.group(1)], n, steps, params) + [x for x in m.group(2).split(".") if x]
        if len(full) == 2 and of_a_call(full[0], steps) and full[1] in ("true", "false"):
            return f"(ap not {m.group()})"
        return m.group()
    text = "".join(p if k % 2 else PATH.sub(negated, p) for k, p in enumerate(re.split("[«»]", text)))
    text = re.sub(r"\((" + ID + r"(?:\.(?:" + ID + r"|\d+))+)\)", r"\1", text)
    # goals that are cited by their old names
    def cited(m):
        return goals.get(m.group(), m.group())
    return text


OPEN, CLOSE = "([{", ")]}"


def parts_of(text):
    """The parts of `(a, b, ..)` where that is the whole text, else None."""
    t = text.strip()
    if not t.startswith("("):
        return None
    depth, parts, cur = 0, [], ""
    for k, ch in enumerate(t):
        if ch in OPEN:
            depth += 1
            if depth == 1:
                continue
        if ch in CLOSE:
            depth -= 1
            if depth == 0:
                if t[k + 1:].strip():
                    return None
                break
        if ch == "," and depth == 1:
            parts.append(cur)
            cur = ""
            continue
        cur += ch
    if cur.strip():
        parts.append(cur)
    return [x.strip() for x in parts]


def clauses_at(path, rest, n):
    """The clause names of what a path of the new names leads to."""
    parts = path.split(".")
    seen = 0
    while parts and parts[0] != "c" and seen < 9:
        m = re.search(r"let " + re.escape(parts[0]) + r" = ([^ ]+) in\b", rest)
        if not m or not re.fullmatch(ID + r"(?:\.(?:" + ID + r"|\d+))*", m.group(1)):
            return None
        parts = m.group(1).split(".") + parts[1:]
        seen += 1
    if parts[:2] == ["c", "requires"] and len(parts) == 2:
        return n.pre
    if len(parts) == 3 and parts[0] == "c" and parts[2] == "ensures":
        for p in n.places.values():
            if p["step"][1] == parts[1] and p["clauses"]:
                return p["clauses"]["fields"]
    return None


def as_record(rest, fields, n):
    """The clauses of an answer that stood as a tuple, by their names."""
    at, depth = 0, 0
    for m in re.finditer(r"[(\[{)\]}]|\bin\b(?![\w'-])", rest):
        if m.group() in OPEN:
            depth += 1
        elif m.group() in CLOSE:
            depth -= 1
        elif depth == 0:
            at = m.end()
    tail = rest[at:]
    parts = parts_of(tail)
    while parts and 1 < len(parts) < len(fields) and parts_of(parts[-1]) and len(parts_of(parts[-1])) > 1:
        parts = parts[:-1] + parts_of(parts[-1])
    if parts and len(parts) == len(fields):
        inside = ";\n        ".join(f"{f} = {x}" for f, x in zip(fields, parts))
        return rest[:at] + "\n    record {\n        " + inside + "\n    }"
    if re.match(r"\s*(search|omega|record|\?)", tail):
        return rest
    t = tail.strip()
    end = re.search(r"(?<![\w.'-])(" + ID + r"(?:\.(?:" + ID + r"|\d+))*)$", t)
    if end:
        own = clauses_at(end.group(1), rest, n)
        if own and len(own) == len(fields) and (end.start() == 0 or t.startswith("rw ")):
            inside = ";\n        ".join(f"{f} = {t}.{o}" for f, o in zip(fields, own))
            return rest[:at] + "\n    record {\n        " + inside + "\n    }"
    if t.startswith("rw ") and t.endswith(")"):
        depth, k = 0, len(t)
        while k > 0:
            k -= 1
            depth += t[k] in CLOSE
            depth -= t[k] in OPEN
            if depth == 0:
                break
        parts = parts_of(t[k:])
        while parts and 1 < len(parts) < len(fields) and parts_of(parts[-1]) and len(parts_of(parts[-1])) > 1:
            parts = parts[:-1] + parts_of(parts[-1])
        if parts and len(parts) == len(fields):
            inside = ";\n        ".join(f"{f} = {t[:k]}({x})" for f, x in zip(fields, parts))
            return rest[:at] + "\n    record {\n        " + inside + "\n    }"
    path = lambda i: ".1" * i + ("" if i == len(fields) - 1 else ".0")
    inside = "; ".join(f"{f} = both{path(i)}" for i, f in enumerate(fields))
    return rest[:at] + "\n    let both = " + tail.strip() + " in\n    record { " + inside + " }"


def uses_in(uses, text):
    out = []
    for line in uses:
        m = re.match(r"use (\S+?)\.\{(.*)\}\s*$", line)
        if m:
            keep = []
            for item in [x.strip() for x in m.group(2).split(",") if x.strip()]:
                name = item.split(" as ")[-1].strip()
                if "◌" in name:
                    ok = all(part in text for part in name.split("◌") if part)
                else:
                    ok = re.search(r"(?<![\w'-])" + re.escape(name) + r"(?![\w'-])", text) is not None
                if ok:
                    keep.append(item)
            if keep:
                out.append(f"use {m.group(1)}.{{{', '.join(keep)}}}")
            continue
        m = re.match(r"use (\S+) as (\S+)\s*$", line)
        if m:
            if re.search(r"(?<![\w'-])" + re.escape(m.group(2)) + r"\.", text):
                out.append(line)
            continue
        out.append(line)
    return out


def params_of(src):
    return set(re.findall(r"(\w+)\s*:(?!:)", src)) | set(re.findall(r"\b\w+\b", src))


def turn(folder, of, path, crate, params):
    proof = os.path.join(folder, "Proof.antt")
    if not os.path.exists(proof):
        proof += ".old"
    text = open(proof, encoding="utf-8").read()
    if "tie.close" not in text:
        return "by hand"
    n = Names(of)
    bl = blocks(text)
    uses = [l for name, ls in bl if name == "use" for l in [" ".join(x.strip() for x in ls)]]
    uses = [l for l in uses if not re.search(r"\.(Statement|Tie|Lts)\b|\.proofs\..*\.Reads\b", l)]
    spec = next((ls for name, ls in bl if any("tie.close" in l for l in ls)), None)
    m = re.search(r"tie\.spec\b([^)]*)\)", "\n".join(spec))
    order = m.group(1).split() if m else []
    goals, invs, helpers = {}, [], []
    decls = {}
    sig_of = {}
    for name, ls in bl:
        if name == "use" or ls is spec:
            continue
        sig = "\n".join(ls)
        g = re.search(r"(?m)^(?:abbrev |pub )*" + re.escape(name or "?") + r" : tie\.(\S+)", sig) if name else None
        if g and g.group(1).startswith(("invariant-", "decreases-")):
            invs.append((name, ls))
        elif g and g.group(1).startswith("Need-"):
            decls[name] = ls
            sig_of[name] = g.group(1)
        else:
            helpers.append(ls)
    inv_names = [nm for nm, _ in invs]
    args = [a for a in order if a not in inv_names]
    note = []
    if len(args) != len(n.needs):
        pass
    pair = {}
    used = set()
    byname = {}
    for k, (old, new) in enumerate(n.needs):
        byname.setdefault(plain(old), k)
    if len(args) == len(n.needs):
        for k, a in enumerate(args):
            pair[a] = k
    else:
        for a in args:
            key = plain(sig_of.get(a, "")[5:])
            key2 = re.sub(r"^overflow-", "", key)
            for k, (old, new) in enumerate(n.needs):
                byname.setdefault(plain(new), k)
            for kk in (key, key2):
                if kk in byname:
                    pair[a] = byname[kk]
                    break
            else:
                settled = {plain(x) for x in of.get("settled") or []}
                gone = key.startswith(("same-length", "part-")) or "slice-aggregate" in key or key.startswith("enum-") or any(x in settled for x in (key, "overflow-step-" + key2.split("-")[-1]))
                if not gone:
                    note.append("no name for " + a)
    goalmap = {a: n.needs[k][1] for a, k in pair.items()}
    fn = path
    answers = []
    trivial = []
    for a in args:
        if a not in decls or a not in pair:
            continue
        k = pair[a]
        new = n.needs[k][1]
        ls = decls[a]
        body = []
        for l in ls:
            if l.startswith("--"):
                body.append(l)
                continue
            if re.match(r"(?:pub )?" + re.escape(a) + r" :", l):
                body.append(f"pub {new} : goal.{new}")
                insig = True
                continue
            mm = re.match(re.escape(a) + r"((?: \S+)*?) =(.*)$", l)
            if mm:
                body.append(f"{new} c ={mm.group(2)}")
                continue
            body.append(l)
        place = n.asked_at[k][0] if k < len(n.asked_at) else None
        steps = n.steps(place) if place in n.places else {}
        arms = n.arms(place) if place in n.places else {}
        if not steps:
            for p in n.places:
                for kk, v in n.steps(p).items():
                    steps.setdefault(kk, v)
                for kk, v in n.arms(p).items():
                    arms.setdefault(kk, v)
        steps[""] = arms
        t = "\n".join(body)
        head, sep, rest = t.partition(" c =")
        t2 = rewrite(rest, n, steps, params, goalmap)
        fields = n.asked.get(n.needs[k][0])
        if fields and len(fields) > 1:
            t2 = as_record(t2, fields, n)
        whole = head + sep + t2
        if re.fullmatch(r"\s*search rules\s*", t2) and "unfolding" not in head and "--" not in head:
            trivial.append(whole)
            continue
        answers.append((new, whole, fields))
    # invariants
    inv_text = []
    loops = n.loops
    li = 0
    for nm, ls in invs:
        kind = "invariant" if nm.startswith("invariant") else "decreases"
        old = nm.split("-", 1)[1] if "-" in nm else "loop"
        idx = next((i for i, ((o, w), vs) in enumerate(loops) if plain(o) == plain(old)), None)
        if idx is None:
            note.append("no loop for " + nm)
            continue
        (o, w), vs = loops[idx]
        ch = n.changed[idx]
        out = []
        names = None
        for l in ls:
            if re.match(r"abbrev " + re.escape(nm) + r" :", l):
                out.append(f"abbrev pub {kind}-{w} : goal.{kind}-{w}")
                continue
            mm = re.match(re.escape(nm) + r"((?: \S+)*) =(.*)$", l)
            if mm:
                names = mm.group(1).split()
                out.append((f"{kind}-{w} l =", mm.group(2)))
                continue
            out.append(l)
        if names is None:
            note.append("no parameters in " + nm)
            continue
        sub = {}
        want = []
        for v, c in zip(vs, ch):
            want.append((v, None) if not c else (v, "old"))
        cur = [v for v, c in zip(vs, ch) if c]
        # parameters: each variable as it came, then those that change
        olds = list(vs)
        if len(names) == len(vs) + len(cur):
            for p, (v, c) in zip(names, zip(vs, ch)):
                sub[p] = f"l.initial.{v}" if c else f"l.{v}"
            for p, v in zip(names[len(vs):], cur):
                sub[p] = f"l.{v}"
        else:
            note.append(f"{nm}: {names} for {vs} {ch}")
            for p in names:
                base = p.rstrip("₀")
                sub[p] = f"l.initial.{base}" if p.endswith("₀") else f"l.{base}"
        def put(s):
            # a name that a λ or a `(x : T) →` binds is its own to the end of the group
            bound = []
            for m in re.finditer(r"λ ([^.\n]*?)\.|\(((?:" + ID + r" )*" + ID + r") :", s):
                if m.group(1) is not None:
                    names_ = re.findall(ID, re.sub(r":[^)]*", "", m.group(1)))
                    start = m.start()
                    depth, k = 0, m.end()
                else:
                    names_ = m.group(2).split()
                    k, depth = m.start() + 1, 1
                    while k < len(s) and depth:
                        depth += s[k] in OPEN
                        depth -= s[k] in CLOSE
                        k += 1
                    if not re.match(r"\s*(→|\(|×)", s[k:]):
                        continue
                    start, depth = m.start(), 0
                while k < len(s):
                    depth += s[k] in OPEN
                    depth -= s[k] in CLOSE
                    if depth < 0 or (depth == 0 and m.group(1) is not None and s[k] == ","):
                        break
                    k += 1
                for x in names_:
                    bound.append((x, start, k))
            def one(m):
                x = m.group(1)
                if any(x == b and a <= m.start() < e for b, a, e in bound):
                    return x
                return sub.get(x, x)
            return re.sub(r"(?<![\w.'-])(" + ID + r")(?![\w'-])", one, s)
        res = []
        for k, l in enumerate(out):
            if isinstance(l, tuple):
                res.append(l[0] + put("\n".join([l[1]] + out[k + 1:])))
                break
            res.append(l)
        inv_text.append("\n".join(res))
    mod = f"Rattle.{crate}.proofs.{path}"
    if inv_text:
        t = "\n\n".join(inv_text)
        hs = "\n\n".join("\n".join(h) for h in helpers)
        need = [h for h in helpers if re.search(r"(?<![\w'-])" + re.escape(re.match(r"(?:abbrev |unfoldable |pub )*(" + ID + ")", next((x for x in h if not x.startswith('--')), 'x')).group(1)) + r"(?![\w'-])", t)]
        u = uses_in(uses, t + "\n" + "\n".join("\n".join(h) for h in need))
        u.append(f"use {mod}.Given as goal")
        hd = "".join("\n".join(h) + "\n\n" for h in need)
        with open(os.path.join(folder, "Invariants.antt"), "w", encoding="utf-8") as f:
            f.write("\n".join(u) + "\n\n" + hd + t + "\n")
    else:
        need = []
    parts = ["\n".join(h) for h in helpers if h not in need]
    parts += [a[1] for a in answers]
    if answers:
        t = "\n\n".join(parts)
        u = uses_in(uses, t)
        if "(ap not " in t:
            for m2, w2 in (("mathlib.Core.Path", "ap"), ("mathlib.Core.Bool", "not")):
                if not any(re.search(r"[{, ]" + w2 + r"[,}]", x) for x in u):
                    u.append(f"use {m2}.{{{w2}}}")
        u.append(f"use {mod}.Goals as goal")
        with open(os.path.join(folder, "Answers.antt"), "w", encoding="utf-8") as f:
            f.write("\n".join(u) + "\n\n" + t + "\n")
    os.remove(proof)
    return "; ".join(note)


def main():
    global CRATES
    crate, names = sys.argv[1].rstrip("/"), sys.argv[2]
    CRATES = os.path.dirname(os.path.abspath(crate))
    lists = json.load(open(names, encoding="utf-8"))
    src = ""
    for d, _, fs in os.walk(os.path.join(crate, "src")):
        for f in fs:
            src += open(os.path.join(d, f), encoding="utf-8").read()
    params = params_of(src)
    name = os.path.basename(crate)
    for key, of in lists.items():
        if not key.endswith(".Lts"):
            continue
        path = key.split("proofs.", 1)[1][: -len(".Lts")]
        folder = os.path.join(crate, "proofs", *path.split("."))
        if not any(os.path.exists(os.path.join(folder, f)) for f in ("Proof.antt", "Proof.antt.old")):
            continue
        said = turn(folder, of, path, name, params)
        if said:
            print(f"{path}: {said}")


if __name__ == "__main__":
    main()
