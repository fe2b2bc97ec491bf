#!/usr/bin/env python3
"""Turns hand walked proofs into invariants and answers.

usage: turn_proofs.py NAMES CRATE [PATH..]

NAMES is the names.json that `rt check --generated DIR --old-names` writes for the crate in the folder CRATE. For each Proof.antt below
CRATE/proofs (or of the functions PATH, as layout/field) it writes Invariants.antt and Answers.antt beside it, where there is something to
write, and removes it. An answer that only searches goes: the check tries that itself.
"""
import json, os, re, sys, glob

IDENT = r"[^\s(){}.;,@\"«»\[\]\\]+"

def plain(s):
    return re.sub(r"-+", "-", s.replace("_", "-"))

def loose(s):
    s = re.sub(r"[^a-z0-9]", "", s.lower())
    s = re.sub(r"lem(?=\d*$)", "", s)
    return re.sub(r"^isis", "is", s)

def split_decls(text):
    """header uses, and declarations as (comment, name, sig, lines)"""
    lines = text.split("\n")
    uses, comments, decls, cur = [], [], [], None
    head = []
    i = 0
    pend = []
    while i < len(lines):
        l = lines[i]
        if l.startswith("use "):
            u = l
            while u.count("{") > u.count("}"):
                i += 1
                u += "\n" + lines[i]
            uses.append(u)
            if pend and not uses[:-1]:
                head = pend; pend = []
        elif l.startswith("--"):
            if cur and cur["lines"] and lines[i-1].strip() != "":
                cur["lines"].append(l)
            else:
                pend.append(l)
        elif l.strip() == "":
            if cur: cur["lines"].append("")
        elif l[0] in " \t)":
            cur["lines"].append(l)
        else:
            m = re.match(r"(?:(abbrev|unfoldable|private|opaque) )?(pub )?(?:record |data )?(" + IDENT + r")(.*)$", l)
            name = m.group(3)
            if l.startswith("module _"):
                cur = {"name": "module _ " + str(len(decls)), "lines": [l], "comment": pend, "sig": None}
                pend = []
                decls.append(cur)
            elif l.startswith("unfolding"):
                cur["lines"].append(l)
            elif cur and name == cur["name"]:
                cur["lines"].append(l)
            else:
                cur = {"name": name, "lines": [l], "comment": pend, "sig": None}
                pend = []
                decls.append(cur)
        i += 1
    for d in decls:
        while d["lines"] and d["lines"][-1] == "": d["lines"].pop()
        d["text"] = "\n".join(d["lines"])
    if not uses: head = head or []
    return head, uses, decls

class Fn:
    def __init__(self, info, params_mut):
        self.info = info
        self.args = {}
        for a, b in info["args"]:
            if a.startswith(".args ."):
                self.args[a.split(" .")[1]] = b.split(" .")[1]
        self.argval = {}
        self.needs = {plain(a): b for a, b in info["needs"]}
        self.goals = {b for a, b in info["needs"]}
        self.by_new = {plain(b): b for a, b in info["needs"]}
        self.places = {}
        self.field = {}
        self.kind = {}
        names = info["places_by_name"]
        for k, (old, parent, (of, nf), callee, more) in enumerate(info["places"]):
            self.places[plain(old)] = names[k]
            if of:
                self.field.setdefault(plain(of), nf)
                self.kind.setdefault(nf, []).append(k)
        self.loose = {}
        for k, v in self.field.items(): self.loose.setdefault(loose(k), v)
        self.arms = {}
        for arm in info["arms"]:
            if arm:
                for name, old, way in arm[2]:
                    if way: self.arms[(plain(old), tuple(way))] = arm[0] + "." + name
        self.clauses = info["clauses"]
        self.info_places = info["places"]
        self.params = info["params"]
        self.mut = params_mut
        self.pre = (info.get("pre") or {}).get("fields") or []
        self.asked = info["asked"]
        self.loops = {}
        for (old, new), vs in info["loops"]:
            self.loops[plain(old)] = (new, vs)
        self.changed = {}
        for ((old, new), vs), ch in zip(info["loops"], info["changed"]):
            self.changed[new] = ch
        self.used_places = set()
        self.notes = []
        self.same = []

    def ensured(self, ks):
        for k in ks:
            cl = self.clauses[k]
            if cl and cl.get("fields"): return cl["fields"]
        return []

    def fields_of(self, old, new):
        for k, v in self.asked.items():
            if k == new or plain(k) == old: return v
        if new.startswith("returns"): return self.asked.get("returns")
        return None

    def clause_name(self, fields, nums):
        """numbers as in .1.1.0 for n clauses"""
        n = len(fields)
        k = 0
        i = 0
        while i < len(nums):
            if nums[i] == "0":
                return fields[k] if k < n else None, nums[i+1:]
            if nums[i] == "1":
                k += 1
                i += 1
                if k == n - 1:
                    return fields[k], nums[i:]
                continue
            return None, nums
        return None, nums

def nums_of(segs):
    out = []
    for s in segs:
        if s in ("0", "1"): out.append(s)
        else: break
    return out

def named(fn, fields, segs):
    """numbers as names of clauses; what is left of the clauses is marked"""
    if not segs or not fields: return segs
    if len(fields) == 1:
        return segs if segs[0] == fields[0] else [fields[0]] + segs
    k, i = 0, 0
    while i < len(segs) and segs[i] == "1" and k < len(fields) - 1:
        k += 1; i += 1
    if k == len(fields) - 1: return [fields[k]] + segs[i:]
    if i < len(segs) and segs[i] == "0": return [fields[k]] + segs[i + 1:]
    if i == len(segs) and i > 0: return ["«" + ",".join(fields[k:]) + "»"]
    return segs

def conv_after(fn, kind, segs):
    """segs after a thing of a kind; returns (new segs, kind of the whole)"""
    if not segs: return [], kind
    if kind == "args":
        s = fn.args.get(segs[0], segs[0]).replace("-", "_")
        segs = [segs[0]] + ["ref_ptr" if x == "ptr" else "ghost_name" if x == "name" else x for x in segs[1:]]
        return [s] + segs[1:], None
    if kind == "requires":
        return named(fn, fn.pre, segs), None
    if isinstance(kind, tuple) and kind[0] == "field":
        ks = kind[1]
        s0 = segs[0]
        if s0 == "ensures":
            fs = fn.ensured(ks)
            if len(segs) == 1: return segs, ("ens", ks)
            return ["ensures"] + named(fn, fs, segs[1:]), None
        if s0 in ("auto", "new", "last"):
            s0 = "new" if s0 == "last" else s0
            k = 0
            while 1 + k < len(segs) and segs[1 + k] == "1": k += 1
            if 1 + k < len(segs) and segs[1 + k] == "0":
                for it in ks:
                    ps = fn.params.get(fn.info_places[it][3]) or []
                    if k < len(ps):
                        name = ps[k] if s0 == "new" or k or ps[k] in fn.mut.get(fn.info_places[it][3], [ps[k]]) else fn.mut[fn.info_places[it][3]][0]
                        return [s0, name] + segs[2 + k:], None
            return segs, None
        return segs, None
    if isinstance(kind, tuple) and kind[0] == "ens":
        return named(fn, fn.ensured(kind[1]), segs), None
    return segs, None

ROOT = "c"
BASE = ("args", "requires", "ranges", "well_formed", "lifetimes", "auto", "type_inv", "type-inv", "typed", "utf8")

def conv_path(fn, env, root, segs):
    """returns new path text and kind"""
    kind = env.get(root)
    if kind == "place":
        n = 0
        while n < len(segs) and segs[n] == "before": n += 1
        rest = segs[n:]
        if not rest:
            return ROOT, "place"
        s0 = rest[0]
        if s0 == "args":
            t, k = conv_after(fn, "args", rest[1:])
            return ROOT + ".args" + "".join("." + s for s in t), ("args" if not rest[1:] else None)
        if s0 in ("requires", "pre"):
            t, k = conv_after(fn, "requires", rest[1:])
            return ROOT + ".requires" + "".join("." + s for s in t), ("requires" if not rest[1:] else None)

        s0 = {"well-formed": "well_formed", "type-inv": "type_inv"}.get(s0, s0)
        rest[0] = s0
        if s0 in BASE:
            return ROOT + "".join("." + s for s in rest), None
        nf = fn.field.get(plain(s0))
        for n in (3, 2):
            way = fn.arms.get((plain(s0), tuple(rest[1:n + 1]))) if len(rest) > n else None
            if way is None and len(rest) == n + 1: way = fn.arms.get((plain(s0), tuple(rest[1:])))
            if way:
                return ROOT + "." + way + "".join("." + s for s in rest[n + 1:]), None
        if rest[1:] == ["given"]:
            for (old, way), name in fn.arms.items():
                if old == plain(s0) and way[0] == "given": return ROOT + "." + name.split(".")[0], ("arm", plain(s0))
        if len(rest) > 1 and rest[1] in ("given",):
            for n in range(len(rest), 1, -1):
                way = fn.arms.get((plain(s0), tuple(rest[1:n])))
                if way: return ROOT + "." + way + "".join("." + s for s in rest[n:]), None
        if nf is None: nf = fn.loose.get(loose(s0))
        if nf is None: nf = fn.field.get(re.sub(r"\d+$", "", plain(s0)))
        if nf is None:
            fn.notes.append(f"field {s0}")
            return root + "".join("." + s for s in segs), None
        t, k = conv_after(fn, ("field", fn.kind[nf]), rest[1:])
        return ROOT + "." + nf + "".join("." + s for s in t), (k if rest[1:] else ("field", fn.kind[nf]))
    if isinstance(kind, tuple) and kind[0] == "arm":
        for n in range(len(segs), 0, -1):
            way = fn.arms.get((kind[1], ("given",) + tuple(segs[:n])))
            if way: return ROOT + "." + way + "".join("." + s for s in segs[n:]), None
        return root + "".join("." + s for s in segs), None
    if kind is not None:
        t, k = conv_after(fn, kind, segs)
        return root + "".join("." + s for s in t), k
    # an unknown root that begins with before
    if segs and segs[0] == "before":
        e2 = dict(env); e2[root] = "place"
        return conv_path(fn, e2, root, segs)
    return root + "".join("." + s for s in segs), None

PATH = re.compile(r"--[^\n]*|\"(?:[^\"\\\n]|\\.)*\"|(?<![\w.'₀-₉-])([a-zA-Zκ][\w'₀-₉]*(?:-[\w'₀-₉]+)*)((?:\.[\w'₀-₉«»-]+)+)")
LET = re.compile(r"\blet ([\w'₀-₉-]+)\s*(:[^=]*?)?=\s*([a-zA-Z][\w'₀-₉]*(?:-[\w'₀-₉]+)*(?:\.[\w'₀-₉«»-]+)*)\s+in\b")

def spread(path, fields):
    """what a tuple of clauses was, from the record of them"""
    if len(fields) == 1: return path + "." + fields[0]
    return "(" + path + "." + fields[0] + ", " + spread(path, fields[1:]) + ")"

def bare(fn, path, kind):
    if kind == "requires": fs = fn.pre
    elif isinstance(kind, tuple) and kind[0] == "ens": fs = fn.ensured(kind[1])
    else: return path
    if not fs: return path
    return spread(path, fs)

def conv_text(fn, text, env):
    env = dict(env)
    out, pos = [], 0
    # lets are seen in order of the text
    lets = {}
    for m in LET.finditer(text):
        lets[m.start(3)] = m.group(1)
    for m in PATH.finditer(text):
        if m.group(1) is None: continue
        out.append(text[pos:m.start()])
        root, segs = m.group(1), m.group(2).split(".")[1:]
        if root == "tie":
            out.append(m.group(0)); pos = m.end(); continue
        new, kind = conv_path(fn, env, root, segs)
        if m.start() in lets and kind is not None:
            env[lets[m.start()]] = kind
        elif m.start() in lets and lets[m.start()] in env and kind is None:
            env.pop(lets[m.start()], None)
        if kind is not None and m.start() not in lets:
            new = bare(fn, new, kind)
            if new.startswith("(") and re.search(r"omega \([^()]*$", "".join(out)): new = re.sub(r"[()]", "", new)
        new = re.sub(r"^(.*)\.«([^»]*)»$", lambda x: spread(x.group(1), x.group(2).split(",")), new)
        out.append(new)
        pos = m.end()
    out.append(text[pos:])
    text = "".join(out)
    for v, k in env.items():
        if k == "requires" or (isinstance(k, tuple) and k[0] == "ens"):
            to = bare(fn, v, k)
            if to != v:
                text = re.sub(r"(?<![\w.'₀-₉-])" + re.escape(v) + r"(?![\w'₀-₉.-])(?!\s*=[^=])(?!\s*:)", lambda m: re.sub(r"[()]", "", to) if re.search(r"omega \([^()]*$", text[:m.start()]) else to, text)
    # what is left of a place: its let goes, and its name is the root's
    gone = [v for v, k in env.items() if k == "place"]
    text = re.sub(r"\blet ([\w'₀-₉-]+)\s*=\s*" + ROOT + r"\s+in\b[ \t]*(\n[ \t]*)?", lambda m: "" if m.group(1) in gone else m.group(0), text)
    for v in gone:
        if v != ROOT:
            text = re.sub(r"(?<![\w.'₀-₉-])" + re.escape(v) + r"(?![\w'₀-₉-])(?!\s*=[^=])", ROOT, text)
    # a condition that begins with `!` tells of what is behind it
    text = re.sub(r"(?<![\w.'₀-₉-])(?<!ap not )" + ROOT + r"\.((?:if|loop)-not-[\w-]+)\.(true|false)(?![\w.'-])", lambda m: "(ap not " + m.group(0) + ")", text)
    return text

def conv_types(fn, text):
    """tie.After-x invariant-loop decreases-loop -> the place's name"""
    def sub(m):
        old = m.group(1)
        if plain(old) in fn.places:
            new = fn.places[plain(old)]
            fn.used_places.add(new)
            return new
        fn.notes.append("place " + old)
        return m.group(0)
    return re.sub(r"\btie\.((?:After|In|At|Else|Then|Start|Untold)[\w-]*)((?:\s+(?:invariant|decreases)-[\w-]+)*)", sub, text)

def top_tuple(body):
    """if the body ends, after lets, in one tuple, returns (before, [parts])"""
    s = body.rstrip()
    if not s.endswith(")"): return None
    depth = 0
    for i in range(len(s) - 1, -1, -1):
        if s[i] in ")]}": depth += 1
        elif s[i] in "([{":
            depth -= 1
            if depth == 0: break
    before = s[:i]
    if before.strip() and not re.search(r"(\bin|=)\s*$", before) and not re.match(r"\s*(rw|simp)\b", before): return None
    inner = s[i+1:-1]
    parts, depth, last = [], 0, 0
    j = 0
    while j < len(inner):
        ch = inner[j]
        if inner.startswith("--", j) and (j == 0 or inner[j-1] in " \n"):
            e = inner.find("\n", j); j = len(inner) if e < 0 else e; continue
        if ch in "([{": depth += 1
        elif ch in ")]}": depth -= 1
        elif ch == "," and depth == 0:
            parts.append(inner[last:j]); last = j + 1
        j += 1
    tail = inner[last:]
    if tail.strip(): parts.append(tail)
    if len(parts) < 2: return None
    return before, [p.strip("\n ") if "\n" not in p else p.strip() for p in parts]

def flatten(parts, n):
    out = list(parts)
    while len(out) < n:
        t = top_tuple(out[-1])
        if t is None or t[0].strip(): return None
        out = out[:-1] + t[1]
    return out if len(out) == n else None

def flatten_names(parts, n):
    """where the last part stands for several fields: its projections"""
    m = len(parts)
    if m >= n: return None
    last = parts[-1].strip()
    if not re.fullmatch(r"[\w.'₀-₉-]+", last): return None
    rest = n - m + 1
    return parts[:-1] + [last + ".1" * k + (".0" if k < rest - 1 else "") for k in range(rest)]

def split_lets(body):
    """what stands up to the last `in` of the lets that the body begins with, and the rest"""
    depth, lets, end = 0, 0, 0
    for m in re.finditer(r"--[^\n]*|[()\[\]{}]|(?<![\w.'-])(let|in)(?![\w'-])", body):
        w = m.group(0)
        if w.startswith("--"): continue
        if w in "([{": depth += 1
        elif w in ")]}": depth -= 1
        elif depth == 0:
            lets += 1 if w == "let" else -1
            if w == "in" and lets == 0: end = m.end()
    return body[:end], body[end:]

def as_record(body, fields):
    """body as a record with those fields"""
    n = len(fields)
    lead, last = split_lets(body)
    if re.fullmatch(r"\s*(omega arith|search rules|omega \([^()]*\)|simp [\w\'-]+)\s*", last):
        return lead + "\n    record { " + "; ".join(f"{f} = {last.strip()}" for f in fields) + " }"
    if n == 1:
        b = last.strip()
        return lead + ("\n    " if lead else " ") + "record { " + fields[0] + " = " + b + " }"
    t = top_tuple(last)
    if t is not None:
        t = (lead + t[0], t[1])
    if t:
        before, parts = t
        flat = flatten(parts, n) or flatten_names(parts, n)
        if flat:
            return before + "record {\n      " + ";\n      ".join(f"{f} = {p}" for f, p in zip(fields, flat)) + ";\n    }"
    proj = []
    for k in range(n):
        proj.append("whole" + ".1" * k + (".0" if k < n - 1 else ""))
    b = last.strip()
    return lead + "\n    let whole = " + b + " in\n    record { " + "; ".join(f"{f} = {p}" for f, p in zip(fields, proj)) + " }"

def as_let(fn, d):
    """a helper over one place as a let: (name, unfolding names, text of the let)"""
    t = d["text"]
    name = d["name"]
    if re.search(r"\n  where\b", t): return None
    m = re.match(r"(?:abbrev |unfoldable )?(?:pub )?" + re.escape(name) + r"\s*:\s*(.*?)\n((?:unfolding[^\n]*\n)*)" + re.escape(name) + r"((?:\s+[\w'₀-₉_]+)*)\s*=(.*)$", t, re.S)
    if not m: return None
    sig, unf, params, body = m.group(1), m.group(2), m.group(3).split(), m.group(4)
    if re.search(r"(?m)^" + re.escape(name) + r"\b", body): return None
    PL = r"tie\.[A-Z][\w-]*(?:\s+(?:invariant|decreases)-[\w-]+)*"
    ms = re.match(r"\s*\(([\w'₀-₉]+) : " + PL + r"\)\s*(→)?\s*(.*)$", sig, re.S)
    if ms:
        var, rest = ms.group(1), ms.group(3)
        if not ms.group(2) and not rest.lstrip().startswith(("(", "{")): return None
    else:
        ms = re.match(r"\s*" + PL + r"\s*→\s*(.*)$", sig, re.S)
        if not ms: return None
        var, rest = params[0], ms.group(1)
    if re.fullmatch(PL + r"\s*", rest): return "place"
    if "tie." in rest: return None
    env = {var: "place"}
    ty = conv_text(fn, rest, env)
    env2 = {params[0]: "place"}
    b = conv_text(fn, body, env2)
    more = params[1:]
    b = b.strip("\n")
    if "\n" in b or "let " in b: b = "(\n" + "\n".join("      " + l.strip() if l.strip() else l for l in b.split("\n")) + "\n      )"
    else: b = b.strip()
    if more: b = "λ " + " ".join(more) + ". " + b
    ty = " ".join(ty.split())
    return unf.split()[1:] if unf else [], f"let {name} : {ty} = {b} in", d["comment"]

def module_lets(fn, d):
    """the definitions of a module over one place, as lets"""
    m = re.match(r"module _ \(([\w'₀-₉]+) : tie\.[A-Z][^()]*\) where\n(.*)$", d["text"], re.S)
    if not m: return None
    var = m.group(1)
    ind = min(len(l) - len(l.lstrip()) for l in m.group(2).split("\n") if l.strip())
    inner = "\n".join(l[ind:] for l in m.group(2).split("\n"))
    _, _, decls = split_decls(inner)
    same, placed = [], {}
    for e in decls:
        t = e["text"]
        mm = re.match(r"(?:abbrev |unfoldable )?(?:pub )?" + re.escape(e["name"]) + r"\s*:\s*(.*?)\n((?:unfolding[^\n]*\n)*)" + re.escape(e["name"]) + r"((?:\s+[\w'₀-₉_]+)*)\s*=(.*)$", t, re.S)
        if not mm: return None
        sig, unf, params, body = mm.group(1), mm.group(2), mm.group(3).split(), mm.group(4)
        if re.match(r"tie\.[A-Z]", sig):
            same.append(e["name"])
            continue
        env = {var: "place"}
        for s in same: env[s] = "place"
        ty, b = conv_text(fn, sig, env), conv_text(fn, body, env).strip("\n")
        for s in same:
            ty = re.sub(r"(?<![\w.'₀-₉-])" + re.escape(s) + r"(?![\w'₀-₉-])", ROOT, ty)
            b = re.sub(r"(?<![\w.'₀-₉-])" + re.escape(s) + r"(?![\w'₀-₉-])", ROOT, b)
        if "\n" in b or "let " in b: b = "(\n" + "\n".join("      " + l.strip() if l.strip() else l for l in b.split("\n")) + "\n      )"
        else: b = b.strip()
        if params: b = "λ " + " ".join(params) + ". " + b
        placed[e["name"]] = (unf.split()[1:] if unf else [], f"let {e['name']} : {' '.join(ty.split())} = {b} in", e["comment"])
    return same, placed

def same_place(fn, text):
    for n in fn.same:
        text = re.sub(r"\(" + re.escape(n) + r" " + ROOT + r"\)", ROOT, text)
        text = re.sub(r"(?<![\w.'₀-₉-])" + re.escape(n) + r" " + ROOT + r"(?![\w.'₀-₉-])", ROOT, text)
    while True:
        m = re.search(r"\blet ([\w'₀-₉-]+)\s*=\s*" + ROOT + r"\s+in\b[ \t]*(\n[ \t]*)?", text)
        if not m: break
        text = text[:m.start()] + text[m.end():]
        text = re.sub(r"(?<![\w.'₀-₉-])" + re.escape(m.group(1)) + r"(?![\w'₀-₉-])(?!\s*=[^=])", ROOT, text)
    if fn.same:
        k = len(fn.notes)
        text = conv_text(fn, text, {ROOT: "place"})
        fn.notes = fn.notes[:k]
    return text

def inline(fn, a, placed):
    """an answer with the lets of the helpers that it cites"""
    m = re.match(r"((?:--[^\n]*\n)*)(pub [^\n]*\n)((?:unfolding[^\n]*\n)*)(\S+ c(?: [\w'₀-₉_]+)*)( =)(.*)$", a, re.S)
    if not m: 
        if any(cites_(a, n) for n in placed): fn.notes.append("an answer cites a helper in a form not read")
        return a
    com, sig, unf, lhs, eq, body = m.groups()
    where = ""
    mw = re.search(r"\n  where\b", body)
    if mw: where, body = body[mw.start():], body[:mw.start()]
    need, order = set(), []
    def visit(n):
        if n in need: return
        need.add(n)
        for k in placed:
            if k != n and cites_(placed[n][1], k): visit(k)
        order.append(n)
    for n in placed:
        if cites_(body, n): visit(n)
        if where and cites_(where, n): fn.notes.append(f"where cites {n}")
    if not order: return a
    names = set()
    for l in unf.split("\n"):
        names |= set(l.split()[1:])
    for n in order: names |= set(placed[n][0])
    lets = []
    for n in order: lets.append("    " + strip_place(placed[n][1], placed))
    body = strip_place(body, placed)
    if not body.startswith("\n"): body = "\n    " + body.strip()
    u = "unfolding " + " ".join(sorted(names)) + "\n" if names else ""
    return same_place(fn, com + sig + u + lhs + eq + "\n" + "\n".join(lets) + body + where)

def strip_place(text, placed):
    for n in placed:
        text = re.sub(r"(?<![\w.'₀-₉-])" + re.escape(n) + r" " + ROOT + r"(?![\w.'₀-₉-])", n, text)
    return re.sub(r"\((" + "|".join(re.escape(n) for n in placed) + r")\)", r"\1", text) if placed else text

def cites_(text, name):
    return re.search(r"(?<![\w.'₀-₉-])" + re.escape(name) + r"(?![\w'₀-₉-])", text)

def convert(info, path, crate, module, muts):
    text = open(path).read()
    head, uses, decls = split_decls(text)
    fn = Fn(info, muts)
    inv, ans, helpers = [], [], []
    for d in decls:
        t = d["text"]
        m = re.match(r"(?:abbrev )?(?:pub )?(" + IDENT + r") :\s*tie\.(invariant|decreases)-([\w-]+)", t)
        if m:
            old = m.group(3)
            new, vs = fn.loops[plain(old)]
            body = t.split("\n", 1)[1]
            mm = re.match(re.escape(m.group(1)) + r"((?:\s+[\w'₀-₉_-]+)*)\s*=(.*)$", body, re.S)
            params = mm.group(1).split()
            b = mm.group(2)
            names = []
            ch = fn.changed[new]
            for v, c in zip(vs, ch):
                names.append("l.initial." + v if c else "l." + v)
            for v, c in zip(vs, ch):
                if c: names.append("l." + v)
            if len(params) > len(names): params = [p for p in params if re.sub("₀$", "", p) in vs or p == "_"]
            if len(names) != len(params):
                fn.notes.append(f"invariant {new}: {len(params)} params, {len(names)} vars")
            table = {p: n for p, n in zip(params, names) if p != "_"}
            # a name that a λ binds again stays
            def sub(mt):
                w = mt.group(0)
                return table.get(w, w)
            def subst_names(b):
                return re.sub(r"(?<![\w.'₀-₉-])[a-zA-Z_][\w'₀-₉]*(?:-[\w'₀-₉]+)*(?![\w'₀-₉-])(?!\s*=[^=])", sub, b)
            # protect λ-bound names: rename inside the λ body only when safe
            bound = set(re.findall(r"λ \(?([\w'₀-₉]+)", b)) & set(table)
            if bound:
                fn.notes.append(f"invariant {new}: λ binds {sorted(bound)}")
                b2 = b
                for x in bound:
                    # rename the bound variable and its uses up to the closing parenthesis of the λ
                    res, i = [], 0
                    for ml in re.finditer(r"\(λ (\(?)" + re.escape(x) + r"\b", b2):
                        depth, j = 0, ml.start()
                        while j < len(b2):
                            if b2[j] == "(": depth += 1
                            elif b2[j] == ")":
                                depth -= 1
                                if depth == 0: break
                            j += 1
                        seg = b2[ml.start():j+1]
                        res.append((ml.start(), j+1, re.sub(r"(?<![\w.'₀-₉-])" + re.escape(x) + r"(?![\w'₀-₉-])", "at_" + x, seg)))
                    for s, e, seg in reversed(res):
                        b2 = b2[:s] + seg + b2[e:]
                b = b2
            b = subst_names(b)
            pre = "invariant-" if m.group(2) == "invariant" else "decreases-"
            inv.append("\n".join(d["comment"]) + ("\n" if d["comment"] else "") + f"abbrev pub {pre}{new} : goal.{pre}{new}\n{pre}{new} l ={b}")
            continue
        m = re.match(r"(?:pub )?(" + IDENT + r") :\s*tie\.Need-([\w-]+)((?:\s+(?:invariant|decreases)-[\w-]+)*)\s*\n(.*)$", t, re.S)
        if m:
            name, old, _, rest = m.groups()
            o = plain(old)
            new = fn.needs.get(o) or fn.needs.get(re.sub(r"^(overflow|nonzero|offset-bounds|slice-bounds)-", "", o)) or fn.needs.get(re.sub(r"^slice-bounds-", "part-", o)) or fn.by_new.get(o)
            if new is None:
                fn.notes.append(f"goal {old} is gone")
                continue
            if new in info.get("settled", []):
                continue
            unf = ""
            mu = re.match(r"(unfolding[^\n]*\n)+", rest)
            if mu:
                unf = mu.group(0); rest = rest[mu.end():]
            me = re.match(re.escape(name) + r"((?:\s+[\w'₀-₉κς_]+)*)\s*=(.*)$", rest, re.S)
            if not me:
                fn.notes.append(f"goal {old}: cannot be read")
                continue
            params, body = me.group(1).split(), me.group(2)
            if body.strip() in ("search rules", "omega arith") and not unf:
                continue
            c = params[0] if params else "c"
            where = ""
            mw = re.search(r"\n  where\b", body)
            if mw: where, body = body[mw.start():], body[:mw.start()]
            body = conv_text(fn, body, {c: "place"})
            where = conv_types(fn, conv_text(fn, where, {c: "place"}))
            fields = fn.fields_of(o, new)
            if fields and len(params) - sum(1 for p in params if re.match(r"[κς]", p)) <= 1:
                body = as_record(body, fields)
            left = " ".join(p for p in params if not re.match(r"[κς]", p))
            ans.append(("\n".join(d["comment"]) + "\n" if d["comment"] else "") + f"pub {new} : goal.{new}\n{unf}{new} {left} ={body}{where}")
            continue
        if re.search(r"\btie\.close\b", t): continue
        helpers.append(d)
    placed = {}
    rest_helpers = []
    for d in helpers:
        tt = d["text"]
        if re.search(r"\btie\.[A-Z]", tt):
            it = as_let(fn, d)
            if it == "place": fn.same.append(d["name"])
            elif it: placed[d["name"]] = it
            else:
                fn.notes.append(f"helper {d['name']} left")
                rest_helpers.append(d)
        else: rest_helpers.append(d)
    for d in list(rest_helpers):
        it = module_lets(fn, d)
        if it is None: continue
        rest_helpers.remove(d)
        fn.notes = [n for n in fn.notes if n != f"helper {d['name']} left"]
        fn.same += it[0]
        placed.update(it[1])
    helpers = rest_helpers
    ans = [same_place(fn, a) for a in ans]
    placed = {k: (v[0], same_place(fn, v[1]), v[2]) for k, v in placed.items()}
    ans = [inline(fn, a, placed) for a in ans]
    # helpers that the invariants cite
    invtext = "\n".join(inv)
    moved = set()
    inner = {d["name"]: re.findall(r"(?m)^  +(?:abbrev |unfoldable )?(?:pub )?(" + IDENT + r") :", d["text"]) for d in helpers if d["name"].startswith("module _")}
    def cites(text, name):
        if name in inner: return any(cites(text, n) for n in inner[name])
        return re.search(r"(?<![\w.'₀-₉-])" + re.escape(name) + r"(?![\w'₀-₉-])", text)
    change = True
    while change:
        change = False
        for d in helpers:
            if d["name"] not in moved and cites(invtext, d["name"]):
                moved.add(d["name"]); invtext += "\n" + d["text"]; change = True
    anstext = "\n".join(ans)
    live = set()
    change = True
    while change:
        change = False
        for d in helpers:
            if d["name"] not in live and cites(anstext, d["name"]):
                live.add(d["name"]); anstext += "\n" + d["text"]; change = True
    helper_out, helper_inv = [], []
    for d in helpers:
        t = d["text"]
        env = {}
        for m in re.finditer(r"\(([\w'₀-₉ ]+) : tie\.[A-Z]", t):
            for v in m.group(1).split(): env[v] = "place"
        first = t.split(" : ")[0]
        eqs = re.findall(r"(?m)^" + re.escape(d["name"]) + r"((?:\s+[\w'₀-₉_]+)*)\s*=", t)
        sig = t.split("\n" + d["name"])[0]
        # explicit parameters in order, where the signature names places without a binder: `table1 : tie.Else1 → Table`
        parts = [p.strip() for p in re.split(r"→", sig.split(" : ", 1)[1])] if " : " in sig else []
        for eq in eqs:
            ps = eq.split()
            k = 0
            for p in parts:
                mb = re.match(r"^(?:\(([^():]+) :[^()]*(?:\([^()]*\)[^()]*)*\)\s*)+$", p)
                if re.match(r"tie\.[A-Z]", p):
                    if k < len(ps): env[ps[k]] = "place"
                    k += 1
                else:
                    bs = re.findall(r"\(([\w'₀-₉ ]+) : ([^()]*(?:\([^()]*\)[^()]*)*)\)", p)
                    if bs and p.startswith("("):
                        for vs, ty in bs:
                            for v in vs.split():
                                if ty.strip().startswith("tie.") and k < len(ps): env[ps[k]] = "place"
                                k += 1
                    else: k += 1
        t = conv_types(fn, conv_text(fn, t, env))
        if d["name"] in moved:
            t = re.sub(r"^(abbrev |unfoldable )?(pub )?", lambda m: (m.group(1) or "") + "pub ", t, count=1)
        c = ("\n".join(d["comment"]) + "\n") if d["comment"] else ""
        if d["name"] in moved: helper_inv.append(c + t)
        if d["name"] in live and d["name"] not in moved: helper_out.append(c + t)
        if d["name"] not in live and d["name"] not in moved: fn.notes.append(f"helper {d['name']} dropped")
    keep = [u for u in uses if not re.search(r"\.(Statement\.\{statement\}|Tie as tie|Tie\b.*)$", u)]
    if "(ap not " in "\n".join(ans):
        have = " ".join(w for u in keep for w in (words(u) or []))
        if not re.search(r"(?<![\w-])ap(?![\w₀-₉-])", have): keep.append("use mathlib.Core.Path.{ap}")
        if not re.search(r"(?<![\w-])not(?![\w-])", have): keep.append("use mathlib.Core.Bool.{not}")
    base = os.path.dirname(path)
    title = "\n".join(head)
    made = []
    if inv:
        body = "\n\n".join(helper_inv + inv)
        us = [u for u in keep if used(u, body)]
        us = trim(us, body)
        o = (title + "\n" if title else "") + "\n".join(us + [f"use {module}.Given as goal"]) + "\n\n" + body + "\n"
        open(os.path.join(base, "Invariants.antt"), "w").write(o)
        made.append("I")
    if ans:
        body = "\n\n".join(helper_out + ans)
        us = trim([u for u in keep if used(u, body)], body)
        if fn.used_places:
            pl = sorted(p for p in fn.used_places if cites(body, p))
            if pl: us.append(f"use {module}.Goals.{{{', '.join(pl)}}}")
        both = [d["name"] for d in helpers if d["name"] in moved and cites(body, d["name"])]
        if both: us.append(f"use {module}.Invariants.{{{', '.join(both)}}}")
        o = (title + "\n" if title else "") + "\n".join(us + [f"use {module}.Goals as goal"]) + "\n\n" + body + "\n"
        open(os.path.join(base, "Answers.antt"), "w").write(o)
        made.append("A")
    os.remove(path)
    return made, fn.notes

def words(u):
    m = re.search(r"\.\{([^}]*)\}", u, re.S)
    return [w.strip() for w in m.group(1).split(",")] if m else None

def local_of(w):
    return w.split(" as ")[-1].strip()

def occurs(w, body):
    w = local_of(w)
    if "◌" in w:
        op = w.replace("◌", "")
        return op in body
    return re.search(r"(?<![\w'₀-₉-])" + re.escape(w) + r"(?![\w'₀-₉-])", body) is not None

def used(u, body):
    ws = words(u)
    if ws is None: return True
    return any(occurs(w, body) for w in ws)

def trim(us, body):
    out = []
    for u in us:
        ws = words(u)
        if ws is None: out.append(u); continue
        keep = [w for w in ws if occurs(w, body)]
        out.append(re.sub(r"\.\{[^}]*\}", lambda m: ".{" + ", ".join(keep) + "}", u, flags=re.S))
    return out

def mut_params(crate):
    """by function path: the names of the parameters that are &mut"""
    out = {}
    root = os.path.dirname(crate.rstrip("/"))
    name0 = os.path.basename(crate.rstrip("/"))
    for c in os.listdir(root):
        for p in glob.glob(f"{root}/{c}/src/**/*.rt", recursive=True):
            rel = os.path.relpath(p, f"{root}/{c}/src")[:-3].replace("/", "::")
            mod = "" if rel in ("lib", "main") else rel + "::"
            t = re.sub(r"//[^\n]*", "", open(p).read())
            impls = ""
            for m in re.finditer(r"\bfn (\w+)(?:<[^>]*>)?\s*\(", t):
                depth, j = 0, m.end() - 1
                while True:
                    if t[j] == "(": depth += 1
                    elif t[j] == ")":
                        depth -= 1
                        if depth == 0: break
                    j += 1
                ps = t[m.end():j]
                muts = re.findall(r"(\w+)\s*:\s*&(?:'\w+ )?mut\b", ps)
                out.setdefault(f"{c}::{mod}{m.group(1)}", muts)
    return out

def main(argv):
    names, crate = argv[0], argv[1].rstrip("/")
    only = set(argv[2:])
    d = json.load(open(names))
    cname = os.path.basename(crate)
    muts = mut_params(crate)
    for p in sorted(glob.glob(crate + "/proofs/**/Proof.antt", recursive=True)):
        rel = os.path.relpath(os.path.dirname(p), crate + "/proofs")
        if only and rel not in only: continue
        key = f"Rattle-{cname}-proofs." + rel.replace("/", ".") + ".Lts"
        if key not in d:
            print(f"{rel}: not in names.json"); continue
        try:
            made, notes = convert(d[key], p, cname, f"Rattle.{cname}.proofs." + rel.replace("/", "."), muts)
            print(rel, "".join(made) or "-", "; ".join(notes))
        except Exception as e:
            print(f"{rel}: FAILED {type(e).__name__}: {e}")

main(sys.argv[1:])
