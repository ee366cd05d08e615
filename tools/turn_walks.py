#!/usr/bin/env python3
"""Turns walks of goals (proofs/F/Proof.antt of an older kit, respelled by port.py) into Invariants.antt and Answers.antt.

usage: conv.py TOP CRATE NAMES_JSON [OLD_PROOFS]
OLD_PROOFS: folder with the crate's proofs/ as port.py left it (default: the crate's own); files are written below TOP/crates/CRATE/proofs.
"""
import json, os, re, sys
from pathlib import Path

TOP = Path(sys.argv[1]); CRATE = sys.argv[2]
NAMES = json.load(open(sys.argv[3]))
OLD = Path(sys.argv[4]) if len(sys.argv) > 4 else TOP / "crates" / CRATE / "proofs"
NEW = TOP / "crates" / CRATE / "proofs"
W = r"[^\s(){}.;,@\"«»]"          # a character of a name
def norm(s): return re.sub(r"[-_·]", "-", s).lower()

# ---- clause names of every function of the repository
CLAUSES = {}
def read_clauses():
    for rt in TOP.glob("crates/*/src/**/*.rt"):
        crate = rt.relative_to(TOP / "crates").parts[0]
        text = re.sub(r"//[^\n]*", "", rt.read_text())
        for m in re.finditer(r"\bfn (\w+)", text):
            rest = text[m.end():]
            stop = re.search(r"\n *\{ *\n|\n *\{\}|\bfn \w", rest)
            head = rest[: stop.start()] if stop else rest[:3000]
            req = re.findall(r"\brequires\*? *(\w*) *\{", head)
            ens = re.findall(r"\bensures\*? *(\w*) *\{", head)
            sig = head.split("requires")[0].split("ensures")[0]
            mut = re.findall(r"[(,]\s*(?:mut )?(\w+)\s*:(?!:)", sig)
            if re.search(r"\(\s*(&(?:'\w+ )?(?:mut )?)?self\b", sig): mut = ["self"] + mut
            over = bool(re.search(r"\bimpl\b", sig.split("->")[0]) or re.match(r"<(?!')", sig))
            CLAUSES.setdefault(m[1], []).append((crate, req, ens, mut, over))
read_clauses()
FIELDS = {a for l in CLAUSES.values() for c in l for a in c[3] if "_" in a}
for rt in TOP.glob("crates/*/src/**/*.rt"):
    FIELDS |= set(re.findall(r"(?m)^ +(?:pub )?(\w+_\w+): ", rt.read_text()))
def underscored(text):
    return re.sub(rf"(?<=[\w'])\.([a-z]{W}*-{W}*)(?![\w'-])", lambda m: "." + m[1].replace("-", "_") if m[1].replace("-", "_") in FIELDS else m[0], text)
def clauses_of(path):
    """path: crate::..::fn or fn"""
    parts = path.split("::")
    cands = CLAUSES.get(parts[-1], [])
    for c in cands:
        if c[0] == parts[0]:
            return c
    return cands[0] if len(cands) == 1 else None

def argument(path, names):
    """.1 .1 .0 of .new and .auto: the argument's place"""
    m = re.match(r"((?:\.1)*)\.0(?![\w-])", path)
    if m and len(m[1]) // 2 < len(names):
        return "." + names[len(m[1]) // 2] + path[m.end():]
    return path

def nested(path, names, least=2):
    """turn .0 / .1.0 / .1.1 .. at the front of path into a clause's name"""
    if len(names) < least or not all(names):
        return path
    if least == 1 and len(names) == 1:
        return "." + names[0] + (path[2:] if re.match(r"\.0(?![\w-])", path) else path)
    i = 0
    p = path
    while True:
        if i == len(names) - 1:
            return "." + names[i] + p
        m = re.match(r"\.(0|1)(?![\w-])", p)
        if not m:
            return path if i == 0 else path
        p = p[m.end():]
        if m[1] == "0":
            return "." + names[i] + p
        i += 1

class Fn:
    def __init__(self, key, names):
        self.key, self.n = key, names
        self.need = {norm(a): b for a, b in names["needs"]}
        self.step, self.calls = {}, {}
        self.place = {norm(p[0]): b for p, b in zip(names["places"], names["places_by_name"])}
        every = set(names["places_by_name"])
        for k, v in list(self.place.items()):
            m = re.fullmatch(r"(In[-_].*)-\d", v)
            if m and m[1] in every: self.place[k] = m[1]
        self.helpers, self.brought, self.goal = {}, set(), None
        real = {norm(p[0]): b for p, b in zip(names["places"], names["places_by_name"])}
        self.parent = {b: real.get(norm(p[1])) if p[1] else None for p, b in zip(names["places"], names["places_by_name"])}
        for p in names["places"]:
            if len(p) > 2 and p[2][0]:
                self.step[norm(p[2][0])] = p[2][1]
                if p[3]:
                    self.calls[p[2][1]] = p[3]
        self.arm = {}
        for a in names["arms"]:
            if not a: continue
            new, idx, fields = a
            for f, old, path in fields:
                self.arm[norm(old) + "." + ".".join(path)] = new + "." + f
                # a count may lack its dash or have one
        self.loops = {}
        for (lp, ch) in zip(names["loops"], names["changed"]):
            (old, new), vars_ = lp
            self.loops[norm(old)] = (new, vars_, ch)

def step_lookup(fn, s):
    n = norm(s)
    if n in fn.step: return fn.step[n]
    if n.endswith("-lem") and n[:-4] in fn.step: return fn.step[n[:-4]]
    m = re.match(r"(.*?)-?(\d+)$", n)
    if m and m[1] + m[2] in fn.step: return fn.step[m[1] + m[2]]
    if m and m[1] + "-" + m[2] in fn.step: return fn.step[m[1] + "-" + m[2]]
    return None

def need_lookup(fn, *cands):
    for c in cands:
        c = norm(c)
        tries = [c]
        for pre in ("overflow-", "slice-bounds-"):
            if c.startswith(pre): tries.append(c[len(pre):])
        tries += [t.replace("loop-holds", "loop-init").replace("loop-less", "loop-smaller").replace("loop-again", "loop-preserved") for t in list(tries)]
        for t in tries:
            if t in fn.need: return fn.need[t]
    return None

PROBLEMS = []
def convert_path(fn, text, heads):
    armsteps = {norm(k.split(".")[0]) for k in fn.arm}
    def inline(t):
        for m in list(re.finditer(rf"\blet ({W}+) = ({W}+(?:\.before)*)\.({W}+?)((?:\.given)?) in(?:\n *| )", t)):
            n = norm(m[3]); n2 = re.sub(r"-?(\d+)$", r"\1", n)
            if m[4] or re.fullmatch(r"match\d*", m[3]) or ((n in armsteps or n2 in armsteps) and "." not in m[3]):
                if n not in armsteps and n2 not in armsteps and not re.fullmatch(r"match\d*", m[3]): continue
                t2 = t.replace(m[0], "", 1)
                t2 = re.sub(rf"(?<![\w.'-]){re.escape(m[1])}(?=\.)", f"{m[2]}.{m[3]}{m[4]}", t2)
                return t2, True
        return t, False
    more = True
    while more:
        text, more = inline(text)
    # alias variables that are bound to a place before
    aliases = set(heads)
    for m in re.finditer(rf"\blet ({W}+) = (c|{W}+)((?:\.before)+)(?= *(?:in\b|\n|;))", text):
        aliases.add(m[1])
    text = re.sub(rf"(?<![\w.'-])({W}+?)((?:\.before)+)(?![\w-])", r"\1", text)
    al = "|".join(sorted(map(re.escape, aliases), key=len, reverse=True))
    def fix(m):
        head, step, rest = m[1], m[2], m[3]
        # enum arms: step.given.1
        g = re.match(r"\.given((?:\.\d)+)", rest)
        key = norm(step)
        tries = [key]
        mm = re.match(r"(.*?)-?(\d+)$", key)
        if mm: tries += [mm[1] + mm[2], mm[1] + "-" + mm[2]]
        if g:
            digits = g[1].strip(".").split(".")
            for t in tries:
                for n in range(len(digits), 0, -1):
                    k = t + ".given." + ".".join(digits[:n])
                    if k in fn.arm:
                        return f"{head}.{fn.arm[k]}" + "".join("." + d for d in digits[n:]) + rest[g.end():]
        for t in tries:
            for k, v in fn.arm.items():
                if k.endswith("."):
                    continue
                if k.startswith(t + ".") and re.match(re.escape("." + k[len(t) + 1:]) + r"(?![\w'-])", rest):
                    return f"{head}.{v}" + rest[len(k) - len(t):]
        if re.fullmatch(r"match\d*", norm(step)) and (rest.startswith(".rest") or not rest and re.search(r"\.(rest|keys\d)\b", text)):
            arms = sorted((v for v in set(fn.step.values()) if v.startswith("in_default")), key=len, reverse=True)
            arm = next((a for a in arms if a in (fn.goal or "")), arms[-1] if arms else None)
            if arm:
                return f"{head}.{arm}.{arm}-own{rest}"
        if re.fullmatch(r"match\d*", norm(step)) and rest.startswith(".keys"):
            arms = sorted((v for v in set(fn.step.values()) if v.startswith("in_default")), key=len, reverse=True)
            arm = next((a for a in arms if a in (fn.goal or "")), arms[-1] if arms else None)
            if arm: return f"{head}.{arm}.{arm}-own{rest}"
        new = step_lookup(fn, step)
        if new is None:
            if step in ("args", "requires", "ranges", "type_inv", "well_formed"):
                if step == "requires":
                    c = clauses_of(fn.path)
                    if c: rest = nested(rest, c[1])
                return f"{head}.{step}{rest}"
            PROBLEMS.append(f"{fn.key}: step {step}")
            new = step
        if new in fn.calls:
            rest = re.sub(r"^\.last(?![\w-])", ".new", re.sub(r"^\.kept(?![\w-])", ".auto", rest))
            e = re.match(r"\.(ensures|new|auto)(?![\w-])", rest)
            if e:
                c = clauses_of(fn.calls[new])
                if c: rest = "." + e[1] + (nested(rest[e.end():], c[2]) if e[1] == "ensures" else argument(rest[e.end():], c[3]))
        return f"{head}.{new}{rest}"
    text = re.sub(rf"(?<![\w.'-])({al})\.({W}+)((?:\.{W}+)*)", fix, text)
    stepof = {m[1]: m[2] for m in re.finditer(rf"\blet ({W}+) = (?:{al})\.({W}+)(?= *(?:in\b|\n|;))", text)}
    def unnot(m):
        parts = m[2].split(".")
        st = parts[-2] if len(parts) > 2 else stepof.get(parts[0], parts[0])
        x = re.sub(r"-\d+$", "", re.sub(r"^if-not-", "", st))
        return m[2] if st.startswith("if-not-") and any(k == x or k.startswith(x + "-") for k in fn.calls) else m[0]
    text = re.sub(rf"(?<![\w.'-])not-(true|false) (?:{W}+(?:\.{W}+)*) ({W}+(?:\.{W}+)*\.\1)(?![\w.'-])", lambda m: m[0] if unnot(m) == m[0] else chr(0) + unnot(m), text)
    def bracketed(t):
        while True:
            m = re.search(r"(?<![\w.'-])not-(true|false) \(", t)
            if not m: return t
            j = closing(t, m.end() - 1)
            k = re.match(rf" ({W}+(?:\.{W}+)*\.{m[1]})(?![\w.'-])", t[j + 1:])
            if not k: return t.replace(m[0], m[0].replace("not-", "nOT-"), 1)
            t = t[: m.start()] + chr(0) + k[1] + t[j + 1 + k.end():]
    text = bracketed(text).replace("nOT-", "not-")
    def wrap(m):
        if m[1]: return m[2]
        parts = m[2].split(".")
        st = parts[-2] if len(parts) > 2 else stepof.get(parts[0], parts[0])
        x = re.sub(r"-\d+$", "", re.sub(r"^if-not-", "", st))
        return f"(ap not {m[2]})" if st.startswith("if-not-") and ("-" in x or any(k == x or k.startswith(x + "-") for k in fn.calls)) else m[0]
    text = re.sub(rf"(\x00?)(?<![\w.'-])({W}+(?:\.{W}+)*\.(?:true|false))(?![\w.'-])", wrap, text)
    text = text.replace("\x00", "")
    # let k = r.auto.1.1 in .. k.1.0
    for m in list(re.finditer(rf"\blet ({W}+) = ({W}+)((?:\.{W}+?)?)\.(auto|new)((?:\.1)+) in", text)):
        st = m[3][1:] if m[3] else stepof.get(m[2])
        c = clauses_of(fn.calls[st]) if st in fn.calls else None
        if not c: continue
        n, names = len(m[5]) // 2, c[3]
        text = text.replace(m[0], f"let {m[1]} = {m[2]}{m[3]}.{m[4]} in", 1)
        def name(k):
            i = n + len(k[1]) // 2
            return f"{m[1]}.{names[i]}" if i < len(names) else k[0]
        text = re.sub(rf"(?<![\w.'-]){re.escape(m[1])}((?:\.1)*)\.0(?![\w-])", name, text)
    # let pre = c.requires in .. pre.0
    for m in list(re.finditer(rf"\blet ({W}+) = (?:{al})\.requires(?= *(?:in\b|\n))", text)):
        c = clauses_of(fn.path)
        if c and len(c[1]) > 1:
            v = m[1]
            text = re.sub(rf"(?<![\w.'-]){re.escape(v)}((?:\.\d)+)(?![\w-])", lambda k: v + nested(k[1], c[1]), text)
    # let f = c.step in .. f.ensures.0 ; let e = c.step.ensures in e.0
    for m in list(re.finditer(rf"\blet ({W}+) = (?:{al})\.({W}+)((?:\.ensures)?)(?= *(?:in\b|\n))", text)):
        v, st, en = m[1], m[2], m[3]
        if st in fn.calls:
            c = clauses_of(fn.calls[st])
            if c and not en and c[3]:
                text = re.sub(rf"(?<![\w.'-]){re.escape(v)}\.last(?=\.)", v + ".new", re.sub(rf"(?<![\w.'-]){re.escape(v)}\.kept(?=\.)", v + ".auto", text))
                for w in ("new", "auto"):
                    text = re.sub(rf"(?<![\w.'-]){re.escape(v)}\.{w}((?:\.\d)+)(?![\w-])", lambda k: v + "." + w + argument(k[1], c[3]), text)
            if c and len(c[2]) > 1:
                mid = "" if en else r"\.ensures"
                text = re.sub(rf"(?<![\w.'-]){re.escape(v)}{mid}((?:\.\d)+)(?![\w-])", lambda k: v + ("" if en else ".ensures") + nested(k[1], c[2]), text)
    return text

def split_top(t):
    """parts of a tuple's inside at its outer commas"""
    out, depth, last = [], 0, 0
    for i, ch in enumerate(t):
        if ch in "({[": depth += 1
        elif ch in ")}]": depth -= 1
        elif ch == "," and depth == 0:
            out.append(t[last:i]); last = i + 1
    out.append(t[last:])
    if not out[-1].strip(): out.pop()
    return [o.strip() for o in out]

def closing(t, i):
    depth = 0
    for j in range(i, len(t)):
        if t[j] in "({[": depth += 1
        elif t[j] in ")}]":
            depth -= 1
            if depth == 0: return j
    return -1

def tail_start(b):
    """where the last term behind `let .. in` begins"""
    pos, depth, last = 0, 0, 0
    lets = 0
    toks = re.finditer(r"[({\[]|[)}\]]|(?<![\w.'-])(let|in|elim)(?![\w'-])", b)
    for m in toks:
        if m[0] in "({[": depth += 1
        elif m[0] in ")}]": depth -= 1
        elif depth == 0 and m[0] == "in":
            last = m.end()
    return last

def recorded(body, names):
    """the term of nested pairs as a record with a field for each clause"""
    k = tail_start(body)
    head, t = body[:k], body[k:]
    lead = t[: len(t) - len(t.lstrip())]
    t = t.strip()
    def rec(t, names):
        if t.startswith("(") and closing(t, 0) == len(t) - 1:
            parts = split_top(t[1:-1])
            if len(parts) == 1:
                return rec(parts[0], names)
            if len(parts) == 2 and len(names) > 2:
                sub = rec(parts[1], names[1:])
                mm = re.fullmatch(rf"(?:{W}+\.)?({W}+)\.ensures((?:\.1)+)", parts[1])
                if sub is None and mm and recorded.fn:
                    st = mm[1] if mm[1] in recorded.fn.calls else recorded.alias.get(mm[1])
                    c = clauses_of(recorded.fn.calls[st]) if st in recorded.fn.calls else None
                    k = len(mm[2]) // 2
                    if c and len(c[2]) - k == len(names) - 1:
                        sub = [(n, parts[1][: -len(mm[2])] + "." + o) for n, o in zip(names[1:], c[2][k:])]
                return None if sub is None else [(names[0], parts[0])] + sub
            if len(parts) == len(names):
                return list(zip(names, parts))
        elif len(names) == 1:
            return [(names[0], t)]
        mm = re.fullmatch(rf"({W}+)\.({W}+)\.ensures|({W}+)\.ensures", t)
        if mm and recorded.fn:
            st = mm[2] or recorded.alias.get(mm[3])
            c = clauses_of(recorded.fn.calls[st]) if st in recorded.fn.calls else None
            if c and len(c[2]) == len(names) and all(c[2]):
                return [(n, t + "." + o) for n, o in zip(names, c[2])]
        return None
    r = None if re.fullmatch(rf"{W}+(?:\.{W}+)*", t) else rec(t, names)
    if r:
        return head + lead + "record { " + "; ".join(f"{a} = {b}" for a, b in r) + " }"
    m = re.match(r"rw ", t)
    if m:
        i = m.end()
        if t[i] == "(":
            j = closing(t, i) + 1
        else:
            j = i + re.match(r"\S+", t[i:]).end()
        inner = t[j:].strip()
        if inner:
            return head + lead + t[:j] + " (" + recorded(inner, names).strip() + ")"
    if t in ("search rules",) or t.startswith(("omega", "absurd", "record", "grind", "search")):
        return body
    if recorded.fn and (t == "c.requires" or recorded.alias.get(t) == "requires"):
        c = clauses_of(recorded.fn.path)
        if c and len(c[1]) == len(names) and all(c[1]):
            return head + lead + "record { " + "; ".join(f"{n} = {t}.{o}" for n, o in zip(names, c[1])) + " }"
    m = re.fullmatch(rf"({W}+)\.({W}+)\.ensures|({W}+)\.ensures", t)
    if m and recorded.fn:
        st = m[2] or recorded.alias.get(m[3])
        c = clauses_of(recorded.fn.calls[st]) if st in recorded.fn.calls else None
        if c and len(c[2]) == len(names) and all(c[2]):
            if c[2] == names:
                return head + lead + t + chr(1)
            return head + lead + "record { " + "; ".join(f"{n} = {t}.{o}" for n, o in zip(names, c[2])) + " }"
    def path(i):
        return "".join(".1" for _ in range(i)) + ("" if i == len(names) - 1 else ".0")
    return head + lead + f"let both = {t} in record {{ " + "; ".join(f"{n} = both{path(i)}" for i, n in enumerate(names)) + " }"

def paired(fn, body):
    """a record of clauses that a lemma takes as pairs"""
    als = {m[1]: m[2] for m in re.finditer(rf"\blet ({W}+) = (?:{W}+)\.({W}+)(?= *(?:in\b|\n|;))", body)}
    pres = {m[1] for m in re.finditer(rf"\blet ({W}+) = c(?= *(?:in\b|\n|;))", body)} | {"c"}
    def one(m):
        if re.match(r"\s+in\b", body[m.end():]) and re.search(r"=\s*$", body[: m.start()]):
            return m[0]
        depth, k = 0, m.start() - 1
        while k >= 0:
            if body[k] == ")": depth += 1
            elif body[k] == "(":
                if depth == 0: break
                depth -= 1
            k -= 1
        if k > 0 and re.search(r"(omega|search|grind|simp|cc|rw)\s*$", body[:k]): return m[0]
        head, kind = m[1].split("."), m[2]
        if kind == "requires":
            if len(head) != 1 or head[0] not in pres: return m[0]
            c = clauses_of(fn.path); names = c[1] if c else []
        else:
            st = head[-1] if len(head) > 1 else als.get(head[0])
            c = clauses_of(fn.calls[st]) if st in fn.calls else None
            names = c[2] if c else []
        if len(names) < 2 or not all(names): return m[0]
        out = f"{m[0]}.{names[-1]}"
        for n in reversed(names[:-1]): out = f"({m[0]}.{n}, {out})"
        return out
    return re.sub(rf"(?<![\w.'-])({W}+(?:\.{W}+)?)\.(ensures|requires)(?![\w.'\x01-])", one, body)

def subst_names(body, names):
    """names of an invariant's variables to l's"""
    def one(m):
        w = m[0]
        return names.get(w, w)
    out = []
    # leave field names in record { x = .. } and behind a dot
    pos = 0
    pat = re.compile(rf"(?<![\w'-]){W}+")
    res = ""
    i = 0
    for m in re.finditer(rf"{W}+", body):
        s, e = m.span()
        w = m[0]
        before = body[s - 1] if s else " "
        after = body[e:e + 3]
        if before == "." or w not in names or (re.match(r" = ", after) and re.search(r"[{;]\s*$", body[:s])):
            continue
        out.append((s, e, names[w]))
    for s, e, t in reversed(out):
        body = body[:s] + t + body[e:]
    return body

def blocks(text):
    """paragraphs; a continuation (indented) stays with its head"""
    return [b for b in re.split(r"\n\s*\n(?=\S)", text.strip("\n")) if b.strip()]

def convert(folder):
    proof = OLD / folder / "Proof.antt"
    key = f"Rattle-{CRATE}-proofs." + folder.replace("/", ".") + ".Lts"
    if key not in NAMES:
        print(f"no names for {folder}")
        return False
    fn = Fn(key, NAMES[key])
    fn.path = CRATE + "::" + folder.split("/")[-1]
    if not fn.n["needs"] and not fn.loops:
        pass
    text = underscored(proof.read_text()).replace(".type-inv", ".type_inv").replace(".well-formed", ".well_formed")
    if "tie.close" not in text:
        print(f"by hand: {folder}")
        return False
    bl = blocks(text)
    comment, uses, rest = "", [], []
    for b in bl:
        lines = b.split("\n")
        if all(l.startswith("--") for l in lines):
            rest.append(b); continue
        us = [l for l in lines if l.startswith("use ")]
        if us:
            lead = [l for l in lines if l.startswith("--")]
            if lead and not uses and not rest: comment = "\n".join(lead)
            uses += us
            left = [l for l in lines if not l.startswith("use ") and not l.startswith("--")]
            if left: rest.append("\n".join(left))
            continue
        rest.append(b)
    uses = [u for u in uses if ".Statement.{" not in u and not u.rstrip().endswith(".Tie as tie")]
    uses = [u for u in uses if not re.search(r"\.Tie\.\{", u)]
    inv, ans, helpers = [], [], []
    kept, allnames = {}, set()
    for b in rest:
        m = re.search(rf"(?m)^(?:abbrev )?(?:pub )?({W}+) : tie\.(Need-|invariant-|decreases-)({W}+)([^\n]*)", b)
        if re.search(r"(?m)^(pub )?\S+ : \{M : Type 1\} → statement M", b) and "tie.close" in b:
            continue
        if not m:
            t = convert_path(fn, b, ["c"])
            hm = None
            at = re.findall(r"(?<![\w-])tie\.([^\s(){}.;,]+)", t)
            for a in at:
                new = fn.place.get(norm(a))
                if new:
                    t = re.sub(rf"(?<![\w-])tie\.{re.escape(a)}(?![\w-])", new, t)
                    fn.brought.add(new)
                    t = re.sub(rf"(?<![\w'-]){re.escape(new)} invariant-{W}+ decreases-{W}+", new, t)
                    hm = re.match(rf"(?:--[^\n]*\n)*(?:abbrev )?(?:pub )?({W}+) :", t)
                    if hm and re.search(rf"\(c : {re.escape(new)}\)|{re.escape(hm[1])} : {re.escape(new)} →", t): fn.helpers[hm[1]] = new
                else:
                    PROBLEMS.append(f"{key}: place {a}")
            own = fn.helpers.get(hm[1]) if at and hm else None
            for h, pl in fn.helpers.items():
                if own and pl != own:
                    n, q = 0, own
                    while q and q != pl:
                        q, n = fn.parent.get(q), n + 1
                    if q == pl:
                        al = "|".join(["c"] + re.findall(rf"\blet ({W}+) = c(?= *(?:in\b|\n|;))", t))
                        t = re.sub(rf"(?<![\w.'-]){re.escape(h)}(\s+)({al})(?![\w.'-])", lambda k: f"{h}{k[1]}{k[2]}" + ".before" * n, t)
            helpers.append(t); continue
        name, kind, what = m[1], m[2], m[3]
        if kind in ("invariant-", "decreases-"):
            lp = fn.loops.get(norm(what)) or (list(fn.loops.values())[0] if len(fn.loops) == 1 else None)
            if not lp:
                PROBLEMS.append(f"{key}: loop {what}"); continue
            new, vars_, ch = lp
            if "rt" in vars_:
                # a handle that came with printing
                vars_, ch = zip(*[(v, c) for v, c in zip(vars_, ch) if v != "rt"])
            body = b[m.end():].lstrip("\n")
            h = re.match(rf"{re.escape(name)} ([^=]*?)\s*=\s*", body)
            if not h:
                PROBLEMS.append(f"{key}: head of {name}"); continue
            binders = h[1].split()
            order = [("l.initial." if c else "l.") + v for v, c in zip(vars_, ch)] + ["l." + v for v, c in zip(vars_, ch) if c]
            if len(order) != len(binders):
                order = [("l.initial." + x[:-1]) if x.endswith("₀") and x[:-1] in vars_ else "l." + x for x in binders]
                PROBLEMS.append(f"{key}: {name} has {binders}, {order}")
            tail = body[h.end():]
            tail = subst_names(tail, dict(zip(binders, order)))
            lead = b[: m.start()].strip("\n")
            sep = " " if "\n" not in body[h.start():h.end()].rstrip(" ") else "\n    "
            goal = ("invariant-" if kind == "invariant-" else "decreases-") + new
            inv.append((lead + "\n" if lead else "") + f"abbrev pub {goal} : goal.{goal}\n{goal} l ={sep}{tail}")
            continue
        goal = need_lookup(fn, what, name)
        if goal is None:
            allnames.add(name)
            PROBLEMS.append(f"{key}: need {what} ({name})")
            continue
        lead = b[: m.start()].strip("\n")
        body = b[m.end():].lstrip("\n")
        body = re.sub(rf"(?m)^{re.escape(name)} c κs =", f"{goal} c =", body)
        body = re.sub(rf"(?m)^{re.escape(name)} c =", f"{goal} c =", body)
        body = re.sub(rf"(?m)^{re.escape(name)} ", f"{goal} ", body)
        plain = re.sub(r"\s+", " ", body.split(" =", 1)[1].strip()) if " =" in body else ""
        allnames.add(name)
        if goal.startswith("enum_told") or plain == "tt":
            continue
        if plain in ("search rules", "search needs", "omega arith") and "unfolding" not in body.split(" =")[0]:
            continue
        fn.goal = goal
        body = convert_path(fn, body, ["c"])
        # a record of clauses
        cl = None
        if goal.startswith("returns"):
            c = clauses_of(fn.path)
            cl = c[2] if c else None
        elif goal.endswith("-requires") or re.search(r"-requires-", goal):
            step = re.sub(r"-requires.*", "", goal)
            path = fn.calls.get(step)
            c = clauses_of(path) if path else None
            cl = c[1] if c else None
        recorded.fn = fn
        recorded.alias = {m[1]: m[2] for m in re.finditer(rf"\blet ({W}+) = (?:{W}+)\.({W}+)(?= *(?:in\b|\n|;))", body)}
        if cl and len(cl) > 1 and all(cl):
            k = body.find(" =")
            body = body[: k + 2] + recorded(body[k + 2:], cl)
        kept[name] = goal
        for h, pl in fn.helpers.items():
            al = "|".join(["c"] + re.findall(rf"\blet ({W}+) = c(?= *(?:in\b|\n|;))", body))
            body = re.sub(rf"(?<![\w.'-]){re.escape(h)}(\s+)({al})(?![\w.'-])", lambda k: f"{h}{k[1]}(goal.at.{goal} c).{pl}", body)
        body = paired(fn, body).replace(chr(1), "")
        ans.append((lead + "\n" if lead else "") + f"pub {goal} : goal.{goal}\n{body}")
    again = True
    while again:
        again = False
        for a in list(ans):
            mm = re.search(rf"(?m)^pub ({W}+) : goal", a)
            words = set(re.findall(rf"(?<![\w.'-]){W}+", a[mm.end():]))
            for w in (words & allnames) - {mm[1]}:
                if w in kept:
                    continue
                if mm[1].startswith(("bounds", "slice_bounds", "overflow", "offset")) or mm[1].endswith("-smaller"):
                    ans.remove(a)
                    old = [k for k, v in kept.items() if v == mm[1]]
                    for k in old: kept.pop(k)
                    again = True
                    break
                PROBLEMS.append(f"{key}: {mm[1]} cites {w}")
    for i, a in enumerate(ans):
        mm = re.search(rf"(?m)^pub ({W}+) : goal[^\n]*\n(?:unfolding[^\n]*\n)?{W}+ ", a)
        if mm:
            ans[i] = a[: mm.end()] + re.sub(rf"(?<![\w.'-]){W}+", lambda k: kept.get(k[0], k[0]) if k[0] != "c" else "c", a[mm.end():])
    own = clauses_of(fn.path)
    if own and len(own[2]) > 1:
        ans = [re.sub(rf"\((returns{W}*) c\)((?:\.\d)+)(?![\w-])", lambda k: f"({k[1]} c)" + nested(k[2], own[2]), a) for a in ans]
    helpers = [re.sub(rf"\(c : ({W}+) invariant-{W}+ decreases-{W}+\)", r"(c : \1)", h) for h in helpers]
    own = clauses_of(fn.path)
    if own and own[4]:
        inv = [re.sub(r"(?m)^((?:invariant|decreases)-\S+) l =", r"\1 g l =", x) for x in inv]
        ans = [re.sub(rf"(?m)^({W}+) c =", r"\1 g c =", x) for x in ans]
    base = f"Rattle.{CRATE}.proofs." + folder.replace("/", ".")
    out = NEW / folder
    out.mkdir(parents=True, exist_ok=True)
    def used(us, body):
        keep = []
        words = set(re.findall(rf"{W}+", body))
        for u in us:
            mm = re.match(r"(use \S+?\.)\{(.*)\}\s*$", u)
            if mm:
                items = [i.strip() for i in mm[2].split(",")]
                it = []
                for i in items:
                    core = (i.split(" as ")[-1]).strip()
                    if "◌" in core:
                        sym = core.replace("◌", "")
                        if sym in body or all(p in body for p in core.split("◌") if p): it.append(i)
                    elif core in words: it.append(i)
                if it: keep.append(mm[1] + "{" + ", ".join(it) + "}")
            else:
                last = re.split(r" as |\.", u)[-1].strip()
                if last in words: keep.append(u)
        return keep
    if inv:
        body = "\n\n".join(inv)
        hs = []
        todo = list(helpers)
        us = used(uses, body)
        (out / "Invariants.antt").write_text((comment + "\n" if comment else "") + "\n".join(us + [f"use {base}.Given as goal"]) + "\n\n" + body + "\n")
    if ans:
        body = "\n\n".join([h for h in helpers] + ans)
        us = used(uses, body)
        if "(ap not " in body:
            have = " ".join(us)
            if not re.search(r"[{ ,]ap[,}]", have): us.append("use mathlib.Core.Path.{ap}")
            if not re.search(r"[{ ,]not[,}]", have): us.append("use mathlib.Core.Bool.{not}")
        lead = "" if inv else comment
        (out / "Answers.antt").write_text((lead + "\n" if lead else "") + "\n".join(us + [f"use {base}.Goals as goal"] + ([f"use {base}.Goals.{{{', '.join(sorted(fn.brought))}}}"] if fn.brought else [])) + "\n\n" + body + "\n")
    elif helpers and not inv:
        pass
    if (NEW / folder / "Proof.antt").exists():
        (NEW / folder / "Proof.antt").unlink()
    if not inv and not ans:
        try: out.rmdir()
        except OSError: pass
    return True

done = 0
for p in sorted(OLD.rglob("Proof.antt")):
    folder = str(p.parent.relative_to(OLD))
    try:
        done += bool(convert(folder))
    except Exception as e:
        import traceback; traceback.print_exc()
        print("failed", folder, e)
print(f"{CRATE}: {done} turned")
for p in PROBLEMS:
    if not re.search(r"need (same-length|enum-told|enum-known|slice-aggregate|overflow-cast)", p): print("problem:", p)
