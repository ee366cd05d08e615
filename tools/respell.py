#!/usr/bin/env python3
"""Spells the repository's own definitions and lemmas as today's Rattle spells words: in snake case.

usage: tools/respell.py [--table]      at the top, once, behind port.py; --table prints old and new names, and writes nothing

- `keyPlace` becomes `key_place`.
- A dash stays where a part beside it is a name (`length-zeros`); else it becomes `_` (`seeking-found`, `seeking_found`).
- A definition that is a fact, as `roleFits`, is a type: `RoleFits`.
- Names that Rattle makes, names of src/ and names of libraries stay. Where the new name stands in the tree already for something else than a
  function, `_of` goes behind it.
"""
import re
import sys
from pathlib import Path

TOP = Path(__file__).resolve().parent.parent
W = r"[^\s(){}.;,@\"«»]"
HEAD = re.compile(rf"^( *)((?:(?:abbrev|unfoldable|opaque|pub|ruleset) +)*)((?:{W}+ +)*?{W}+)(?: +\{{[^{{}}]*\}})* +:(?=\s|$)")
RULESET = re.compile(rf"^(?:pub )?ruleset (?:pub )?({W}+)")
TYPE = re.compile(r"^ *(?:pub )?(record|data) (\S+)")
COMMENT = re.compile(r"--[^\n]*")


def files():
    for p in sorted(TOP.glob("crates/*/specs/**/*.antt")) + sorted(TOP.glob("crates/*/proofs/**/*.antt")):
        yield p


def is_walk(path):
    return path.name in ("Proof.antt", "Answers.antt", "Invariants.antt") and path.parent.name != "proofs"


def declared(text):
    """names that a file of definitions or lemmas declares: at the margin, in a section, fields, constructors"""
    found = []
    for line in text.split("\n"):
        code = line.split("--")[0]
        if not code.strip():
            continue
        t = TYPE.match(code)
        if t:
            continue
        r = RULESET.match(code)
        if r:
            found.append(r[1])
            continue
        m = HEAD.match(code)
        if m and not re.match(r"\s*(let|use|in|elim|module|where)\b", code):
            found += m[3].split()
    return found


def words(name):
    return re.sub(r"(?<=[a-z0-9])([A-Z])", lambda m: "_" + m[1].lower(), name)


def facts(text):
    return {m[1] for m in re.finditer(r"(?m)^(?:(?:abbrev|unfoldable|pub) +)*([a-z]\S*) : [^\n]*\bType 0$", text)}


def spelled(name, known):
    parts = name.split("-")
    parts = [words(p) if p[:1].islower() else p for p in parts]
    out = parts[0]
    for i in range(1, len(parts)):
        left, right = "-".join(parts[:i]), "-".join(parts[i:])
        joined = "-" if left in known or right in known or not re.fullmatch(r"\w+", parts[i - 1]) or not re.fullmatch(r"[\w']+", parts[i]) or parts[i - 1][:1].isupper() or parts[i][:1].isupper() else "_"
        out += joined + parts[i]
    return out


def main():
    own, texts, specs, fact = set(), {}, set(), set()
    for p in files():
        texts[p] = p.read_text()
        if not is_walk(p):
            names = declared(texts[p])
            own.update(names)
            if "specs" in p.parts:
                specs.update(names)
            fact |= facts(texts[p])
    rt = {p: p.read_text() for p in sorted(TOP.glob("crates/*/src/**/*.rt"))}
    functions = {m for t in rt.values() for m in re.findall(r"\bfn (\w+)", t)}
    brought = set()
    for t in texts.values():
        for path, items in re.findall(r"(?m)^use ([^\s{]+)\{([^}]*)\}", t):
            if not path.startswith("Rattle.") or path.startswith("Rattle.std."):
                brought.update(i.strip().split(" as ")[-1] for i in items.split(","))
    for t in rt.values():
        for path, items in re.findall(r"(?m)^ *ghost use ([^\s{]+)\{([^}]*)\}", t):
            if path.startswith("Rattle.std."):
                brought.update(i.strip().split(" as ")[-1] for i in items.split(","))
    known = {words(n) for n in specs if n[:1].islower() and "-" not in n} | {n for n in brought if "-" not in n} | functions
    # every word that stands somewhere, but behind a dot or as a function's name
    standing = {}
    for p, t in list(texts.items()) + list(rt.items()):
        code = COMMENT.sub("", t) if p.suffix == ".antt" else re.sub(r"//[^\n]*", "", t)
        for m in re.finditer(rf"(?<!\.){W}+", code):
            standing.setdefault(m[0], set()).add(p)
    table = {}
    for n in sorted(own):
        if not re.match(r"[a-z]", n) or not (re.search(r"[a-z0-9][A-Z]", n) or "-" in n) or n in brought:
            continue
        new = spelled(n, known)
        if n in fact:
            new = "".join(w[:1].upper() + w[1:] for w in re.split("[-_]", n))
        if new != n:
            table[n] = new
    taken = {}
    for n, new in sorted(table.items()):
        while (new in standing and new not in functions) or new in own or new in brought or new in taken:
            new += "s" if new[:1].isupper() else "_of" if not new.endswith("_of") else "_it"
            print(f"falls together: {n} becomes {new}", file=sys.stderr)
        taken[new] = n
        table[n] = new
    if "--table" in sys.argv:
        for a, b in sorted(table.items()):
            print(a, b)
        return
    pattern = re.compile(rf"(?<![^\s(){{}}.;,@\"«»]){W}+")
    one = lambda m: table.get(m[0], m[0])
    for p, t in list(texts.items()) + list(rt.items()):
        # strings stay
        parts = re.split(r'("(?:\\.|[^"\\\n])*")', t)
        new = "".join(s if i % 2 else pattern.sub(one, s) for i, s in enumerate(parts))
        if new != t:
            p.write_text(new)


if __name__ == "__main__":
    main()
