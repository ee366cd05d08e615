#!/usr/bin/env python3
"""clauses.py LOG CRATEDIR: writes the clauses that a check asks for"""
import re, sys
from pathlib import Path
log, top = open(sys.argv[1]).read(), Path(sys.argv[2])
todo = {}
lines = log.split("\n")
for i, l in enumerate(lines):
    m = re.match(r"\s*(\./\S+?\.antt):(\d+):(\d+): error: `[^`]+`: write the clause(s?)(.*)", l)
    if not m: continue
    if not m[4]:
        cl = re.findall(r"`([^`\n]+)`", m[5])
    else:
        cl = []
        for k in lines[i + 1:]:
            if not k.startswith("  "): break
            if " = " in k and not k.strip().startswith("no clause"): cl.append(k.strip())
    todo.setdefault(m[1], set()).add((int(m[2]), tuple(cl)))
# an implicit argument that a recursive call changes
for i, l in enumerate(lines):
    m = re.match(r"\s*(\./\S+?\.antt):(\d+):(\d+): error: `([^`]+)`: (.*)", l)
    if not m or "write argument" not in m[5]: continue
    a = re.search(r"write argument \d+ \(`([^`]+)`\) out at the call `([^`]+)`", m[5])
    if not a: continue
    e = re.search(r"it passes `([^`]+)`", "\n".join(lines[i : i + 3]))
    if not e: continue
    p = top / m[1]
    text = p.read_text().split("\n")
    n = int(m[2]) - 1
    fn = a[2].split()[0]
    lhs = re.search(r"bind `[^`]+` on the left, as in `([^`]+)`", m[5])
    call = a[2]
    place = next((k for k in (n, n + 1, n - 1, n + 2, n - 2) if 0 <= k < len(text) and call in text[k]), None)
    if place is None:
        # the call as it stands may have its implicit arguments
        place = next((k for k in (n, n + 1, n - 1) if 0 <= k < len(text) and re.search(rf"(?<![\w.'-]){re.escape(fn)} ", text[k])), None)
        if place is None: continue
    old = text[place]
    at = old.find(call)
    if at < 0:
        hits = [k.start() for k in re.finditer(rf"(?<![\w.'-]){re.escape(fn)} ", old)]
        at = hits[-1]
    if f"{{{a[1]} = " in old[at : at + 200].split(")")[0]: continue
    text[place] = old[:at] + fn + f" {{{a[1]} = {e[1]}}}" + old[at + len(fn):]
    if lhs:
        k = place
        while k >= 0 and not re.match(rf"\s*{re.escape(fn)} (?!:)", text[k]): k -= 1
        ind = text[k][: len(text[k]) - len(text[k].lstrip())]
        depth, cut = 0, None
        for j, ch in enumerate(text[k]):
            depth += ch in "({[ "[:3]
            depth -= ch in ")}]"
            if depth == 0 and text[k][j : j + 2] == " =" and (j + 2 == len(text[k]) or text[k][j + 2] == " "):
                cut = j
                break
        if k >= 0 and cut is not None:
            text[k] = ind + lhs[1] + text[k][cut:]
    p.write_text("\n".join(text))
    print(m[1], m[2], a[1], e[1])

for f, l in todo.items():
    p = top / f
    text = p.read_text().split("\n")
    brings = set()
    for n, cl in sorted(l, reverse=True):
        if not cl: continue
        new = []
        for c in cl:
            for q in re.findall(r"(?<![\w.'-])((?:[A-Za-z]\w*\.)+)([^\s(){}.;,\[\]]+)", c):
                brings.add((q[0][:-1], q[1]))
                c = c.replace(q[0] + q[1], q[1])
            new.append(c)
        head = new[0].split()[0]
        k = n - 1
        while k < len(text) and not text[k].strip().startswith(head + " "): k += 1
        if k >= len(text): continue
        if re.match(rf"\s*(pub )?{re.escape(head)} :", text[k]):
            k += 1
            while not text[k].strip().startswith(head + " "): k += 1
        ind = text[k][: len(text[k]) - len(text[k].lstrip())]
        text[k:k] = [ind + c for c in new]
        print(f, n, new)
    for mod, name in sorted(brings):
        whole = "\n".join(text)
        if re.search(rf"(?m)^use \S+\{{[^}}]*(?<![\w'-]){re.escape(name)}(?![\w'-])[^}}]*\}}", whole): continue
        at = next(i for i, t in enumerate(text) if t.startswith("use "))
        text[at:at] = [f"use {mod}.{{{name}}}"]
    p.write_text("\n".join(text))
