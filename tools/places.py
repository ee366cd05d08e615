#!/usr/bin/env python3
"""Counts the places of docs/DESIGN-PASS.md in crates/*/src, point by point.

usage: python3 tools/places.py [POINT] [--list]     POINT is 1 to 8; --list names each place
"""
import collections
import glob
import re
import sys

FILES = sorted(glob.glob("crates/*/src/**/*.rt", recursive=True))
PROGRAMS = {f.split("/")[1] for f in FILES if f.endswith("/main.rt")}


def code(text):
    """The text without comments and ghost lines."""
    text = re.sub(r"//[^\n]*", "", text)
    return re.sub(r"^ghost use [^;]*;\n", "", text, flags=re.M)


def blocks(text, head):
    """Each item that begins as `head` says, up to its closing brace at the same depth: (match, body)."""
    for m in re.finditer(head, text, flags=re.M):
        start = text.find("{", m.end() - 1)
        if start < 0:
            continue
        depth = 0
        for i in range(start, len(text)):
            depth += {"{": 1, "}": -1}.get(text[i], 0)
            if depth == 0:
                yield m, text[start + 1 : i]
                break


def functions(text):
    """Each function: its name, its clauses, its body, its parameters."""
    heads = [m for m in re.finditer(r"^[ ]*(?:pub )?(?:const )?(?:extern \"C\" )?fn (\w+)", text, flags=re.M)]
    for k, m in enumerate(heads):
        end = heads[k + 1].start() if k + 1 < len(heads) else len(text)
        whole = text[m.start() : end]
        clauses = re.findall(r"^\s+(?:requires|ensures)\*? ?(?:\w+ )?\{(.*?)\}$", whole, flags=re.M)
        body = re.search(r"\n[ ]*\{\n(.*)\n[ ]*\}", whole, flags=re.S)
        if body is None:
            body = re.search(r"\{\n(.*)\n[ ]*\}", whole, flags=re.S)
        parameters = re.search(r"\((.*?)\)(?: ->|\n|$)", whole, flags=re.S)
        yield m.group(1), whole, clauses, body.group(1) if body else "", parameters.group(1) if parameters else ""


def enums():
    for f in FILES:
        for m, body in blocks(code(open(f).read()), r"^[ ]*(?:pub )?enum (\w+)[^{;]*\{"):
            variants = [v.strip() for v in re.split(r",(?![^(]*\))", body) if v.strip()]
            yield f, m.group(1), variants


def structs():
    for f in FILES:
        for m, body in blocks(code(open(f).read()), r"^[ ]*(?:pub )?struct (\w+)[^{;]*\{"):
            yield f, m.group(1), [v.strip() for v in body.split(",") if v.strip()]


def point1():
    """Enums with one variant that holds a value beside others that hold none, or two that hold one each; a struct with a flag (bool or
    Verdict) beside values; files of number constants for kinds."""
    for f, name, variants in enums():
        held = [v for v in variants if "(" in v or "{" in v]
        if (len(held) == 1 and len(variants) > 1) or (len(held) == 2 and len(variants) in (2, 3)):
            yield f, "enum " + name
    for f, name, fields in structs():
        if len(fields) > 1 and any(re.search(r": (bool|Verdict)$", x) for x in fields):
            yield f, "struct " + name
    for f in FILES:
        numbers = re.findall(r"^(?:pub )?const \w+: u(?:8|16|32|64|size) = \d+;", open(f).read(), flags=re.M)
        if len(numbers) >= 3:
            yield f, "numbers"


def shape(body):
    """A body with each name and number replaced, so that twins look the same."""
    tokens = re.findall(r"[A-Za-z_]\w*|\d\w*|b\"[^\"]*\"|b'[^']*'|\S", code(body))
    words = {"let", "mut", "if", "else", "while", "for", "in", "return", "match", "as", "loop", "break", "Some", "None", "Ok", "Err"}
    out = []
    for t in tokens:
        if t in words:
            out.append(t)
        elif re.match(r"[A-Za-z_]", t):
            out.append("x")
        elif t[0].isdigit() or t.startswith('b"') or t.startswith("b'"):
            out.append("0")
        else:
            out.append(t)
    return " ".join(out), len(tokens)


def point2():
    """Functions of one shape: bodies of 12 tokens and more that differ only in names and numbers."""
    groups = collections.defaultdict(list)
    for f in FILES:
        if f.split("/")[1] in PROGRAMS:
            continue
        for name, _, _, body, parameters in functions(open(f).read()):
            s, n = shape(body)
            if n >= 12:
                groups[s].append((f, name))
    for s, places in sorted(groups.items()):
        if len(places) > 1:
            for f, name in places:
                yield f, "fn " + name + "  [" + ", ".join(sorted({p[1] for p in places}))[:60] + "]"


def point3():
    """Loops by `while` and `loop`."""
    for f in FILES:
        for i, line in enumerate(open(f).read().split("\n"), 1):
            if re.match(r"\s*(?:while|loop)\b", line):
                yield f, str(i) + ": " + line.strip()


def point4():
    """Functions that only say true or false of each variant; structs put together from another's fields, three or more; equality of
    sequences by hand; numbers of variants by hand."""
    for f in FILES:
        text = open(f).read()
        for name, whole, _, body, _ in functions(text):
            arms = re.findall(r"=> (\w[\w:]*),?$", code(body), flags=re.M)
            if len(arms) >= 2 and set(arms) <= {"true", "false"}:
                yield f, "fn " + name + ": true or false of each variant"
            for owner in set(re.findall(r"\b\w+: (\w+)\.\w+,", code(body))):
                same = [a for a, o, b in re.findall(r"\b(\w+): (\w+)\.(\w+),", code(body)) if o == owner and a == b]
                if len(same) >= 3:
                    yield f, "fn " + name + ": put together from " + owner
            numbers = re.findall(r"\w+::\w+ => \d+,", code(body))
            if len(numbers) >= 3:
                yield f, "fn " + name + ": numbers of variants"


def point5():
    """Requires that stand in three or more functions of a crate; three or more parameters that travel together through three functions."""
    for crate in sorted({f.split("/")[1] for f in FILES}):
        count = collections.Counter()
        together = collections.Counter()
        for f in FILES:
            if f.split("/")[1] != crate:
                continue
            for name, whole, _, _, parameters in functions(open(f).read()):
                for c in set(re.findall(r"^\s+requires(?: \w+)? \{(.*)\}$", whole, flags=re.M)):
                    count[c.strip()] += 1
                ps = tuple(sorted(p.strip() for p in parameters.replace("\n", " ").split(",") if ":" in p))
                for a in range(len(ps)):
                    for b in range(a + 1, len(ps)):
                        for c in range(b + 1, len(ps)):
                            together[(ps[a], ps[b], ps[c])] += 1
        for c, n in sorted(count.items()):
            if n >= 3:
                yield "crates/" + crate, "requires " + c[:80] + "  in " + str(n)
        most = max((n for n in together.values()), default=0)
        if most >= 3:
            ps = max(together, key=lambda p: together[p])
            yield "crates/" + crate, "parameters " + ", ".join(ps)[:90] + "  in " + str(most)


def point6():
    """A buffer with a length beside it; an area with a mark of how much of it is used."""
    for f, name, fields in structs():
        if any(re.search(r": \[\w+; ", x) for x in fields) and any(re.search(r"\b(n|len|length): (usize|u\d+)", x) for x in fields):
            yield f, "struct " + name
    for f in FILES:
        for name, whole, _, _, parameters in functions(open(f).read()):
            if re.search(r"\w+: &mut \[u(8|32)\],\s*k: (Stored|Option<usize>|usize)", parameters):
                yield f, "fn " + name + ": an area and its mark"


def point7():
    """A match on a number or a kind each of whose arms is a call: a switch on which step to run."""
    for f in FILES:
        for name, _, _, body, _ in functions(open(f).read()):
            arms = re.findall(r"=> ([^,{}]*)", code(body))
            calls = [a for a in arms if re.match(r"[\w:]+\(.*", a.strip()) and not re.match(r"(Some|Ok|Err)\(", a.strip()) and not re.match(r"\w+::[A-Z]", a.strip())]
            if len(calls) >= 3 and len(calls) >= len(arms) - 1:
                yield f, "fn " + name


def point8():
    """Answers in proofs, one for each goal that was answered by hand."""
    for f in sorted(glob.glob("crates/*/proofs/**/Answers.antt", recursive=True)):
        n = len(re.findall(r"^pub [\w'-]+ : goal\.", open(f).read(), flags=re.M))
        for _ in range(n):
            yield f, "answer"


POINTS = [point1, point2, point3, point4, point5, point6, point7, point8]

if __name__ == "__main__":
    named = [int(a) for a in sys.argv[1:] if a.isdigit()]
    for k, p in enumerate(POINTS, 1):
        if named and k not in named:
            continue
        places = list(p())
        print(f"{k}: {len(places)}")
        if "--list" in sys.argv:
            for f, what in places:
                print("  ", f, what)
