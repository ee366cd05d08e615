#!/usr/bin/env python3
"""Makes crates.txt list of each crate only what it can't reach by another one that it lists (but see STRAIGHT).

usage: tools/thin.py [--tell]      at the top; --tell only says what would change

rt walks from each crate along every way to the crates below it. With everything listed that a crate names there are millions of such ways,
and rt ci doesn't begin in an hour. So a crate passes on what those above it name: `pub use Rattle.area.specs as of_area` in its specs/Lib.antt,
the same in proofs/Lib.antt, `pub use area as the_area;` in its lib.rt; and those above write `Rattle.NAME.specs.of_area.Area`, `NAME::the_area::Stored`.
It may be run again: what is passed on already stays.
"""
import re
import sys
from pathlib import Path

TOP = Path(__file__).resolve().parent.parent
LINE = re.compile(r"([a-z_0-9]+)([^:#]*):(.*)$")


def listed():
    deps, kit = {}, {}
    for line in (TOP / "crates.txt").read_text().split("\n"):
        m = LINE.match(line)
        if m and not line.startswith("#"):
            deps[m[1]] = m[3].split()
    own = set(deps)
    for c in deps:
        kit[c] = [d for d in deps[c] if d not in own]
    return list(deps), kit


def code(path):
    text = path.read_text()
    return re.sub(r"//[^\n]*", "", text) if path.suffix == ".rt" else re.sub(r"--[^\n]*", "", text)


def files(c):
    for kind, end in (("src", "rt"), ("specs", "antt"), ("proofs", "antt")):
        yield from sorted((TOP / "crates" / c / kind).glob(f"**/*.{end}"))


NAMED = re.compile(r"\bRattle\.([a-z_0-9]+)\.(specs|proofs)\b(?:\.of_([a-z_0-9]+))?")
# These list whatever their code names. What lib.rt passes on is stated anew in each crate along each way: where it was 7,000 crates deep, one check
# took 14 gigabytes and didn't end.
STRAIGHT = set("write_case write_elements write_suite write_rows write_run write_status write_document writer".split())
# what lib.rt passes on, as rt fmt lays it out
ON = re.compile(r"(?m)^pub use (?:\w+ as the_\w+|\w+::the_\w+|\w+::\{(?:\n? *the_\w+,?)+\n?\});\n?")
PATH = re.compile(r"(?<![\w:])([a-z_0-9]+)::(?:the_([a-z_0-9]+)::)?")


def needs(c, own):
    """what c names: crate, and how ('specs', 'proofs', 'src')"""
    found = set()
    for f in files(c):
        text = code(f)
        # what it passes on by itself isn't a need of its own
        if f.name == "Lib.antt":
            text = re.sub(r"(?m)^pub use \S+ as of_\w+$", "", text)
        if f.suffix == ".rt":
            text = ON.sub("", text)
        for a, kind, b in NAMED.findall(text):
            if a != c and a in own:
                found.add((b or a, kind))
        if f.suffix == ".rt":
            for a, b in PATH.findall(re.sub(r"(?m)^ *ghost use [^;]*;", "", text)):
                if a in own and a != c:
                    found.add((b or a, "src"))
    return {x for x in found if x[0] != c}


def main():
    order, kit = listed()
    own, at = set(order), {c: i for i, c in enumerate(order)}
    need = {c: needs(c, own) for c in order}
    below, direct = {}, {}
    for c in order:
        names = {t for t, _ in need[c]}
        below[c] = set().union(names, *(below[t] for t in names)) if names else set()
        direct[c] = {t for t in names if not any(t in below[e] for e in names if e != t)}
        if c in STRAIGHT:
            direct[c] |= {t for t, kind in need[c] if kind == "src"}

    def by(c, t):
        """the crate that c lists by which it reaches t"""
        ways = [d for d in direct[c] if t in below[d]]
        straight = [d for d in ways if t in direct[d]]
        return min(straight or ways, key=at.get)

    passes = {c: set() for c in order}
    todo = [(by(c, t), t, kind) for c in order for t, kind in sorted(need[c]) if t not in direct[c]]
    while todo:
        d, t, kind = todo.pop()
        if (t, kind) in passes[d]:
            continue
        passes[d].add((t, kind))
        if t not in direct[d]:
            todo.append((by(d, t), t, kind))
    ways = {}
    for c in order:
        ways[c] = 1 + sum(ways[d] for d in direct[c])
    print(f"{len(order)} crates, {sum(map(len, direct.values()))} listed, {sum(map(len, passes.values()))} passed on, {sum(ways.values())} ways")
    if "--tell" in sys.argv:
        return

    def named(c):
        def one(m):
            a, kind, b = m[1], m[2], m[3]
            t = b or a
            if a == c or a not in own or t not in own:
                return m[0]
            if t in direct[c]:
                return f"Rattle.{t}.{kind}"
            return f"Rattle.{by(c, t)}.{kind}.of_{t}"

        return one

    def path(c):
        def one(m):
            a, b = m[1], m[2]
            if a not in own or a == c:
                return m[0]
            t = b or a
            return f"{t}::" if t in direct[c] else f"{by(c, t)}::the_{t}::"

        return one

    for c in order:
        top = TOP / "crates" / c
        for f in files(c):
            text = f.read_text()
            if f.name == "Lib.antt":
                text = re.sub(r"(?m)^pub use \S+ as of_\w+\n?", "", text)
            if f.suffix == ".rt":
                text = ON.sub("", text)
            new = NAMED.sub(named(c), text)
            if f.suffix == ".rt":
                lines = new.split("\n")
                for i, l in enumerate(lines):
                    if not re.match(r"\s*(ghost use|//)", l):
                        parts = re.split(r'("(?:\\.|[^"\\])*")', l)
                        lines[i] = "".join(s if k % 2 else PATH.sub(path(c), s) for k, s in enumerate(parts))
                new = "\n".join(lines)
            if new != f.read_text():
                f.write_text(new)
        for e in sorted((top / "must-fail").glob("*.edit")):
            text = e.read_text()
            new = "\n".join(NAMED.sub(named(c), l) if l.startswith(("old: ", "new: ")) else l for l in text.split("\n"))
            if new != text:
                e.write_text(new)
        for kind in ("specs", "proofs"):
            on = sorted(t for t, k in passes[c] if k == kind)
            if on:
                lib = top / kind / "Lib.antt"
                lib.parent.mkdir(exist_ok=True)
                text = lib.read_text().rstrip("\n") + "\n" if lib.exists() else ""
                text += "".join(f"pub use Rattle.{t}.{kind} as of_{t}\n" if t in direct[c] else f"pub use Rattle.{by(c, t)}.{kind}.of_{t} as of_{t}\n" for t in on)
                lib.write_text(text.lstrip("\n"))
        on = sorted(t for t, k in passes[c] if k == "src")
        if on:
            lib = top / "src" / "lib.rt"
            lines = lib.read_text().split("\n")
            k = next(i for i, l in enumerate(lines) if "#![tactic" in l) + 1
            while k < len(lines) and (not lines[k].strip() or lines[k].startswith("ghost use")):
                k += 1
            lines[k:k] = [f"pub use {t} as the_{t};" if t in direct[c] else f"pub use {by(c, t)}::the_{t};" for t in on] + ([""] if k < len(lines) and lines[k].strip() and not lines[k].startswith("use ") else [])
            lib.write_text("\n".join(lines))
    out = []
    for line in (TOP / "crates.txt").read_text().split("\n"):
        m = LINE.match(line)
        if m and not line.startswith("#"):
            ds = kit[m[1]] + sorted(direct[m[1]], key=at.get)
            line = f"{m[1]}{m[2]}:" + (" " + " ".join(ds) if ds else "")
        out.append(line)
    (TOP / "crates.txt").write_text("\n".join(out))


if __name__ == "__main__":
    main()
