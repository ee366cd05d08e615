#!/usr/bin/env python3
"""What port.py leaves in every crate alike.

usage: tools/port_rest.py      at the top, once, behind port.py

- A type whose fields are numbers, texts lent for reading and types of that kind is copied, as before: #[derive(Clone, Copy)] in place of
  #[derive(Drop)].
- #![tactic(auto)] stands near the head of each crate's root.
"""
import re
from pathlib import Path

TOP = Path(__file__).resolve().parent.parent
ITEM = re.compile(r"#\[derive\(Drop\)\]\n((?:#\[[^\n]*\n)*)(?:pub )?(struct|enum) (\w+)(<[^>{(;]*>)?")
PLAIN = {"u8", "u16", "u32", "u64", "u128", "usize", "i8", "i16", "i32", "i64", "i128", "isize", "bool", "char", "f32", "f64", "str", "static", "Self"}


def body_of(text, at):
    k = at
    while text[k] not in "{(;":
        k += 1
    if text[k] == ";":
        return ""
    depth = 0
    for j in range(k, len(text)):
        depth += text[j] in "{([<"
        depth -= text[j] in "})]>" and text[j - 1] != "-"
        if depth == 0:
            return text[k : j + 1]
    return text[k:]


def main():
    found = {}
    for rt in sorted(TOP.glob("crates/*/src/**/*.rt")):
        text = rt.read_text()
        for m in ITEM.finditer(text):
            body = re.sub(r"//[^\n]*", "", body_of(text, m.end()))
            if m[2] == "enum":
                types = " ".join(re.findall(r"\(([^)]*)\)|\{([^}]*)\}", body[1:-1]) and [a or re.sub(r"\w+ *:", "", b) for a, b in re.findall(r"\(([^)]*)\)|\{([^}]*)\}", body[1:-1])])
            else:
                types = re.sub(r"(?:pub )?\w+ *:", "", body)
            found.setdefault(m[3], []).append((rt, "&mut" in types or "&'" in types and " mut " in types, set(re.findall(r"[A-Za-z_]\w*", re.sub(r"'\w+|\b[A-Z][A-Z_0-9]+\b", "", types))) - {"pub"}))
    plain = set()
    while True:
        more = {n for n, l in found.items() if n not in plain and all(not mut and used <= PLAIN | plain for _, mut, used in l)}
        if not more:
            break
        plain |= more
    for rt in sorted(TOP.glob("crates/*/src/**/*.rt")):
        text = rt.read_text()
        new = ITEM.sub(lambda m: m[0].replace("#[derive(Drop)]", "#[derive(Clone, Copy)]", 1) if m[3] in plain else m[0], text)
        if rt.name in ("lib.rt", "main.rt") and rt.parent.name == "src" and "#![tactic(auto)]" not in new:
            lines = new.split("\n")
            k = 0
            while k < len(lines) and lines[k].startswith("//"):
                k += 1
            while k < len(lines) and lines[k].startswith("#!["):
                k += 1
            lines[k:k] = ["#![tactic(auto)]"] + ([""] if k < len(lines) and lines[k].strip() else [])
            new = "\n".join(lines)
        if new != text:
            rt.write_text(new)
    for n in sorted(found):
        if n not in plain:
            print("stays:", n, *(f"{rt.relative_to(TOP)} {sorted(used)}{' &mut' if mut else ''}" for rt, mut, used in found[n]))


if __name__ == "__main__":
    main()
