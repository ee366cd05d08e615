#!/usr/bin/env python3
"""What the program test_vectors must write, computed from the rules (docs/RULES.md), RFC 3629, RFC 3339, RFC 9562 and
XML 1.0 without any of this repository's code. From the repository's top:
    python3 crates/test_vectors/expected.py < crates/test_vectors/stdin | cmp - crates/test_vectors/stdout"""
import re, sys

WHITE = {9, 10, 11, 12, 13, 0x20, 0x85, 0xA0, 0x1680, 0x2028, 0x2029, 0x202F, 0x205F, 0x3000} | set(range(0x2000, 0x200B))
FILTERED = set(range(0, 9)) | {0x0B, 0x0C} | set(range(0x0E, 0x20))
FIVE = {b"amp": 0x26, b"lt": 0x3C, b"gt": 0x3E, b"apos": 0x27, b"quot": 0x22}
DAYS = [31, 28, 31, 30, 31, 30, 31, 31, 30, 31, 30, 31]


class Refused(Exception):
    pass


def is_utf8(s):
    """RFC 3629, section 4: the shortest form, no surrogates, nothing beyond U+10FFFF."""
    i = 0
    while i < len(s):
        b = s[i]
        if b < 0x80: n, least = 0, 0
        elif 0xC0 <= b < 0xE0: n, b, least = 1, b & 0x1F, 0x80
        elif 0xE0 <= b < 0xF0: n, b, least = 2, b & 0x0F, 0x800
        elif 0xF0 <= b < 0xF8: n, b, least = 3, b & 0x07, 0x10000
        else: return False
        tail = s[i + 1:i + 1 + n]
        if len(tail) < n or any(t & 0xC0 != 0x80 for t in tail): return False
        for t in tail: b = b << 6 | t & 0x3F
        if b < least or 0xD800 <= b <= 0xDFFF or b > 0x10FFFF: return False
        i += 1 + n
    return True


def utf8(s):
    if not is_utf8(s): raise Refused(2)
    return s


def char(c):
    if not (c in (9, 10, 13) or 0x20 <= c <= 0xD7FF or 0xE000 <= c <= 0xFFFD or 0x10000 <= c <= 0x10FFFF): raise Refused(10)
    return chr(c).encode()


def named(name):
    if name in FIVE: return bytes([FIVE[name]])
    if re.fullmatch(rb"#[0-9]+", name): return char(int(name[1:]))
    if re.fullmatch(rb"#x[0-9a-fA-F]+", name): return char(int(name[2:], 16))
    raise Refused(10)


def decoded(s):
    out = b""
    while s:
        before, ampersand, s = s.partition(b"&")
        out += before
        if ampersand:
            name, semicolon, s = s.partition(b";")
            if not semicolon: raise Refused(10)
            out += named(name)
    return out


def filtered(s):
    return bytes(b for b in s if b not in FILTERED)


def trimmed(s):
    text = s.decode("utf-8", "surrogateescape")
    while text and ord(text[0]) in WHITE: text = text[1:]
    while text and ord(text[-1]) in WHITE: text = text[:-1]
    return text.encode("utf-8", "surrogateescape")


def integer(s):
    if not re.fullmatch(rb"\+?[0-9]+", utf8(s)) or int(s) > 18446744073709551615: raise Refused(3)
    return str(int(s))


def time(s):
    m = re.fullmatch(rb"([0-9]*)(?:\.([0-9]{0,9}))?", utf8(s))
    if not m or not m[1] and not m[2]: raise Refused(5)
    seconds = int(m[1] or 0)
    if seconds >= 8388608: raise Refused(5)
    return "%d %d" % (seconds, int((m[2] or b"").ljust(9, b"0")))


def timestamp(s):
    m = re.fullmatch(rb"(\d{4})-(\d\d)-(\d\d)[Tt](\d\d):(\d\d):(\d\d)(?:\.(\d{1,9}))?(?:[Zz]|([+-])(\d\d):(\d\d))", utf8(s))
    if not m: raise Refused(4)
    year, month, day, hour, minute, second = (int(m[k]) for k in range(1, 7))
    leap = year % 4 == 0 and (year % 100 != 0 or year % 400 == 0)
    if not 1 <= month <= 12 or not 1 <= day <= DAYS[month - 1] + (month == 2 and leap): raise Refused(4)
    if hour > 23 or minute > 59 or second > 59: raise Refused(4)
    offset = 0
    if m[8]:
        if int(m[9]) > 23 or int(m[10]) > 59: raise Refused(4)
        offset = (int(m[9]) * 60 + int(m[10])) * (1 if m[8] == b"+" else -1)
    nanos = int((m[7] or b"").ljust(9, b"0"))
    return " ".join(map(str, (year, month, day, hour, minute, second, nanos, offset + 1439)))


def uuid(s):
    if not re.fullmatch(rb"[0-9a-fA-F]{8}(-[0-9a-fA-F]{4}){3}-[0-9a-fA-F]{12}", utf8(s)): raise Refused(6)
    digits = s.replace(b"-", b"").decode().lower()
    return " ".join(digits[k:k + 8] for k in (0, 8, 16, 24))


def entity(s):
    if utf8(s)[:1] == b"#": return named(s).hex()
    if s not in FIVE: raise Refused(21)
    return bytes([FIVE[s]]).hex()


def room(s, full):
    """The program's areas have 64 bytes; full is the refusal of a shorter one."""
    if len(s) > 64: raise Refused(full)
    return s.hex()


def escape(s):
    return b"".join({0x22: b'\\"', 0x5C: b"\\\\", 10: b"\\n", 9: b"\\t", 13: b"\\r"}.get(b, bytes([b])) for b in s)


def written(s):
    """The float sum; Python prints a float's exact value rounded to three digits, ties to the even one."""
    seconds, nanos = map(int, s.split())
    return "%.3f" % (float(seconds) + float(nanos) / 1000000000.0)


LEAVES = {
    b"utf8": lambda s: "yes" if is_utf8(bytes.fromhex(s.decode())) else "no",
    b"char": lambda s: char(int(s)).hex(),
    b"text": lambda s: room(decoded(utf8(s)), 14),
    b"attribute": lambda s: room(filtered(decoded(utf8(s))), 13),
    b"cdata": lambda s: utf8(bytes.fromhex(s.decode())).hex(),
    b"indent": lambda s: b"\n".hex(),
    b"entity": entity,
    b"filter": lambda s: filtered(bytes.fromhex(s.decode())).hex(),
    b"trim": lambda s: trimmed(bytes.fromhex(s.decode())).hex(),
    b"integer": integer,
    b"time": time,
    b"timestamp": timestamp,
    b"uuid": uuid,
    b"escape": lambda s: escape(bytes.fromhex(s.decode())).hex(),
    b"written": lambda s: written(s).encode().hex(),
}

for line in sys.stdin.buffer.read().split(b"\n")[:-1]:
    leaf, _, text = line.partition(b" ")
    try:
        answer = LEAVES[leaf](text)
    except Refused as refusal:
        answer = "refused %d" % refusal.args
    sys.stdout.buffer.write(line + b": " + answer.encode() + b"\n")
