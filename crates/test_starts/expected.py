#!/usr/bin/env python3
"""What the program should print, from the records in `stdin`: the first and last start by the rules D1 to D7, dates counted by going along
years and months one by one. Run it here: expected.py | cmp - stdout"""
import re

LENGTHS = (31, 28, 31, 30, 31, 30, 31, 31, 30, 31, 30, 31)
STAMP = re.compile(r"(\d{4})-(\d\d)-(\d\d)T(\d\d):(\d\d):(\d\d)(?:\.(\d+))?(?:Z|([+-])(\d\d):(\d\d))")


def is_leap(year):
    return year % 4 == 0 and (year % 100 != 0 or year % 400 == 0)


def days_to(year, month, day):
    days = sum(366 if is_leap(y) else 365 for y in range(year))
    return days + sum(LENGTHS[m - 1] + (m == 2 and is_leap(year)) for m in range(1, month)) + day - 1


def stored(text):
    *numbers, fraction, sign, hours, minutes = STAMP.fullmatch(text).groups()
    away = 60 * int(hours or 0) + int(minutes or 0)
    return *map(int, numbers), int((fraction or "").ljust(9, "0")), 1439 + (-away if sign == "-" else away)


def nanoseconds(moment):
    year, month, day, hour, minute, second, nanos, offset = moment
    minutes = (days_to(year, month, day) * 24 + hour) * 60 + minute - (offset - 1439)
    return (minutes * 60 + second) * 10**9 + nanos


def is_layout(kinds):
    return kinds[:1] == ["report"] and (len(kinds) == 1 or kinds[1] == "suite")


def told(records):
    kinds = [kind for kind, _ in records if kind != "dead"]
    moments = [stored(text) for kind, text in records if kind == "case" and text]
    none = (0,) * 8
    if not is_layout(kinds):
        return "refused", none, none, (0, 0)
    if not moments:
        return "none", none, none, (0, 0)
    # min and max take the first of equals
    first, last = min(moments, key=nanoseconds), max(moments, key=nanoseconds)
    return "found", first, last, divmod(nanoseconds(last) - nanoseconds(first), 10**9)


def main():
    records = []
    for line in open("stdin"):
        kind, _, text = line.rstrip("\n").partition(" ")
        if kind != "tell":
            records.append((kind, text))
            continue
        found, *numbers = told(records)
        print(f"{found}: " + ", ".join(" ".join(map(str, part)) for part in numbers))
        records = []


main()
