"""Reports from the two areas that reading leaves, by docs/TREE.md."""
from __future__ import annotations

import gc
import struct
import uuid
from operator import length_hint
from typing import Any, Union

from ._library import RECORD, Area
from ._types import Property, Report, Run, TestCase, TestSuite, Timestamp

# of the 32 words those at 0 to 5 and at 16 to 19, which most records have; the others are looked at where they are needed
_ROW = struct.Struct("<6I40x4I48x")
_COUNTS = struct.Struct("<5Q")
_MOMENT = struct.Struct("<8I")
# the three texts of a failure, error or skip
_MAIN = struct.Struct("<2I56x4I")
_PAIR = struct.Struct("<2I")
_NUMBER = struct.Struct("<Q")
_BYTES = 4 * RECORD
_OUTCOMES = {6: "failure", 7: "error", 8: "skipped"}


def _whole(text: memoryview) -> "Union[str, bytes]":
    """The text area, a string where it is ASCII, so that the places of its characters are those of the bytes."""
    # Latin-1 takes every byte, where an exception would keep a copy of them all
    whole = str(text, "latin-1")
    if whole.isascii():
        return whole
    # so that its memory is used again
    del whole
    return bytes(text)


def _used(words: memoryview) -> int:
    """How many records there are: those behind them are zero."""
    low, high = 0, len(words) // RECORD
    while low < high:
        middle = (low + high) // 2
        if words[middle * RECORD]:
            low = middle + 1
        else:
            high = middle
    return low


def report_of(records: Area, words: int, text: Area, length: int) -> Report:
    """Of the fronts of two areas, so many words and bytes; the areas are zero behind it."""
    used = _used(memoryview(records.bytes).cast("I")[:words])
    end = text.bytes.find(0, 0, length)
    end = length if end < 0 else end
    whole = _whole(memoryview(text.bytes)[:end])
    collects = gc.isenabled()
    # so many new objects would be looked through again and again
    gc.disable()
    try:
        return _Decoding(records.bytes, whole).report(used)
    finally:
        if collects:
            _settle()
            gc.enable()
        records.clear(_BYTES * used)
        text.clear(end)


def _settle() -> None:
    """Counts all objects as old ones, which are looked through seldom, unless the program has frozen some."""
    if gc.get_freeze_count() == 0:
        gc.freeze()
        gc.unfreeze()


class _Decoding:
    def __init__(self, records: bytearray, text: "Union[str, bytes]") -> None:
        self.records = records
        self.text: Any = text
        self.wide = isinstance(text, bytes)
        self.made = Report()
        self.suite: Any = None
        # the case of the last run, and its kind
        self.of: Any = None
        self.family = "rerun"

    def report(self, used: int) -> Report:
        cases: Any = None
        case: Any = None
        extra: Any = None
        # those before, as they stand in the area and as strings: most come again in the next case, and are kept once
        raw_class = classname = raw_key = key = raw_value = value = None
        new = object.__new__
        s, wide = self.text, self.wide
        rows = _ROW.iter_unpack(memoryview(self.records)[: used * _BYTES])
        for kind, bits, a, al, b, bl, seconds, nanos, p, pl in rows:
            if kind == 3:
                # what isn't set here is the field's default
                case = new(TestCase)
                raw = s[a : a + al]
                case.name = raw.decode() if wide else raw
                # most have name, classname and time alone, which is 49: one comparison is less than a test of each bit
                if bits == 49 or bits & 32:
                    raw = s[p : p + pl]
                    if raw != raw_class:
                        raw_class, classname = raw, raw.decode() if wide else raw
                    case.classname = classname
                if bits == 49 or bits & 16:
                    case.time = (seconds * 1e9 + nanos) / 1e9 if seconds else nanos / 1e9
                if bits != 49 and bits & 78:
                    self.case(case, _BYTES * (used - 1 - length_hint(rows)), bits)
                cases.append(case)
                extra = None
            elif kind == 14:
                raw = s[a : a + al]
                if raw != raw_key:
                    raw_key, key = raw, raw.decode() if wide else raw
                raw = s[b : b + bl]
                if raw != raw_value:
                    raw_value, value = raw, raw.decode() if wide else raw
                if extra is None:
                    case.extra = extra = {key: value}
                else:
                    extra[key] = value
            elif kind == 2:
                cases = self.add_suite(_BYTES * (used - 1 - length_hint(rows)), bits)
            else:
                self.other(case, _BYTES * (used - 1 - length_hint(rows)), kind, bits)
        return self.made

    def add_suite(self, at: int, bits: int) -> "list[TestCase]":
        """The list that its cases go into."""
        self.suite = suite = TestSuite(self.cut(at, 2))
        self.times(suite, at, bits)
        self.counts(suite, at, bits)
        self.outputs(suite, at, bits)
        if bits & 1024:
            suite.hostname = self.cut(at, 28)
        self.made.suites.append(suite)
        return suite.cases

    def other(self, case: Any, at: int, kind: int, bits: int) -> None:
        """A record that is neither suite nor case nor a case's extra."""
        if 6 <= kind <= 8:
            self.main(case, at, kind, bits)
        elif kind == 5:
            case.properties.append(Property(self.cut(at, 2), self.cut(at, 4)))
        elif 9 <= kind <= 12:
            self.run(case, at, kind, bits)
        elif kind == 13:
            self.suite.extra[self.cut(at, 2)] = self.cut(at, 4)
        elif kind == 4:
            self.suite.properties.append(Property(self.cut(at, 2), self.cut(at, 4)))
        elif kind == 1:
            report = self.made
            report.name = self.cut(at, 2) if bits & 1 else None
            report.uuid = uuid.UUID(bytes=struct.pack(">4I", *self.words(at, 4, 4))) if bits & 2 else None
            self.times(report, at, bits)
            self.counts(report, at, bits)

    def main(self, case: TestCase, at: int, kind: int, bits: int) -> None:
        s, wide = self.text, self.wide
        a, al, p, pl, d, dl = _MAIN.unpack_from(self.records, at + 8)
        case.outcome = _OUTCOMES[kind]
        if bits & 1:
            case.message = s[a : a + al].decode() if wide else s[a : a + al]
        if bits & 32:
            case.type = s[p : p + pl].decode() if wide else s[p : p + pl]
        if bits & 64:
            case.description = s[d : d + dl].decode() if wide else s[d : d + dl]
        # the main may stand behind its runs, which say of which kind they are
        if bits & 512 or (self.of is case and self.family == "flaky"):
            case.rerun_kind = "flaky"

    def words(self, at: int, word: int, n: int) -> "tuple[int, ...]":
        return struct.unpack_from(f"<{n}I", self.records, at + 4 * word)

    def cut(self, at: int, word: int) -> str:
        start, length = _PAIR.unpack_from(self.records, at + 4 * word)
        part = self.text[start : start + length]
        return part.decode() if self.wide else part

    def times(self, into: Any, at: int, bits: int) -> None:
        if bits & 8:
            *fields, offset = _MOMENT.unpack_from(self.records, at + 32)
            into.timestamp = Timestamp(*fields, offset - 1439)
        if bits & 16:
            seconds, nanos = _PAIR.unpack_from(self.records, at + 64)
            # all but the division is exact, so that this is the nearest float, which no other time has
            into.time = (seconds * 1e9 + nanos) / 1e9

    def counts(self, into: Any, at: int, bits: int) -> None:
        into.tests, into.failures, into.errors, into.skipped, disabled = _COUNTS.unpack_from(self.records, at + 72)
        into.disabled = disabled if bits & 256 else None

    def outputs(self, into: Any, at: int, bits: int) -> None:
        if bits & 2:
            into.system_out = self.cut(at, 4)
        if bits & 4:
            into.system_err = self.cut(at, 6)

    def case(self, case: TestCase, at: int, bits: int) -> None:
        self.outputs(case, at, bits)
        if bits & 8:
            self.times(case, at, bits)
        if bits & 64:
            (case.assertions,) = _NUMBER.unpack_from(self.records, at + 80)

    def run(self, case: TestCase, at: int, kind: int, bits: int) -> None:
        run = Run("failure" if kind in (9, 11) else "error")
        self.times(run, at, bits)
        self.outputs(run, at, bits)
        run.message = self.cut(at, 2) if bits & 1 else None
        run.type = self.cut(at, 18) if bits & 32 else None
        run.description = self.cut(at, 20) if bits & 64 else None
        run.stack_trace = self.cut(at, 22) if bits & 128 else None
        case.runs.append(run)
        self.of, self.family = case, "flaky" if kind <= 10 else "rerun"
        if case.outcome != "success":
            case.rerun_kind = self.family
