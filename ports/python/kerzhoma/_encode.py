"""Reports laid out in two areas, by docs/TREE.md."""
from __future__ import annotations

import struct
from typing import Any, List, Optional

from ._library import MOST_BYTES, MOST_RECORDS
from ._types import Report, Run, TestCase, TestSuite, Timestamp

_RECORD = struct.Struct("<32I")
_MAINS = {"failure": 6, "error": 7, "skipped": 8}
_RUNS = {("flaky", "failure"): 9, ("flaky", "error"): 10, ("rerun", "failure"): 11, ("rerun", "error"): 12}
# the characters that reports don't have
_FILTER = dict.fromkeys([*range(9), 11, 12, *range(14, 32)])


class _Layout:
    def __init__(self) -> None:
        self.rows: List[List[int]] = []
        self.text: List[bytes] = []
        self.fill = 0

    def open(self, kind: int) -> List[int]:
        row = [0] * 32
        row[0] = kind
        self.rows.append(row)
        if len(self.rows) > MOST_RECORDS:
            raise ValueError(f"a report has at most {MOST_RECORDS} records")
        return row

    def put(self, row: List[int], bit: int, word: int, text: Optional[str]) -> None:
        if text is None:
            return
        data = text.translate(_FILTER).encode()
        row[1] |= 1 << bit
        row[word], row[word + 1] = self.fill, len(data)
        self.fill += len(data)
        if self.fill > MOST_BYTES:
            raise ValueError(f"the texts of a report have at most {MOST_BYTES} bytes")
        self.text.append(data)

    def number(self, row: List[int], word: int, n: int) -> None:
        if not 0 <= n < 1 << 64:
            raise ValueError(f"a count is 0 to 18446744073709551615, and this is {n}")
        row[word], row[word + 1] = n & 0xFFFFFFFF, n >> 32

    def times(self, row: List[int], timestamp: Optional[Timestamp], time: Optional[float]) -> None:
        if timestamp is not None:
            t = timestamp
            fields = [t.year, t.month, t.day, t.hour, t.minute, t.second, t.nanosecond, t.offset_minutes + 1439]
            if not all(0 <= n < 1 << 32 for n in fields):
                raise ValueError(f"no moment: {t}")
            row[8:16] = fields
            row[1] |= 8
        if time is not None:
            row[16], row[17] = divmod(nanoseconds(time), 1_000_000_000)
            row[1] |= 16

    def counts(self, row: List[int], of: Any) -> None:
        for word, n in ((18, of.tests), (20, of.failures), (22, of.errors), (24, of.skipped)):
            self.number(row, word, n)
        if of.disabled is not None:
            self.number(row, 26, of.disabled)
            row[1] |= 256

    def pair(self, kind: int, name: str, value: str) -> None:
        row = self.open(kind)
        self.put(row, 0, 2, name)
        self.put(row, 1, 4, value)

    def report(self, report: Report) -> None:
        row = self.open(1)
        self.put(row, 0, 2, report.name)
        if report.uuid is not None:
            row[4:8] = struct.unpack(">4I", report.uuid.bytes)
            row[1] |= 2
        self.times(row, report.timestamp, report.time)
        self.counts(row, report)
        for suite in report.suites:
            self.suite(suite)

    def suite(self, suite: TestSuite) -> None:
        row = self.open(2)
        self.put(row, 0, 2, suite.name)
        self.put(row, 1, 4, suite.system_out)
        self.put(row, 2, 6, suite.system_err)
        self.times(row, suite.timestamp, suite.time)
        self.counts(row, suite)
        self.put(row, 10, 28, suite.hostname)
        for key, value in suite.extra.items():
            self.pair(13, key, value)
        for p in suite.properties:
            self.pair(4, p.name, p.value)
        for case in suite.cases:
            self.case(case)

    def case(self, case: TestCase) -> None:
        row = self.open(3)
        self.put(row, 0, 2, case.name)
        self.put(row, 1, 4, case.system_out)
        self.put(row, 2, 6, case.system_err)
        self.times(row, case.timestamp, case.time)
        self.put(row, 5, 18, case.classname)
        if case.assertions is not None:
            self.number(row, 20, case.assertions)
            row[1] |= 64
        for key, value in case.extra.items():
            self.pair(14, key, value)
        for p in case.properties:
            self.pair(5, p.name, p.value)
        self.status(case)

    def status(self, case: TestCase) -> None:
        family = "flaky" if case.outcome == "success" else case.rerun_kind
        if case.outcome not in ("success", *_MAINS) or family not in ("flaky", "rerun"):
            raise ValueError(f"no outcome: {case.outcome}, {family}")
        if case.outcome == "skipped" and case.runs:
            raise ValueError("a skipped case has no runs")
        if case.outcome == "success" and not (case.message is case.type is case.description is None):
            raise ValueError("a case that passed has no message, type or description")
        if case.outcome != "success":
            row = self.open(_MAINS[case.outcome])
            self.put(row, 0, 2, case.message)
            self.put(row, 5, 18, case.type)
            self.put(row, 6, 20, case.description)
            if family == "flaky" and not case.runs and case.outcome != "skipped":
                row[1] |= 512
        for run in case.runs:
            self.run(run, family)

    def run(self, run: Run, family: str) -> None:
        if (family, run.kind) not in _RUNS:
            raise ValueError(f"no kind of a run: {run.kind}")
        row = self.open(_RUNS[family, run.kind])
        self.put(row, 0, 2, run.message)
        self.put(row, 1, 4, run.system_out)
        self.put(row, 2, 6, run.system_err)
        self.times(row, run.timestamp, run.time)
        self.put(row, 5, 18, run.type)
        self.put(row, 6, 20, run.description)
        self.put(row, 7, 22, run.stack_trace)


def nanoseconds(time: float) -> int:
    """A time in nanoseconds. One that was read comes back exactly: its float is the nearest to no other time."""
    if not 0 <= time < 8388608:
        raise ValueError(f"a time is 0 to under 8388608 seconds, and this is {time}")
    about = round(time * 1e9)
    near = (n for n in (about, about - 1, about + 1, about - 2, about + 2) if n >= 0 and n / 1_000_000_000 == time)
    return min(next(near, about), 8388607_999999999)


def laid_out(report: Report) -> "tuple[bytes, bytes]":
    layout = _Layout()
    layout.report(report)
    return b"".join(_RECORD.pack(*row) for row in layout.rows), b"".join(layout.text)
