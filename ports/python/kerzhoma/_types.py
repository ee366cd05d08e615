"""Reports as values."""
from __future__ import annotations

import datetime
import uuid
from dataclasses import dataclass, field
from typing import Any, Callable, Dict, List, Optional


@dataclass(frozen=True, slots=True)
class Timestamp:
    """A moment as a report has it: a real date of the years 0 to 9999, and an offset of less than a day."""

    year: int
    month: int
    day: int
    hour: int
    minute: int
    second: int
    nanosecond: int = 0
    offset_minutes: int = 0

    def __str__(self) -> str:
        """RFC 3339, with as many digits of the fraction as it has."""
        fraction = f".{self.nanosecond:09}".rstrip("0") if self.nanosecond else ""
        away, sign = abs(self.offset_minutes), "-" if self.offset_minutes < 0 else "+"
        date = f"{self.year:04}-{self.month:02}-{self.day:02}T{self.hour:02}:{self.minute:02}:{self.second:02}"
        return f"{date}{fraction}{sign}{away // 60:02}:{away % 60:02}"

    def datetime(self) -> datetime.datetime:
        """The same in the standard library's type, to the microsecond; it has no year 0."""
        zone = datetime.timezone(datetime.timedelta(minutes=self.offset_minutes))
        date = (self.year, self.month, self.day, self.hour, self.minute, self.second)
        return datetime.datetime(*date, self.nanosecond // 1000, zone)

    @classmethod
    def of(cls, t: datetime.datetime) -> "Timestamp":
        """From the standard library's type; one without a zone is taken as UTC."""
        offset = t.utcoffset() or datetime.timedelta()
        minutes, more = divmod(offset, datetime.timedelta(minutes=1))
        if more:
            raise ValueError("an offset must be whole minutes")
        return cls(t.year, t.month, t.day, t.hour, t.minute, t.second, t.microsecond * 1000, minutes)


@dataclass(slots=True)
class Property:
    """A property's name and value."""

    name: str
    value: str


@dataclass(slots=True)
class Run:
    """A run of a case that didn't pass."""

    kind: str = "failure"
    """`failure` or `error`."""
    timestamp: Optional[Timestamp] = None
    time: Optional[float] = None
    """In seconds, as all times."""
    message: Optional[str] = None
    type: Optional[str] = None
    stack_trace: Optional[str] = None
    system_out: Optional[str] = None
    system_err: Optional[str] = None
    description: Optional[str] = None


@dataclass(slots=True)
class TestCase:
    """A case."""

    name: str
    outcome: str = "success"
    """`success`, `failure`, `error` or `skipped`."""
    classname: Optional[str] = None
    assertions: Optional[int] = None
    timestamp: Optional[Timestamp] = None
    time: Optional[float] = None
    message: Optional[str] = None
    """Message, type and description are those of the failure, error or skip; a success has none."""
    type: Optional[str] = None
    description: Optional[str] = None
    runs: List[Run] = field(default_factory=list)
    """Runs before; a skipped case has none."""
    rerun_kind: str = "rerun"
    """Of a failure or error: whether its runs are `flaky` or `rerun`. Those of a success are flaky."""
    system_out: Optional[str] = None
    system_err: Optional[str] = None
    extra: Dict[str, str] = field(default_factory=dict)
    """Other attributes."""
    properties: List[Property] = field(default_factory=list)

    def __getattr__(self, name: str) -> Any:
        """The default of a field that reading left out."""
        make = _CASE_DEFAULTS.get(name)
        if make is None:
            raise AttributeError(name)
        value = make()
        setattr(self, name, value)
        return value


_CASE_DEFAULTS: Dict[str, Callable[[], Any]] = {
    name: list if name in ("runs", "properties") else dict if name == "extra" else lambda: None
    for name in TestCase.__slots__
    if name != "name"
}
_CASE_DEFAULTS.update(outcome=lambda: "success", rerun_kind=lambda: "rerun")
# they are no tests of pytest's
TestCase.__test__ = False  # type: ignore[attr-defined]


@dataclass(slots=True)
class TestSuite:
    """A suite. Its counts are those that the report states; `count` counts its cases."""

    name: str
    tests: int = 0
    failures: int = 0
    errors: int = 0
    skipped: int = 0
    disabled: Optional[int] = None
    timestamp: Optional[Timestamp] = None
    time: Optional[float] = None
    cases: List[TestCase] = field(default_factory=list)
    properties: List[Property] = field(default_factory=list)
    system_out: Optional[str] = None
    system_err: Optional[str] = None
    extra: Dict[str, str] = field(default_factory=dict)
    """Other attributes, such as `package`."""
    hostname: Optional[str] = None
    """The machine that it ran on."""

    def count(self) -> None:
        """Sets tests, failures, errors and skipped to what its cases come to."""
        outcomes = [case.outcome for case in self.cases]
        self.tests = len(outcomes)
        self.failures, self.errors, self.skipped = (outcomes.count(o) for o in ("failure", "error", "skipped"))


TestSuite.__test__ = False  # type: ignore[attr-defined]


@dataclass(slots=True)
class Report:
    """A report."""

    name: Optional[str] = None
    uuid: Optional[uuid.UUID] = None
    timestamp: Optional[Timestamp] = None
    time: Optional[float] = None
    tests: int = 0
    failures: int = 0
    errors: int = 0
    skipped: int = 0
    disabled: Optional[int] = None
    suites: List[TestSuite] = field(default_factory=list)

    def count(self) -> None:
        """Sets the counts of each suite to what its cases come to, and those of the report to their sums."""
        for suite in self.suites:
            suite.count()
        for name in ("tests", "failures", "errors", "skipped"):
            setattr(self, name, sum(getattr(suite, name) for suite in self.suites))
        disabled = [suite.disabled for suite in self.suites if suite.disabled is not None]
        self.disabled = sum(disabled) if disabled else None

    def listing(self) -> str:
        """The public listing: the cases with their outcomes, and no private text.

        Raises Refused where the report is above the limits, and ValueError where a field holds what no report has.
        """
        from ._calls import listing

        return listing(self)

    def to_xml(self) -> str:
        """The report as an XML document. Raises what `listing` raises."""
        from ._calls import to_xml

        return to_xml(self)
