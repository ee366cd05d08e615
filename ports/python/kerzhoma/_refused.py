"""Why a document or report is refused."""
from __future__ import annotations

from typing import Optional

_ELEMENTS = {
    1: "testsuites",
    2: "testsuite",
    3: "testcase",
    4: "properties",
    5: "property",
    6: "failure",
    7: "error",
    8: "skipped",
    9: "flakyFailure",
    10: "flakyError",
    11: "rerunFailure",
    12: "rerunError",
    14: "system-out",
    15: "system-err",
}
_ATTRIBUTES = (
    "?",
    "name",
    "classname",
    "uuid",
    "timestamp",
    "time",
    "tests",
    "failures",
    "errors",
    "skipped",
    "disabled",
    "assertions",
    "message",
    "type",
    "value",
    "stackTrace",
)


def path_of(words: "list[int]", depth: int) -> str:
    """`testsuites/testsuite[0]/@time`, without names."""
    elements = []
    for kind, index in zip(words[0 : 3 * depth : 3], words[1 : 3 * depth : 3]):
        if kind == 16:
            elements.append("@" + (_ATTRIBUTES[index] if index < len(_ATTRIBUTES) else "?"))
        elif kind in (2, 3, 5):
            elements.append(f"{_ELEMENTS[kind]}[{index}]")
        else:
            elements.append(_ELEMENTS.get(kind, "?"))
    return "/".join(elements)


class Refused(ValueError):
    """A document that isn't a report, or a report that can't be listed or written.

    number: the number of docs/REFUSALS.md
    path:   where in the report, without the names of suite and case: `testsuites/testsuite[0]/@time`; empty where no element is concerned
    byte, line, column: where in the document; the byte from 0, line and column from 1; None where there is no document
    reason: the cause in words

    What it displays has no text of the document; `explain` tells the names of suite and case, which may be private.
    """

    number: int
    path: str
    byte: Optional[int]
    line: Optional[int]
    column: Optional[int]
    reason: str

    def __init__(self, line: str, explained: str, number: int, path: str = "", place: "Optional[tuple[int, int, int]]" = None) -> None:
        super().__init__(line)
        self.number = number
        self.path = path
        self.byte, self.line, self.column = place if place else (None, None, None)
        self.reason = line.partition(": ")[2]
        self._explained = explained
        self._told = (line, explained, number, path, place)

    def __reduce__(self) -> "tuple[type[Refused], tuple[object, ...]]":
        return Refused, self._told

    def explain(self) -> str:
        """The line of the command line's `explain`: with the names of suite and case, so it isn't for the public."""
        return self._explained


def place_of(source: bytes, byte: int) -> "tuple[int, int, int]":
    """A byte with its line and column: newlines before it, and characters behind the last of them."""
    begins = source.rfind(b"\n", 0, byte) + 1
    column = sum(1 for b in source[begins:byte] if b & 0xC0 != 0x80)
    return byte, source.count(b"\n", 0, byte) + 1, column + 1
