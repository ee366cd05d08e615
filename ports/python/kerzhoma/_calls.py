"""Reading, listing and writing."""
from __future__ import annotations

import os
import stat
import struct
from typing import Any, BinaryIO, List, Union

from ._decode import report_of
from ._encode import laid_out
from ._library import EMPTY, ENTRY, LIBRARY, MISSING_REPORT, MOST_BYTES, MOST_ENTRIES, MOST_RECORDS, NONE, RECORD
from ._library import Area, Areas, CAnswer, CRefusal, Source
from ._refused import Refused, path_of, place_of
from ._types import Report


_AREAS = Areas()


def read(file: "Union[str, bytes, os.PathLike[str], BinaryIO]") -> Report:
    """Reads a report from an XML document: a file by its name, or one that is open for bytes.

    Raises Refused where it isn't a report, and OSError where the file can't be read.
    """
    if hasattr(file, "read"):
        # a byte more than a document can have, so that a longer one is refused
        return loads(file.read(MOST_BYTES + 1))  # type: ignore[union-attr]
    with open(file, "rb", buffering=0) as f:  # type: ignore[arg-type]
        info = os.fstat(f.fileno())
        if not stat.S_ISREG(info.st_mode) or info.st_size > MOST_BYTES:
            return loads(_rest(f))
        area = _AREAS.take("source", info.st_size + 1)
        length = f.readinto(memoryview(area.bytes)[: info.st_size + 1])
        if length != info.st_size:
            return loads(bytes(area.bytes[:length]) + _rest(f))
    report = _report(Source(area, length))
    area.clear(length)
    _AREAS.give_back(source=area)
    return report


def _rest(f: BinaryIO) -> bytes:
    parts, left = [], MOST_BYTES + 1
    while left > 0 and (part := f.read(min(left, 1 << 20))):
        parts.append(part)
        left -= len(part)
    return b"".join(parts)


def loads(document: Union[bytes, str]) -> Report:
    """Reads a report from an XML document in memory. Raises Refused where it isn't a report."""
    return _report(Source(document.encode() if isinstance(document, str) else bytes(document)))


def _report(source: Source) -> Report:
    size = min(source.lent[1], MOST_BYTES)
    most = ENTRY * min(size + 1, MOST_ENTRIES), ENTRY * min(size // 4, MOST_ENTRIES)
    events, attributes = _AREAS.take("events", 4 * most[0]), _AREAS.take("attributes", 4 * most[1])
    told = LIBRARY.kerzhoma_tokenize(*source.lent, *events.front(most[0]), *attributes.front(most[1]))
    if told.number:
        raise _document_refused(source, told.number, told.byte)
    table = [*events.front(ENTRY * told.events), *attributes.front(ENTRY * told.attributes), *source.lent]
    # a record for each element and attribute, and a word for each attribute; a text is no longer than its bytes in the document
    needs = RECORD * min(_elements(events, told.events) + told.attributes + told.attributes // 32 + 1, MOST_RECORDS)
    of_text, of_scratch = min(size + told.events + 4 * told.attributes, MOST_BYTES), min(size + told.events, MOST_BYTES)
    records, text, scratch = _AREAS.take("records", 4 * needs), _AREAS.take("text", of_text), _AREAS.take("scratch", of_scratch)
    refusal = LIBRARY.kerzhoma_read(*table, *records.front(needs), *text.front(of_text), *scratch.front(of_scratch))
    if refusal.number:
        raise _refused(refusal, table, source.bytes, events, attributes)
    report = report_of(records, needs, text, of_text)
    # scratch is zero behind reading, and the other two hold numbers
    _AREAS.give_back(events=events, attributes=attributes, records=records, text=text, scratch=scratch)
    return report


def _elements(events: Area, n: int) -> int:
    """How many Starts and Empties there are."""
    kinds = events.bytes[: 4 * ENTRY * n : 4 * ENTRY]
    return kinds.count(0) + kinds.count(1)


def _line(refusal: CRefusal, given: List[Any]) -> str:
    """The refusal in words, with the names of suite and case where the table is given."""
    size = 4096
    while True:
        out = Area(size)
        told = LIBRARY.kerzhoma_explain(refusal, MOST_BYTES, *given, *out.lent)
        if told.refusal.number == 0:
            return out.bytes[: told.length].decode().rstrip("\n")
        size *= 16


def _refused(refusal: CRefusal, given: List[Any], source: bytes, events: Area, attributes: Area) -> Refused:
    plain = _line(refusal, [None, 0] * 3)
    place = place_of(source, _byte_of(refusal, given[1] // ENTRY, len(source), events, attributes))
    return Refused(plain, _line(refusal, given), refusal.number, path_of(list(refusal.path), refusal.depth), place)


def _byte_of(refusal: CRefusal, n: int, end: int, events: Area, attributes: Area) -> int:
    """Where it arose: the attribute's value, or its key where that is empty; the root element where there is no report; else the event."""
    if refusal.attribute != NONE:
        _, key, _, value, length = struct.unpack_from("<5I", attributes.bytes, 4 * ENTRY * refusal.attribute)
        return value if length else key
    if refusal.cause == MISSING_REPORT:
        for kind, start, *_ in struct.iter_unpack("<5I", memoryview(events.bytes)[: 4 * ENTRY * n]):
            if kind <= EMPTY:
                return start
    if refusal.event < n:
        _, start, length, *_ = struct.unpack_from("<5I", events.bytes, 4 * ENTRY * refusal.event)
        return start if length else end
    return end


def _document_refused(source: Source, number: int, byte: int) -> Refused:
    out = Area(256)
    length = LIBRARY.kerzhoma_explain_xml(*source.lent, number, byte, ENTRY * MOST_ENTRIES, ENTRY * MOST_ENTRIES, *out.lent)
    line = out.bytes[:length].decode().rstrip("\n")
    if byte == NONE:
        byte = MOST_BYTES if number == 11 else _first_too_many(source)
    return Refused(line, line, number, "", place_of(source.bytes, byte))


def _first_too_many(source: Source) -> int:
    """The byte with which an event or attribute is due that has no room: a front that ends before it only ends too early."""
    address, size = source.lent
    events, attributes = Area(4 * ENTRY * MOST_ENTRIES), Area(4 * ENTRY * MOST_ENTRIES)
    areas = [*events.front(ENTRY * MOST_ENTRIES), *attributes.front(ENTRY * MOST_ENTRIES)]
    good, bad = 0, size
    while bad - good > 1:
        middle = (good + bad) // 2
        if LIBRARY.kerzhoma_tokenize(address, middle, *areas).number == 16:
            bad = middle
        else:
            good = middle
    return bad - 1


def _answered(call: str, report: Report, size: int) -> str:
    records, text = (Source(part) for part in laid_out(report))
    areas = [records.lent[0], records.lent[1] // 4, *text.lent]
    while True:
        out = Area(size)
        told: CAnswer = getattr(LIBRARY, call)(*areas, *out.lent)
        if told.refusal.number == 0:
            return out.bytes[: told.length].decode()
        if told.refusal.number != 16 or size >= 8 * MOST_BYTES:
            line = _line(told.refusal, [None, 0] * 3)
            raise Refused(line, line, told.refusal.number)
        size *= 4


def listing(report: Report) -> str:
    return _answered("kerzhoma_list", report, 65536)


def to_xml(report: Report) -> str:
    return _answered("kerzhoma_write_xml", report, 262144)
