"""The shared library, by ctypes: the structs and calls of kerzhoma.h that this package uses."""
import ctypes
import os
import threading
from pathlib import Path
from typing import Optional, Union

MOST_ENTRIES = 65536
MOST_RECORDS = 65536
MOST_BYTES = 16777216
ENTRY = 5
RECORD = 32
NONE = 4294967295
# the kind of an Empty, behind that of a Start; the cause of a document without testsuites
EMPTY = 1
MISSING_REPORT = 9

NAMES = ("libkerzhoma.so.0", "libkerzhoma.so")


class CRefusal(ctypes.Structure):
    _fields_ = [
        ("number", ctypes.c_uint32),
        ("cause", ctypes.c_uint32),
        ("depth", ctypes.c_uint32),
        ("path", ctypes.c_uint32 * 18),
        ("event", ctypes.c_uint32),
        ("attribute", ctypes.c_uint32),
    ]


class CAnswer(ctypes.Structure):
    """kerzhoma_listing, kerzhoma_document and kerzhoma_explained."""

    _fields_ = [("length", ctypes.c_size_t), ("refusal", CRefusal)]


class CTokenized(ctypes.Structure):
    _fields_ = [
        ("events", ctypes.c_uint32),
        ("attributes", ctypes.c_uint32),
        ("number", ctypes.c_uint32),
        ("byte", ctypes.c_uint32),
    ]


_AREA = [ctypes.c_void_p, ctypes.c_size_t]
_SIGNATURES = {
    "kerzhoma_tokenize": (CTokenized, _AREA * 3),
    "kerzhoma_read": (CRefusal, _AREA * 6),
    "kerzhoma_list": (CAnswer, _AREA * 3),
    "kerzhoma_write_xml": (CAnswer, _AREA * 3),
    "kerzhoma_explain": (CAnswer, [CRefusal, ctypes.c_size_t] + _AREA * 4),
    "kerzhoma_explain_xml": (
        ctypes.c_size_t,
        _AREA + [ctypes.c_uint32, ctypes.c_uint32, ctypes.c_size_t, ctypes.c_size_t] + _AREA,
    ),
}


def _found() -> str:
    """The library's file: where KERZHOMA_LIB says, in this package, or in the repository; else its name, for the system to find."""
    here = Path(__file__).resolve().parent
    for folder in (os.environ.get("KERZHOMA_LIB"), here, here.parents[2] / "target" / "dist" / "lib"):
        for name in NAMES:
            if folder and (Path(folder) / name).is_file():
                return str(Path(folder) / name)
    return NAMES[0]


def _loaded() -> ctypes.CDLL:
    file = _found()
    try:
        library = ctypes.CDLL(file)
    except OSError as e:
        raise ImportError(
            f"kerzhoma: {file} isn't loaded ({e}); run ./build in the repository, or name a folder that has it in KERZHOMA_LIB"
        ) from e
    for name, (gives, takes) in _SIGNATURES.items():
        call = getattr(library, name)
        call.restype, call.argtypes = gives, takes
    return library


LIBRARY = _loaded()


class Area:
    """Memory that is lent to a call. New, it is zero."""

    __slots__ = ("bytes", "_held", "address")

    def __init__(self, size: int) -> None:
        self.bytes = bytearray(size)
        self._held = (ctypes.c_char * size).from_buffer(self.bytes)
        self.address = ctypes.addressof(self._held)

    def front(self, n: int) -> "tuple[int, int]":
        """So many bytes, or words."""
        return self.address, n

    def clear(self, n: int) -> None:
        ctypes.memset(self.address, 0, n)

    @property
    def lent(self) -> "tuple[int, int]":
        return self.address, len(self.bytes)


# What is kept of the areas that reading works in, at most: new memory costs as much time as reading does.
KEPT = 33554432


class Areas(threading.local):
    """The areas that a thread reads in, used again by its next call. What is given back holds no text."""

    def __init__(self) -> None:
        self.kept: "dict[str, Area]" = {}

    def take(self, name: str, size: int) -> Area:
        area = self.kept.pop(name, None)
        return area if area and len(area.bytes) >= size else Area(size)

    def give_back(self, **areas: Area) -> None:
        if sum(len(area.bytes) for area in areas.values()) <= KEPT:
            self.kept.update(areas)


class Source:
    """Bytes that a call looks at: those of an object, or the front of an area."""

    __slots__ = ("data", "_held", "lent")

    def __init__(self, data: "Union[bytes, Area]", length: Optional[int] = None) -> None:
        self.data, self._held = data, None
        if isinstance(data, Area):
            self.lent = (data.address, length or 0)
        else:
            self._held = ctypes.c_char_p(data)
            self.lent = (ctypes.cast(self._held, ctypes.c_void_p).value, len(data))

    @property
    def bytes(self) -> bytes:
        return bytes(self.data.bytes[: self.lent[1]]) if isinstance(self.data, Area) else self.data
