"""The shared library libfitrec.so, whose calls include/fitrec.h declares."""

from __future__ import annotations

import ctypes
import ctypes.util
import os
import pathlib
from typing import Any, List, NamedTuple, Optional, Tuple

import numpy as np

NO_VALUE = np.iinfo(np.int64).min
MOST_COLUMNS = 128

# The codes of fields: a number, or that of a developer field and 256 times one more than its index.
CODES = 256 + 256 * 256

_MEMORY, _NO_ROOM = 10, 20
# The kind of what exceeds the most bytes that the user allows.
OVER_LIMIT = "OverLimit"
# What the library refuses a file for, by its answer; of those from 10 on only a time that is too far has a place.
FAULTS = {1: "Truncated", 2: "HeaderSize", 3: "Magic", 4: "Protocol", 5: "HeaderCrc", 6: "UndefinedLocal", 7: "SplitMessage",
          8: "FileCrc", 9: "TrailingBytes", 11: "NoFileId", 12: "NotActivity", 13: "NoLap", 14: "NoSession", 15: "NoActivity",
          20: OVER_LIMIT, 21: "TooLong", 22: "TooLarge", 26: "NoSample", 27: "NoTime",
          28: "TimeTooFar", 29: "OtherSport", 30: "Overlap", 32: "TooManyFiles"}
# For how many messages a filler has room at first, and for how many it keeps it.
_USUAL_ROWS, _MOST_KEPT_ROWS = 4096, 65536
# What the library says of a value: the place of its message, where in that it begins, and its size, base type byte and byte order.
_HEAD = np.dtype((np.uint32, 3))


class FitError(ValueError):
    """The bytes are no FIT file, or one of another kind than is asked for, or more than are allowed.

    kind is the fault, such as "HeaderSize", "NotActivity" or "OverLimit", and place its offset in bytes, None if it has none. path is the
    name of the file, if it has one."""

    def __init__(self, kind: str, place: Optional[int], path: Optional[str] = None):
        super().__init__(("%s: " % path if path is not None else "") + kind + (" at %d" % place if place is not None else ""))
        self.kind, self.place, self.path = kind, place, path

    def __reduce__(self) -> Tuple[type, Tuple[str, Optional[int], Optional[str]]]:
        return FitError, (self.kind, self.place, self.path)


class Found(NamedTuple):
    """The values of fields, a row for each. For each message: its place in the file, where in it the value begins, the kind of the value
    (its size in the two low bytes, its base type byte, and 1 for big-endian order), and where its bytes begin among these. step is how far
    that is from one message to the next, if each field has values of one kind, and else 0."""

    messages: np.ndarray
    at: np.ndarray
    kinds: np.ndarray
    starts: np.ndarray
    data: np.ndarray
    step: int

    def of(self, row: int) -> Found:
        """The values of one field."""
        return Found(self.messages[row], self.at[row], self.kinds[row], self.starts[row], self.data, self.step)


def _found() -> str:
    own = pathlib.Path(__file__).resolve().parent / "libfitrec.so"
    name = os.environ.get("FITREC_LIBRARY") or (str(own) if own.exists() else ctypes.util.find_library("fitrec"))
    if not name:
        raise ImportError("there is no libfitrec.so: ./build-shared of fitrec makes it, and FITREC_LIBRARY names it")
    return name


_library = ctypes.CDLL(_found())


def call(name: str, *arguments: Any, answer: Any = ctypes.c_uint8) -> Any:
    """A call of the library, whose arguments have these types."""
    found = getattr(_library, name)
    found.restype, found.argtypes = answer, list(arguments)
    return found


_BUFFER = [ctypes.c_void_p, ctypes.c_size_t]
_columns, _values = (call(name, *_BUFFER, ctypes.c_uint16, *_BUFFER, ctypes.c_size_t, *_BUFFER, *_BUFFER, *[ctypes.c_void_p] * numbers)
                     for name, numbers in (("fitrec_fields", 2), ("fitrec_values", 3)))


def pointer_to(data: Any) -> Any:
    """What a call is handed for these bytes. It is never NULL."""
    return data if isinstance(data, bytes) else np.frombuffer(data if len(data) else bytes(1), np.uint8).ctypes.data_as(ctypes.c_void_p)


def _asked(ask: Any, numbers: int, data: Any, message: int, fields: np.ndarray, kind, room: int, other: np.ndarray) -> np.ndarray:
    """A row of this kind for each field, with an item for each message, of which there may be so many, or more. No array is empty, so
    that none is NULL."""
    if not 0 <= message < 65536:
        raise ValueError("a message has a number below 65536")
    counts, many = (ctypes.c_uint64 * numbers)(), len(fields)
    counts_at = range(ctypes.addressof(counts), ctypes.addressof(counts) + 8 * numbers, 8)
    while True:
        out = np.empty((max(many, 1), max(room, 1)), kind)  # pages that are not written take no memory
        code = ask(pointer_to(data), len(data), message, fields.ctypes.data, many, room, out.ctypes.data, many * room,
                    other.ctypes.data, other.size, *counts_at)
        if code == 0:
            return out[:many, :counts[0]]
        if code != _NO_ROOM:
            _refuse(code, counts[numbers - 1])
        room = counts[0]


def _refuse(code: int, place: int) -> None:
    if code == _MEMORY:
        raise MemoryError("the library found no memory")
    if code:
        raise FitError(FAULTS[code], place)


def fill(data: bytes | np.ndarray, message: int, fields: List[int]) -> Tuple[np.ndarray, np.ndarray]:
    """A row of int64 for each field, with a value for each message of this global number, or NO_VALUE. And at each code what the messages
    hold: 0 is no such field, 1 no bytes, 2 whole numbers of at most 4 bytes, 3 other values. It raises FitError."""
    if not all(0 <= field < 256 for field in fields):
        raise ValueError("a field has a number below 256")
    held = np.empty(CODES, np.uint8)
    return _asked(_columns, 2, data, message, np.array([*fields, 0], np.uint8)[:len(fields)], np.int64,
                  len(data) // 16 + 64, held), held


def find(data: bytes | np.ndarray, message: int, codes: List[int], room: int = 64) -> Found:
    """The values of the fields with these codes, no two of them the same, in so many messages or more. It raises FitError."""
    values = np.empty(len(data) + 1, np.uint8)
    heads = _asked(_values, 3, data, message, np.array(codes, np.uint32), _HEAD, room, values)
    kinds = heads[:, :, 2]
    if kinds.size and (kinds == kinds[:, :1]).all():
        sizes = kinds[:, :1] & 0xFFFF
        starts, step = np.cumsum(sizes, dtype=np.int64)[:, None] - sizes, int(sizes.sum())
    else:
        sizes, step = kinds.T & 0xFFFF, 0
        starts = (np.cumsum(sizes, dtype=np.int64).reshape(sizes.shape) - sizes).T
    return Found(heads[:, :, 0], heads[:, :, 1], kinds, starts + step * np.arange(kinds.shape[1]) if step else starts, values, step)


class Filler:
    """Reads the same fields of file after file, as `fill` does, into room that is used again. `held` is what the messages of the last file
    hold at each code."""

    def __init__(self, message: int, fields: List[int], developer: bool):
        self.message, self.many = message, len(fields)
        self.held = np.empty(CODES if developer else 256, np.uint8)
        self._numbers = np.array([*fields, 0], np.uint8)
        self._counts = (ctypes.c_uint64 * 2)()
        self._at = self._numbers.ctypes.data, self.held.ctypes.data, ctypes.addressof(self._counts)
        self._make_room(_USUAL_ROWS)

    def _make_room(self, rows: int) -> None:
        self._out = np.empty((max(self.many, 1), max(rows, 1)), np.int64)
        self._out_at = self._out.ctypes.data

    def __call__(self, data: bytes, most_rows: Optional[int]) -> np.ndarray:
        """A row for each field, which stays until the next call. More than so many values for each are refused."""
        if self._out.shape[1] > _MOST_KEPT_ROWS:
            self._make_room(_USUAL_ROWS)
        rows = self.into(data, self._out_at, self._out.shape[1])
        while rows is None:
            if most_rows is not None and self._counts[0] > most_rows:
                raise FitError(OVER_LIMIT, None)
            self._make_room(self._counts[0])
            rows = self.into(data, self._out_at, self._out.shape[1])
        return self._out[:self.many, :rows]

    def into(self, data: bytes, out: int, room: int) -> Optional[int]:
        """Fills columns in the memory from this address on, which is that of so many values for each. Answers how many they have, None if
        there is no room for all."""
        numbers, held, counts = self._at
        for at in range(0, max(self.many, 1), MOST_COLUMNS):
            many = min(self.many - at, MOST_COLUMNS)
            code = _columns(data, len(data), self.message, numbers + at, many, room, out + 8 * at * room, many * room,
                            held, len(self.held), counts, counts + 8)
            if code == _NO_ROOM:
                return None
            if code:
                _refuse(code, self._counts[1])
        return self._counts[0]
