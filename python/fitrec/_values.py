"""Values of every kind, from the bytes that the library finds, and the developer fields as a file describes them."""

from __future__ import annotations

from bisect import bisect_left
from fractions import Fraction
from typing import Callable, Dict, List, NamedTuple, Optional, Tuple

import numpy as np

from ._library import Found, find
from .profile import Field

# How NumPy reads a value of each base type. The high bit of the byte says that a value has several bytes. The invalid value is the greatest
# one, of the types that end with z it is 0, and of floats each that is no number.
_TYPES = "u1 i1 u1 i2 u2 i4 u4 S1 f4 f8 u1 u2 u4 u1 i8 u8 u8".split()
_CODES = {at | (0x80 if code[1] > "1" else 0): code for at, code in enumerate(_TYPES)}
_STRING, _BYTE, _ENDING_WITH_Z = 0x07, 0x0D, (0x0A, 0x8B, 0x8C, 0x90)

_DESCRIPTION = 206
_INDEX, _NUMBER, _TYPE, _NAME, _SCALE, _OFFSET, _UNITS = 0, 1, 2, 3, 6, 7, 8

# The index of a developer, and the number of a field of it.
Key = Tuple[int, int]


class Described(NamedTuple):
    """The base type of a field, and its name and unit."""

    base: Optional[int]
    field: Field


class Part(NamedTuple):
    """The values of a field in the messages in which it is of one size, type, byte order and description: the places of these messages
    among those of their number, and a row of bytes for each. kind is "whole" for one whole number of at most 4 bytes, "number" for another
    one number, "numbers", "text" or "bytes"."""

    rows: np.ndarray
    block: np.ndarray
    base: Optional[int]
    big: bool
    kind: str
    field: Field


def _kind_of(base: Optional[int], size: int) -> str:
    if base == _STRING:
        return "text"
    if base not in _CODES or size % int(_CODES[base][1]) or (base == _BYTE and size > 1):
        return "bytes"
    if size != int(_CODES[base][1]):
        return "numbers"
    return "number" if _CODES[base][0] == "f" or size == 8 else "whole"


def _alike(keys: np.ndarray) -> List[np.ndarray]:
    """The places of each key, in the order in which they come first."""
    if not len(keys) or (keys == keys[0]).all():
        return [np.arange(len(keys))] if len(keys) else []
    order = np.argsort(keys, kind="stable")
    sorted_keys = keys[order]
    ends = [0, *(np.flatnonzero(sorted_keys[1:] != sorted_keys[:-1]) + 1).tolist(), len(keys)]
    return sorted((order[at:end] for at, end in zip(ends, ends[1:])), key=lambda it: it[0])


def parts(found: Found, field: Field) -> List[Part]:
    """The values of a native field."""
    return _parts(found, found.kinds, lambda base, key: Described(base, field))


def _parts(found: Found, keys: np.ndarray, described: Callable[[int, int], Described]) -> List[Part]:
    made = []
    for rows in [np.arange(len(keys))] if found.step and keys is found.kinds else _alike(keys):
        kind = int(found.kinds[rows[0]])
        size = kind & 0xFFFF
        if size:
            base, field = described(kind >> 16 & 0xFF, int(keys[rows[0]]))
            made.append(Part(rows, _block(found, rows, size), base, kind >> 24 == 1, _kind_of(base, size), field))
    return made


def _block(found: Found, rows: np.ndarray, size: int) -> np.ndarray:
    """The bytes of values of one size, a row for each."""
    if found.step and len(rows) == len(found.kinds):
        values = np.ndarray(len(rows), "V%d" % size, found.data, found.starts[0], (found.step,))
        return values.copy().view(np.uint8).reshape(len(rows), size)
    return found.data[found.starts[rows][:, None] + np.arange(size)]


def numbers(part: Part) -> Tuple[np.ndarray, np.ndarray]:
    """The numbers of a field, a row for each message, and which of them are invalid."""
    found = part.block.view((">" if part.big else "<") + _CODES[part.base])
    if found.dtype.kind == "f":
        return found, np.isnan(found)
    return found, found == (0 if part.base in _ENDING_WITH_Z else np.iinfo(found.dtype).max)


def texts(part: Part) -> List[Optional[str]]:
    """The strings of a field, each up to its first zero byte. One that is no UTF-8 is read as Latin-1, and an empty one is none."""
    found = []
    for row in part.block:
        text = row.tobytes().split(b"\0")[0]
        try:
            found.append(text.decode() or None)
        except UnicodeDecodeError:
            found.append(text.decode("latin-1"))
    return found


def raw_bytes(part: Part) -> List[Optional[bytes]]:
    """The bytes of a field; none if its type is byte and each is FF."""
    rows = [row.tobytes() for row in part.block]
    return [None if part.base == _BYTE and row.count(255) == len(row) else row for row in rows]


def _firsts(found: Found) -> List[object]:
    """The first value of a field in each message, None for none."""
    firsts: List[object] = [None] * len(found.kinds)
    for part in parts(found, Field(0, "")):
        values: List[object] = []
        if part.kind == "text":
            values += texts(part)
        elif part.kind != "bytes":
            read, invalid = numbers(part)
            values += [None if is_none else it for it, is_none in zip(read[:, 0].tolist(), invalid[:, 0].tolist())]
        for row, value in zip(part.rows.tolist(), values):
            firsts[row] = value
    return firsts


def _whole(value: object, least: int = 0, most: int = 255) -> Optional[int]:
    """The value, if it is a whole number in this range."""
    return value if isinstance(value, int) and least <= value <= most else None


def descriptions(data) -> Dict[Key, Tuple[List[int], List[Described]]]:
    """What the messages field_description of a file say of each developer field, after the places of these messages."""
    found = find(data, _DESCRIPTION, [_INDEX, _NUMBER, _TYPE, _NAME, _SCALE, _OFFSET, _UNITS])
    firsts, rows = _firsts(Found(*(it.ravel() for it in found[:-1]), 0)), len(found.messages[0])
    said: Dict[Key, Tuple[List[int], List[Described]]] = {}
    for place, index, number, base, name, scale, offset, unit in zip(
            found.messages[0].tolist(), *(firsts[at * rows:(at + 1) * rows] for at in range(7))):
        key = _whole(index), _whole(number)
        name, unit = (it if isinstance(it, str) else "" for it in (name, unit))
        if None not in key:
            places, ways = said.setdefault(key, ([], []))
            places.append(place)
            ways.append(Described(_whole(base), Field(
                key[1], name or "developer_%d_%d" % key, unit, Fraction(_whole(scale) or 1), _whole(offset, -128, 127) or 0)))
    return said


def described_parts(found: Found, key: Key, places: List[int], ways: List[Described]) -> List[Part]:
    """The values of a developer field, each as the last of its descriptions before its message says."""
    ways = [Described(None, Field(key[1], "developer_%d_%d" % key)), *ways]
    first, last = (bisect_left(places, int(it)) for it in found.messages[[0, -1]])
    if first == last:
        return _parts(found, found.kinds, lambda base, kind: ways[first])
    which = np.searchsorted(places, found.messages)
    return _parts(found, found.kinds | which << 32, lambda base, way: ways[way >> 32])
