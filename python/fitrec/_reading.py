"""The columns of the messages of one number in one file."""

from __future__ import annotations

from itertools import chain, count
from typing import Dict, Iterable, List, NamedTuple, Optional, Set, Tuple, Union

import numpy as np

from ._columns import ENUM, Columns, named, whole
from ._library import MOST_COLUMNS, NO_VALUE, OVER_LIMIT, FitError, Found, fill, find
from ._values import Key, Part, described_parts, descriptions, numbers, parts, raw_bytes, texts
from .profile import USUAL, Field, enum_of, numbered, of_name, of_number

# Times count from 1989-12-31T00:00:00Z. Below the first calendar time they count from when the device was switched on.
_EPOCH, _FIRST_DATE = 631065600, 0x10000000
_DATES = ("date", "local_date")
_TIMESTAMP = 253

# What the messages hold at a code, from where on it has bytes, and if not all are whole numbers of at most 4.
_SOME, _OTHER = 2, 3

# The most columns of developer fields that a file gets by itself, as many as a table has.
_MOST_DEVELOPER = 128


class Column(NamedTuple):
    """What a column has: the field that names it, and of a developer field the values."""

    field: Field
    parts: Optional[List[Part]] = None


class File:
    """The messages of one number in a file. The library reads it when columns are asked for, which raises FitError."""

    def __init__(self, data, message: Union[int, str], most: Optional[int] = None):
        self.data, self.rows, self.most = data, 0, most
        self.message, self.known = numbered(message)
        self._whole: Dict[int, np.ndarray] = {}
        self._found: Dict[int, Found] = {}

    def columns(self) -> List[Column]:
        """The usual columns, and those of the other fields that the messages have."""
        usual = USUAL.get(self.message, [_TIMESTAMP])
        if self.most is not None:
            self._fill([])
            own = set(usual).union(np.flatnonzero(self._held[:256]).tolist())
            self._allow(len(own) + min(len(self._developer_codes(_SOME)), _MOST_DEVELOPER))
        self._fill(usual)
        present = [*usual, *(it for it in np.flatnonzero(self._held[:256]).tolist() if it not in usual)]
        self._fill(present)
        self._find(present, True)
        found = [Column(of_number(self.known, it)) for it in present]
        return found + self._developer_columns({it.field.name for it in found})[:_MOST_DEVELOPER]

    def chosen(self, fields: Iterable[Union[int, str]]) -> List[Optional[Column]]:
        """The columns of the fields with these names or numbers, None for a name that neither the Profile nor the file has."""
        chosen = [(it, of_number(self.known, it) if isinstance(it, int) else of_name(self.known, it)) for it in fields]
        own = [field.number for _, field in chosen if field]
        if self.most is not None:
            self._fill([])
            self._allow(len(chosen))
        self._fill(own)
        self._find(own, len(own) < len(chosen))
        return [Column(field) if field else self._named(name) for name, field in chosen]

    def _allow(self, columns: int) -> None:
        """Refuses so many columns if their values of 8 bytes are more than the most."""
        if self.most is not None and 8 * self.rows * columns > self.most:
            raise FitError(OVER_LIMIT, None)

    def _fill(self, wanted: List[int]) -> None:
        """Reads the fields with these numbers, as whole numbers of at most 4 bytes, and what the messages hold."""
        new = sorted(set(wanted) - set(self._whole))
        for at in range(0, max(len(new), not self._whole), MOST_COLUMNS):
            some = new[at:at + MOST_COLUMNS]
            table, self._held = fill(self.data, self.message, some)
            self._whole.update(zip(some, table))
            self.rows = table.shape[1]

    def _find(self, wanted: List[int], developer: bool) -> None:
        """Reads those of the fields with these numbers that are other values too, and all developer fields if they are asked for."""
        held = self._held[:256].tolist()
        new = [it for it in dict.fromkeys(wanted) if it != _TIMESTAMP and held[it] == _OTHER]
        new += self._developer_codes(_SOME) if developer else []
        for at in range(0, len(new), MOST_COLUMNS):
            some = new[at:at + MOST_COLUMNS]
            found = find(self.data, self.message, some, self.rows)
            self._found.update((code, found.of(row)) for row, code in enumerate(some))

    def _developer_codes(self, least: int) -> List[int]:
        """The codes of the developer fields that hold at least this."""
        held = self._held[256:]
        return (256 + np.flatnonzero(held >= least)).tolist() if held.max() >= least else []

    def _developer_fields(self) -> Dict[Key, Dict[Tuple[str, str], List[Part]]]:
        """The values of each developer field, by its index and number, and then by the name and the unit that the last description before
        it gives it; in the order in which they come first."""
        found: Dict[Key, Dict[Tuple[str, str], List[Part]]] = {}
        mine = sorted((_first(it), _key(code), code) for code, it in self._found.items() if code >= 256)
        said = descriptions(self.data) if mine else {}
        for _, key, code in mine:
            for part in described_parts(self._found[code], key, *said.get(key, ([], []))):
                found.setdefault(key, {}).setdefault((part.field.name, part.field.unit), []).append(part)
        return found

    def _developer_columns(self, taken: Set[str]) -> List[Column]:
        """The columns of the developer fields. One whose name is taken has the index and the number after it, and then a count."""
        found, taken = [], set(taken)
        for key, described in self._developer_fields().items():
            for (name, _), own in described.items():
                others = ("%s_%d_%d%s" % (name, *key, end) for end in chain([""], ("_%d" % it for it in count(2))))
                new = name if name not in taken else next(it for it in others if it not in taken)
                taken.add(new)
                found.append(Column(own[0].field._replace(name=new), own))
        return found

    def _named(self, name: str) -> Optional[Column]:
        """The column of a developer field, by its index and its number, whatever its descriptions say, or by its name."""
        for key in map(_key, self._developer_codes(1)):
            if name == "developer_%d_%d" % key:
                described = self._developer_fields().get(key, {})
                units = {unit for _, unit in described}
                return Column(Field(key[1], name, units.pop() if len(units) == 1 else ""), [it for own in described.values() for it in own])
        return {it.field.name: it for it in self._developer_columns({it.name for it in self.known.values()})}.get(name)

    def filled(self, columns: List[Column], raw: bool) -> List[np.ndarray]:
        """The columns."""
        return [self._filled(it.field, it.parts, raw) for it in columns]

    def _filled(self, field: Field, own: Optional[List[Part]], raw: bool) -> np.ndarray:
        if own is None:
            own = parts(self._found[field.number], field) if field.number in self._found else []
            if all(it.kind == "whole" for it in own):
                return in_units(field, self._whole[field.number], raw)
        if all(it.kind in ("whole", "number") for it in own):
            return self._numbers(own, raw)
        column = np.empty(self.rows, object)
        for it in own:
            column[it.rows] = _objects(it, raw)
        return column

    def _numbers(self, own: List[Part], raw: bool) -> np.ndarray:
        read = [(it, *_valued(it, raw)) for it in own]
        column = _empty({found.dtype.kind + str(found.dtype.itemsize) for _, found, _ in read}, self.rows, raw)
        for it, found, invalid in read:
            valid = ~invalid[:, 0]
            column[it.rows[valid]] = found[valid, 0] if raw else _scaled(it.field, found[valid, 0].astype(float))
        return column


def _key(code: int) -> Key:
    return divmod(code - 256, 256)


def _first(found: Found) -> Tuple[int, int]:
    """Where the first value of a field is: the place of its message, and where in that."""
    row = 0 if found.kinds[0] & 0xFFFF else np.argmax(found.kinds & 0xFFFF != 0)
    return int(found.messages[row]), int(found.at[row])


def _valued(part: Part, raw: bool) -> Tuple[np.ndarray, np.ndarray]:
    """The numbers of a field, a row for each message, and which of them are no values. In units an infinity is none."""
    found, invalid = numbers(part)
    return found, invalid if raw else invalid | ~np.isfinite(found)


def _empty(types: set, rows: int, raw: bool) -> np.ndarray:
    """A column without values, for numbers of these types."""
    if raw and types <= {"u8"}:
        return np.full(rows, np.iinfo(np.uint64).max, np.uint64) if types else np.full(rows, NO_VALUE)
    if raw and types <= {"u1", "u2", "u4", "i1", "i2", "i4", "i8"}:
        return np.full(rows, NO_VALUE)
    return np.full(rows, np.nan)


def _objects(part: Part, raw: bool) -> np.ndarray:
    """The values of a field as objects, None for none."""
    column = np.empty(len(part.rows), object)
    if part.kind == "text":
        column[:] = texts(part)
    elif part.kind == "bytes":
        column[:] = raw_bytes(part)
    else:
        found, invalid = _valued(part, raw)
        shown = found.astype(found.dtype.newbyteorder("=")) if raw else np.where(invalid, np.nan, _scaled(part.field, found.astype(float)))
        for row in range(len(column)):
            if not invalid[row].all():
                column[row] = shown[row] if part.kind == "numbers" else shown[row, 0].item()
    return column


def _scaled(field: Field, column: np.ndarray, out: Optional[np.ndarray] = None) -> np.ndarray:
    """column / scale - offset, each value the nearest float: only the last step rounds."""
    parts, whole = field.scale.denominator, field.scale.numerator
    if parts != 1:
        column = column * parts
    if field.offset:
        column = column - field.offset * whole
    return np.true_divide(column, whole, out=out)


def in_units(field: Field, column: np.ndarray, raw: bool, out: Optional[np.ndarray] = None) -> np.ndarray:
    """The whole numbers of the library in the unit of their field. They may be put where they are."""
    return column if raw else _dates(column, out) if field.unit in _DATES else _floats(field, column, out)


def _floats(field: Field, column: np.ndarray, out: Optional[np.ndarray], step: int = 1 << 15) -> np.ndarray:
    """The same of a column in which NO_VALUE is none, by pieces that stay in the cache."""
    floats = np.empty(len(column)) if out is None else out.view(float)
    for at in range(0, len(column), step):
        part = column[at:at + step]
        none = part == NO_VALUE
        _scaled(field, part, floats[at:at + step])
        if none.any():
            floats[at:at + step][none] = np.nan
    return floats


def _dates(column: np.ndarray, out: Optional[np.ndarray]) -> np.ndarray:
    none = (column < _FIRST_DATE) | (column > 0xFFFFFFFF)
    dates = np.add(column, np.int64(_EPOCH), out=out)
    dates[none] = NO_VALUE  # which is NaT
    return dates.view("M8[s]")


def columns_of(data, message: Union[int, str], fields: Optional[List[Union[int, str]]], raw: bool, enums: bool = False,
               most: Optional[int] = None) -> Tuple[Columns, int, List[Union[int, str]]]:
    """The columns of a file, how many rows they have, and the fields that neither the Profile nor the file has. With enums the numbers of
    an enum are shown by their names. More bytes of values than the most are refused."""
    file = File(data, message, most)
    columns = file.columns() if fields is None else file.chosen(fields)
    known = [it for it in columns if it is not None]
    units = {it.field.name: "" if raw else it.field.unit for it in known}
    found = Columns({it.field.name: values for it, values in zip(known, file.filled(known, raw))}, units)
    for it in known if enums else ():
        names, numbers = None if it.parts else enum_of(file.message, it.field), whole(found[it.field.name])
        if names and numbers is not None:
            found[it.field.name], found.units[it.field.name] = named(numbers, names), ENUM
    return found, file.rows, [name for name, it in zip(fields or [], columns) if it is None]


__all__: Tuple[str, ...] = ("Column", "File", "columns_of", "in_units")
