"""What is asked of many files: columns with names, units and types that hold for each of them."""

from __future__ import annotations

from collections.abc import Iterable, Mapping
from typing import Any, Dict, List, NamedTuple, Optional, Tuple, Union

import numpy as np

from ._columns import ENUM, Columns, is_missing, named, whole, without_values
from .profile import Field as Known
from .profile import enum_of, numbered, of_name, of_number

# The name or the number of a field.
Field = Union[int, str]
# Some fields, of which there may be just one; or the type of each too, None for the usual one.
Fields = Union[Field, Iterable[Field], Mapping[Field, Any]]

_NUMBER, _TIME, _WHOLE = np.dtype(float), np.dtype("M8[s]"), np.dtype(np.int64)
_OBJECTS = (str, bytes, list)
_DATES = ("date", "local_date")
TIMESTAMP = 253


class OtherType(ValueError):
    """A file has values of another type than the one that is asked for."""


class Asked(NamedTuple):
    """A column that is asked for: its name; its field, None for a developer field; its unit; the type of its values, of NumPy, or str,
    bytes, or list for several numbers; and the names of its numbers, if they are shown by names."""

    name: str
    field: Optional[Known]
    unit: str
    kind: Any
    names: Optional[Dict[int, str]] = None

    @property
    def is_number(self) -> bool:
        return isinstance(self.kind, np.dtype)

    @property
    def kind_name(self) -> str:
        kind = self.shown_kind
        return str(kind.name if isinstance(kind, np.dtype) else kind.__name__)

    @property
    def shown_kind(self) -> Any:
        """The type of what is shown."""
        return str if self.names is not None else self.kind

    def shown(self, column: np.ndarray) -> np.ndarray:
        """A column of this type as it is shown."""
        return column if self.names is None else named(column, self.names)

    def empty(self, rows: int) -> np.ndarray:
        return without_values(self.kind if self.is_number else np.dtype(object), rows)

    def conformed(self, column: np.ndarray) -> np.ndarray:
        """The values of a file in this type. It raises OtherType."""
        if self.is_number and column.dtype == self.kind:
            return column
        numbers = whole(column) if self.names is not None else None
        if numbers is not None:
            return numbers
        made, missing = self.empty(len(column)), is_missing(column)
        for row in np.flatnonzero(~missing).tolist():
            value = column[row]
            if not self._takes(value):
                raise OtherType("%s has a value of %s, and not of %s" % (self.name, type(value).__name__, self.kind_name))
            made[row] = np.atleast_1d(value) if self.kind is list else value
        return made

    def _takes(self, value: object) -> bool:
        if self.kind is str or self.kind is bytes:
            return isinstance(value, self.kind)
        if isinstance(value, (str, bytes)):
            return False
        if self.kind is list:
            return True
        if isinstance(value, np.ndarray) or self.kind == _NUMBER:
            return not isinstance(value, np.ndarray)
        limits = np.iinfo(self.kind)
        return isinstance(value, (int, np.integer)) and bool(limits.min <= value <= limits.max)


def listed(fields: Union[Fields, None]) -> Optional[List[Field]]:
    """The fields that are chosen, of which there may be just one."""
    return None if fields is None else [fields] if isinstance(fields, (int, str)) else list(fields)


def asked(fields: Fields, message: Union[int, str], units: bool, enums: bool = False) -> List[Asked]:
    """The columns of these fields. It raises ValueError for a name that the Profile does not have, unless its type is given."""
    number, known = numbered(message)
    if not 0 <= number < 65536:
        raise ValueError("a message has a number below 65536")
    kinds: Mapping[Field, Any] = fields if isinstance(fields, Mapping) else {}
    found: Dict[str, Asked] = {}
    for it in listed(fields) or []:
        if isinstance(it, int) and not 0 <= it < 256:
            raise ValueError("a field has a number below 256")
        field = of_number(known, it) if isinstance(it, int) else of_name(known, it)
        if field is None and kinds.get(it) is None:
            raise ValueError("no field of these messages is named %r; a developer field needs its type, as in {%r: float}" % (it, it))
        name, unit = (field.name, field.unit if units else "") if field else (str(it), "")
        usual = _TIME if unit in _DATES else _NUMBER if units else _WHOLE
        # The library has the time of a compressed timestamp as a whole number alone.
        only = usual == _TIME or (field is not None and field.number == TIMESTAMP)
        names = enum_of(number, field) if enums and field is not None and kinds.get(it) is None else None
        kind = _kind_of(name, kinds.get(it), usual, only, units)
        found[name] = Asked(name, field, ENUM, _WHOLE, names) if names else Asked(name, field, unit, kind)
    return list(found.values())


def _kind_of(name: str, given: Any, usual: np.dtype, only: bool, units: bool) -> Any:
    """The type of a column for which this one is given. only is whether it may have the usual one alone."""
    if given is None or (only and given is np.datetime64):
        return usual
    is_object = any(given is it for it in _OBJECTS)
    if is_object and not only:
        return given
    if not is_object and np.dtype(given) in ([usual] if only or units else [usual, _NUMBER, np.dtype(np.uint64)]):
        return np.dtype(given)
    raise ValueError("%s has no values of %s%s" % (name, np.dtype(given), " in units" if units else ""))


def schema_of(columns: List[Asked]) -> Columns:
    """These columns without rows."""
    return Columns({it.name: it.shown(it.empty(0)) for it in columns}, {it.name: it.unit for it in columns})


def schema(fields: Fields, message: Union[int, str] = "record", units: bool = True, enums: bool = False) -> Columns:
    """The columns that each of many files gets, without rows: their names, units and types, before a file is read.

    fields are names or numbers of fields of the Profile. A dict also says of each the type of its values, None for the usual one: a time is
    datetime64[s], another number float, or a raw one int. The others are str, bytes, list for several numbers, and, of raw numbers, float
    and numpy.uint64. A developer field is named with its type. With enums the values of an enum are their names, as str. It raises
    ValueError for other names and types."""
    return schema_of(asked(fields, message, units, enums))


__all__: Tuple[str, ...] = ("Asked", "Field", "Fields", "OtherType", "asked", "listed", "schema", "schema_of")
