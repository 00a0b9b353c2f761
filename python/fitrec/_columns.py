"""The columns of a file, or of several."""

from __future__ import annotations

import html
from collections.abc import Iterable
from typing import TYPE_CHECKING, Any, Dict, List, Mapping, Optional, Tuple

import numpy as np

from ._library import NO_VALUE

if TYPE_CHECKING:
    import pandas

# The unit of a column with the names of values.
ENUM = "enum"
# No value, by the kind of a column's type. One of objects has None.
_NONES = {"M": np.datetime64("NaT"), "f": np.nan, "i": NO_VALUE, "u": np.iinfo(np.uint64).max}


class Columns(Dict[str, np.ndarray]):
    """The columns of a file, by name, each a NumPy array with a value for each message.

    In units, a time is a datetime64[s] with NaT for none, another number float64 with NaN for none. Raw whole numbers are int64 with
    NO_VALUE for none (those of 64 bits without a sign uint64, with the greatest for none), floats as in units. A string is str, several
    values are an array, bytes are bytes: such a column is of objects, with None for none. `units` has the unit of each column, such as
    "date" (UTC), "local_date", "deg", "m/s" or "bpm", or "" for a plain number; "enum" is one of names of values.

    Two are equal if they have the same names in the same order, units, types and values; no value equals no value."""

    def __init__(self, columns: Mapping[str, np.ndarray] = {}, units: Mapping[str, str] = {}):
        super().__init__(columns)
        self.units = dict(units)

    def __eq__(self, other: object) -> bool:
        return isinstance(other, Columns) and list(self.units.items()) == list(other.units.items()) and all(
            _are_same(own, other[name]) for name, own in self.items())

    def __ne__(self, other: object) -> bool:
        return not self == other

    def __repr__(self) -> str:
        title, lines = self._described()
        widths = [max(len(line[at]) for line in lines) for at in range(5)] if lines else []
        return "\n".join(["<%s>" % title, *("  " + "  ".join(map(str.ljust, line, widths)).rstrip() for line in lines)])

    def _repr_html_(self) -> str:
        """What a notebook shows."""
        title, lines = self._described()
        rows = ["<tr>%s</tr>" % "".join("<td>%s</td>" % html.escape(it) for it in line) for line in lines]
        heads = "".join("<th>%s</th>" % it for it in ("column", "unit", "type", "values", "from .. to"))
        return "<table><caption>%s</caption><thead><tr>%s</tr></thead><tbody>%s</tbody></table>" % (title, heads, "".join(rows))

    def _described(self) -> Tuple[str, List[Tuple[str, ...]]]:
        """A title; and of each column its name, unit and type, how many values it has, and the least and the greatest of them."""
        lines = []
        for name, column in self.items():
            values = column[~is_missing(column)]
            range_of = "" if not len(values) or column.dtype == object else "%s .. %s" % (values.min(), values.max())
            lines.append((name, self.units.get(name, ""), str(column.dtype), "%d of %d" % (len(values), len(column)), range_of))
        return "Columns of %d rows" % len(next(iter(self.values()), ())), lines

    def to_pandas(self) -> "pandas.DataFrame":
        """The same as a pandas table. Times are aware (UTC), but for a `local_date`, and names of values are categories; `attrs["units"]`
        has the units."""
        import pandas

        # pandas 1 keeps times in nanoseconds, and is slow to make them of seconds itself.
        ready: Dict[str, Any] = {name: it.astype("M8[ns]") if it.dtype.kind == "M" else it for name, it in self.items()}
        enums = (name for name, unit in self.units.items() if unit == ENUM and _are_names(self[name]))
        ready.update((name, pandas.Categorical(self[name])) for name in enums)
        frame = pandas.DataFrame(ready, copy=False)
        for name, unit in self.units.items():
            if unit == "date" and ready[name].dtype.kind == "M":
                frame[name] = frame[name].dt.tz_localize("UTC")
        frame.attrs["units"] = dict(self.units)
        return frame


def _are_same(one: np.ndarray, other: np.ndarray) -> bool:
    """Whether two columns have the same type and the same values."""
    if one.dtype != other.dtype or one.shape != other.shape:
        return False
    if one.dtype != object:
        return np.array_equal(one, other, equal_nan=one.dtype.kind in "fM")
    return all(type(a) is type(b) and (_are_same(a, b) if isinstance(a, np.ndarray) else a == b) for a, b in zip(one, other))


def _are_names(column: np.ndarray) -> bool:
    """Whether there are names alone. In a file whose field has several numbers, they are as they are."""
    return all(it is None or isinstance(it, str) for it in column)


def objects(values: Iterable[object]) -> np.ndarray:
    """A column of these objects."""
    return np.array([*values, None], object)[:-1]


def whole(column: np.ndarray) -> Optional[np.ndarray]:
    """The numbers of a column as int64, with NO_VALUE for none. None if they are not whole numbers alone."""
    if column.dtype != float:
        return column if column.dtype == np.int64 else None
    none = np.isnan(column)
    if not (none | (np.floor(column) == column) & (np.abs(column) < 2**53)).all():
        return None
    return np.where(none, NO_VALUE, column).astype(np.int64)


def named(column: np.ndarray, names: Mapping[int, str]) -> np.ndarray:
    """The names of whole numbers. One without a name is a text of its digits."""
    found, there = np.empty(len(column), object), ~is_missing(column)
    numbers, places = np.unique(column[there], return_inverse=True)
    found[there] = objects(names.get(int(it), str(int(it))) for it in numbers)[places]
    return found


def without_values(kind: np.dtype, rows: int) -> np.ndarray:
    """A column without values."""
    return np.full(rows, _NONES.get(kind.kind), kind)


def is_missing(column: np.ndarray) -> np.ndarray:
    """Where a column has no value."""
    if column.dtype == object:
        return np.fromiter((it is None for it in column), bool, len(column))
    if column.dtype.kind in "iu":
        return column == _NONES[column.dtype.kind]
    return np.isnat(column) if column.dtype.kind == "M" else np.isnan(column)
