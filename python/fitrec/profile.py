"""Names and units of messages and fields, and names of values, as the public FIT Profile has them (profile.txt, enums.txt)."""

from __future__ import annotations

import functools
import pathlib
from fractions import Fraction
from typing import NamedTuple


class Field(NamedTuple):
    """A field: its number and name; in its unit a value is raw / scale - offset. A time has the unit "date", or "local_date", one without a
    unit ""."""

    number: int
    name: str
    unit: str = ""
    scale: Fraction = Fraction(1)
    offset: int = 0


_TIME, _INDEX = Field(253, "timestamp", "date"), Field(254, "message_index")

# Semicircles, of which 2^31 are 180 degrees.
SEMICIRCLES = Field(0, "", "deg", Fraction(2**31, 180))


def _field(number: str, name: str, unit: str = "-", scale: str = "1", offset: str = "0") -> Field:
    if unit == "semicircles":
        return SEMICIRCLES._replace(number=int(number), name=name)
    return Field(int(number), name, "" if unit == "-" else unit, Fraction(scale), int(offset))


def _read(text: str) -> dict[str, tuple[int, dict[int, Field]]]:
    found: dict[str, tuple[int, dict[int, Field]]] = {}
    for line in text.splitlines():
        if line.startswith(" "):
            field = _field(*line.split())
            fields[field.number] = field
        elif not line.startswith("#"):
            number, name = line.split()
            fields = {}
            found[name] = int(number), fields
    return found


_FOLDER = pathlib.Path(__file__).resolve().parent

# Of each message, by its name, the global number and the fields by their numbers.
MESSAGES = _read((_FOLDER / "profile.txt").read_text())


@functools.lru_cache(None)
def _enums() -> dict[tuple[int, str], dict[int, str]]:
    """Of each field whose values have names, by the number of its message and its name, the names by the values."""
    found: dict[tuple[int, str], dict[int, str]] = {}
    for line in (_FOLDER / "enums.txt").read_text().splitlines():
        first, *rest = line.split()
        if line.startswith(" "):
            names[int(first)] = rest[0]
        elif first != "#":
            names = {}
            for message, field in (it.split(".") for it in rest):
                found[MESSAGES[message][0], field] = names
    return found


def enum_of(message: int, field: Field) -> dict[int, str] | None:
    """The names of the values of a field, if they have names."""
    return _enums().get((message, field.name))

# The columns that a file always gets, in their order: those of `fitrec table`. Others follow if its messages have them.
_SUMMARY = [254, 253, 0, 1, 2]
USUAL = {
    0: [0, 1, 2, 3, 4], 12: [0, 1],
    18: [*_SUMMARY, 7, 8, 9, 14, 15, 16, 17, 20, 21, 5, 6, 25, 26, 28],
    19: [*_SUMMARY, 7, 8, 9, 13, 14, 15, 16, 19, 20, 24],
    20: [253, 0, 1, 2, 3, 4, 5, 6, 7, 13, 73, 78], 21: [253, 0, 1], 34: [253, 0, 1, 2, 3, 4]}


def numbered(message: int | str) -> tuple[int, dict[int, Field]]:
    """The global number that a message is named by, and the fields that have a name, by their numbers."""
    for name, (number, fields) in MESSAGES.items():
        if message in (name, number):
            return number, fields
    if isinstance(message, int):
        return message, {}
    if message.startswith("message_") and message[8:].isdigit():
        return numbered(int(message[8:]))
    raise ValueError("no message is named %r" % message)


def of_number(fields: dict[int, Field], number: int) -> Field:
    """The field with this number."""
    return fields.get(number) or {253: _TIME, 254: _INDEX}.get(number) or Field(number, "field_%d" % number)


def of_name(fields: dict[int, Field], name: str) -> Field | None:
    """The field with this name, if there is one."""
    for it in [*fields.values(), _TIME, _INDEX]:
        if it.name == name:
            return it
    if name.startswith("field_") and name[6:].isdigit():
        return of_number(fields, int(name[6:]))._replace(name=name)
    return None
