"""What the messages field_description of a file say of its developer fields, for the second reader (docs/PROGRAM.md, "show and check")."""

from fractions import Fraction
from typing import NamedTuple

from tools.reader import BASE_TYPES, whole_number

# The number of these messages, how many of a file count, and how many columns they make.
MESSAGE, MOST, COLUMNS = 206, 256, 128
# Its fields.
INDEX, NUMBER, TYPE, NAME, SCALE, OFFSET, UNITS = 0, 1, 2, 3, 6, 7, 8
# The most bytes of a name and of units in the Profile.
NAME_SIZE, UNITS_SIZE = 64, 16
# The scales and the offsets that count, of whatever type they are. How many decimals a scale needs; any other has eight.
SCALES, OFFSETS = range(1, 256), range(-128, 128)
PLACES = {1: 0, 10: 1, 100: 2}


class Description(NamedTuple):
    """The base type byte of a developer field, its name and units, how many parts are one, and what is taken away."""

    base: int | None
    name: bytes
    units: bytes
    scale: int
    offset: int

    def in_units(self, number):
        """What a number of the field is, and how many decimals it has."""
        return Fraction(number, self.scale) - self.offset, PLACES.get(self.scale, 8)


def read(fields):
    """The index and the number of the field that a message describes, each None if it says none, and the description."""
    first = {}
    for field, (held,) in fields:
        first.setdefault(field, held)

    def whole(field):
        return whole_number(*first[field]) if field in first else None

    def text(field):
        base, _, data = first.get(field, (None, False, b""))
        return data.split(b"\0")[0] if BASE_TYPES.get(base, ("",))[0] == "string" else b""

    scale, offset = whole(SCALE), whole(OFFSET)
    scale, offset = scale if scale in SCALES else 1, offset if offset in OFFSETS else 0
    said = Description(whole(TYPE), text(NAME), text(UNITS), scale, offset)
    return (whole(INDEX), whole(NUMBER)), said


def descriptions(found):
    """For each message the description of each of its developer fields, None if it has none. `found` are the messages of a file, each
    value of a field by its base type, whether its high byte is first, and its bytes."""
    known, left = {}, MOST
    for message, fields, developer in found:
        yield [known.get((index, number)) for index, number, _, _ in developer]
        if message == MESSAGE and left:
            key, said = read(fields)
            known[key] = said
            left -= 1


def names(found):
    """The names of the columns that descriptions make, each once."""
    stated = [read(fields)[1].name for message, fields, _ in found if message == MESSAGE]
    return [it for it in dict.fromkeys(stated[:MOST]) if it][:COLUMNS]
