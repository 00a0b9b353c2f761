"""The cells of a table with --profile, by Python's struct and csv."""

import csv
import io
import struct
from typing import NamedTuple

from tools import reader
from tools.checks import differs

FORMATS = {4: ">f", 8: ">d"}


def decimal_text(value, places):
    """The decimal with so many places that is nearest to a fraction; of two that are equally near the one farther from 0."""
    exact = value * 10**places
    whole = (2 * abs(exact.numerator) + exact.denominator) // (2 * exact.denominator)
    text = "%0*d" % (places + 1, whole)
    return ("-" if value < 0 else "") + (text[:-places] + "." + text[-places:] if places else text)


class Float(NamedTuple):
    """The bytes of a finite float, with the high one first."""

    data: bytes

    @property
    def value(self):
        return struct.unpack(FORMATS[len(self.data)], self.data)[0]

    def reads(self, text):
        """Whether a text is this float."""
        try:
            return struct.pack(FORMATS[len(self.data)], float(text)) == self.data
        except (ValueError, OverflowError):
            return False

    def is_text(self, text):
        """Whether a text is this float, with as few digits as give it back."""
        shortest = next(digits for digits in range(1, 18) if self.reads("%.*e" % (digits - 1, self.value)))
        return self.reads(text) and len(text.lower().split("e")[0].strip("-").replace(".", "").strip("0")) <= shortest


def read_float(data):
    """A finite float, or nothing."""
    exponent = int.from_bytes(data, "big") >> (23 if len(data) == 4 else 52)
    ones = 0xFF if len(data) == 4 else 0x7FF
    return "" if exponent & ones == ones else Float(data)


def cell_of(base, big, data, write):
    """What a field holds that is not one whole number of at most 32 bits: a text, or a list of texts and floats. `write` gives the text of a
    whole number, alone or among others."""
    name, size, invalid = reader.BASE_TYPES.get(base, ("raw", 1, None))
    if name == "raw" or len(data) % size:
        return ""
    if name == "string":
        return reader.text_of(data)
    order = "big" if big else "little"
    pieces = [data[at:at + size] for at in range(0, len(data), size)]
    if name.startswith("float"):
        values = [read_float(piece if big else piece[::-1]) for piece in pieces]
        return values if any(isinstance(it, Float) for it in values) else ""
    if all(int.from_bytes(piece, order) == invalid for piece in pieces):
        return ""
    # Values of type byte are invalid only all at once.
    valid = [name == "byte" or int.from_bytes(piece, order) != invalid for piece in pieces]
    numbers = [int.from_bytes(piece, order, signed=name.startswith("sint")) for piece in pieces]
    return [write(number, len(pieces) == 1) if is_valid else "" for number, is_valid in zip(numbers, valid)]


def is_cell(cell, text):
    """Whether a text that came is a cell."""
    if isinstance(cell, str):
        return text == cell
    came = text.split("|")
    return len(came) == len(cell) and all(it.is_text(own) if isinstance(it, Float) else it == own for it, own in zip(cell, came))


def spelled(text, alone):
    """A cell as RFC 4180 has it."""
    if alone and not text:
        return '""'
    return '"%s"' % text.replace('"', '""') if any(it in text for it in ',"\r\n') else text


def table_differs(came, heads, rows, about, developer=0):
    """What differs between a table that came and one of these names and rows, by csv and then byte by byte. The last columns are those of so
    many developer fields."""
    try:
        parsed = list(csv.reader(io.StringIO(came, newline=""), strict=True))
    except csv.Error as error:
        return differs(str(error), "a table", came)
    if [len(row) for row in parsed] != [len(heads)] * (len(rows) + 1) or parsed[0] != heads:
        return differs(parsed, [heads, *rows], about)
    for place, (row, texts) in enumerate(zip(rows, parsed[1:])):
        for head, cell, text in zip(heads, row, texts):
            if not is_cell(cell, text):
                return differs(text, cell, (place, head, about))
    own = len(heads) - developer
    lines = [",".join(spelled(text, own == 1 and at == 0) for at, text in enumerate(row)) + "\r\n" for row in parsed]
    return differs(came, "".join(lines), about)
