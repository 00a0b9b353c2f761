"""Compares the raw columns of the Python package with the second reader, value by value, over random files, some with developer fields that
are described rightly. compare/columns.py runs it with the number of files and the seed, where NumPy and the package are. It prints what
differs first, or how many values it compared."""

import math
import random
import struct
import sys

import fitrec
from tools import reader
from tools.described_files import described_file
from tools.fit_files import damaged, made

NONES = {"i": -2**63, "u": 2**64 - 1}


def value_of(base, big, data):
    """The value of a field: a number, a text, bytes, or a list of numbers; None for none. With it whether it is one whole number of at most
    32 bits."""
    name, size, invalid = reader.BASE_TYPES.get(base, ("raw", 1, None))
    if not data:
        return None, False
    if name == "raw" or len(data) % size or (name == "byte" and len(data) > 1):
        return None if name == "byte" and set(data) == {255} else data, False
    if name == "string":
        text = data.split(b"\0")[0]
        try:
            return text.decode() or None, False
        except UnicodeDecodeError:
            return text.decode("latin-1"), False
    values = []
    for at in range(0, len(data), size):
        bits = data[at:at + size]
        order = "big" if big else "little"
        if name.startswith("float"):
            value = struct.unpack((">" if big else "<") + ("f" if size == 4 else "d"), bits)[0]
            values.append((value, math.isnan(value)))
        else:
            values.append((int.from_bytes(bits, order, signed=name.startswith("sint")), int.from_bytes(bits, order) == invalid))
    if all(is_none for _, is_none in values):
        return None, False
    return (values[0][0], size <= 4 and name != "float32") if len(values) == 1 else ([value for value, _ in values], False)


def wanted_of(found, message):
    """For each message of this number, the value of the first field of each number, and of each developer field: by the type that the last
    description before the message gives it, or else its bytes."""
    rows, types = [], {}
    for number, fields, developer in found:
        if number == message:
            row = {}
            for field, (value, is_whole) in fields:
                # a time is always a whole number of at most 32 bits
                row.setdefault(field, value if is_whole or field != 253 else None)
            for index, field, big, data in developer:
                row.setdefault((index, field), value_of(types.get((index, field)), big, data)[0])
            rows.append(row)
        if number == 206:
            said = {field: value[0] for field, value in reversed(fields)}
            types[said.get(0), said.get(1)] = said.get(2)
    return rows


def is_same(value, wanted):
    """Whether a value of a column is this one."""
    if wanted is None or isinstance(wanted, (bytes, str)):
        return type(value) is type(wanted) and value == wanted
    if isinstance(wanted, list):
        found = value.tolist()
        return len(found) == len(wanted) and all(a == b or (a != a and b != b) for a, b in zip(found, wanted))
    # a column of several types has floats
    return value == wanted or value == float(wanted) or (value is None and wanted in NONES.values())


def difference_of(data, found, message):
    """What differs first, and how many values are the same."""
    rows, same = wanted_of(found, message), 0
    keys = sorted({key for row in rows for key in row}, key=str)
    names = ["developer_%d_%d" % key if isinstance(key, tuple) else "field_%d" % key for key in keys]
    table = fitrec.read(data, message=message, fields=names, raw=True)
    for key, name in zip(keys, names):
        column = table[name]
        for at, row in enumerate(rows):
            value = column[at] if column.dtype == object else column[at].item()
            if column.dtype != object:
                value = None if value == NONES.get(column.dtype.kind) or (isinstance(value, float) and math.isnan(value)) else value
            if not is_same(value, row.get(key)):
                return "%r of message %d, row %d: %r and not %r in %s" % (name, message, at, value, row.get(key), data.hex()), same
            same += 1
    return None, same


def main(files, seed):
    pick, same = random.Random(seed), 0
    for at in range(files):
        data = damaged(pick, made(pick)) if at % 5 == 0 else described_file(pick, 0) if at % 5 == 1 else made(pick)
        try:
            found = reader.messages(data, False, value_of)[3]
        except reader.Refused as refused:
            try:
                fitrec.read(data)
                return "%s was not refused" % data.hex()
            except fitrec.FitError as fault:
                if str(fault) != str(refused).replace("(%s)" % str(refused).partition("(")[2].partition(")")[0], ""):
                    return "%s and not %s of %s" % (fault, refused, data.hex())
            continue
        for message in sorted({number for number, _, _ in found}):
            difference, more = difference_of(data, found, message)
            if difference:
                return difference
            same += more
    return "same %d" % same


if __name__ == "__main__":
    print(main(int(sys.argv[1]), int(sys.argv[2])))
