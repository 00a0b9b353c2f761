"""Random contents of fields of each type: limits, invalid values, several values, and odd sizes."""

import struct

from tools.reader import BASE_TYPES

# Floats of every size, and strings of each kind.
FLOATS = [0.0, -0.0, 0.1, -12.5, 1 / 3, 1e-7, 123456.789, 16777216.0, 9007199254740993.0, 3.4028234663852886e38, 1.1754943508222875e-38,
          1e-45, 5e-324, 1.7976931348623157e308, 2.2250738585072014e-308, 1e22, 1e23, float("inf"), float("-inf"), float("nan"),
          5684341886080801.5]
STRINGS = [b"", b"plain", b"a,b", b'say "so"', b'"', b"two\r\nlines", b"cr\r", b"lf\n", b"caf\xc3\xa9", b"caf\xe9", b"\xff\x80,\xe9",
           b"a|b", b" spaced ", b"\x01\x7f", b"\xf0\x9f\x9a\xb4", b"=1+1", b"'"]


def value_made(pick, name, size, invalid):
    """The bytes of a value of a type, the high one first."""
    if pick.random() < 0.2:
        return invalid.to_bytes(size, "big")
    if name.startswith("float") and pick.random() < 0.7:
        try:
            return struct.pack({4: ">f", 8: ">d"}[size], pick.choice(FLOATS))
        except OverflowError:
            pass
    half = 1 << (8 * size - 1)
    near = [0, 1, half - 2, half - 1, half, half + 1, 2 * half - 2, 2 * half - 1, pick.randrange(min(2 * half, 100000)), 1000000000]
    return (pick.choice(near) % (2 * half) if pick.random() < 0.6 else pick.randrange(2 * half)).to_bytes(size, "big")


def content_made(pick, base, big):
    """The bytes of a field: one value or several, sometimes of an odd size."""
    name, size, invalid = BASE_TYPES[base]
    if name == "string":
        text = pick.choice(STRINGS) + pick.choice([b"", b"\0", b"\0rest, \"\n", pick.choice(STRINGS)])
        return text[:pick.choice([255, 255, 255, pick.randrange(9)])]
    values = [value_made(pick, name, size, invalid) for _ in range(pick.choice([0, 1, 1, 1, 2, 3, 5, 8]))]
    if pick.random() < 0.1:
        values = [invalid.to_bytes(size, "big") for _ in values]
    data = b"".join(value if big else value[::-1] for value in values)
    return data + bytes(pick.randrange(3)) if pick.random() < 0.05 else data
