"""Rides with a hole: what is damaged, and which of its records stand outside."""

import functools
from typing import NamedTuple

# The number of the record messages.
RECORD = 20
KINDS = "zeros", "FF", "noise", "older content", "lost", "doubled"
SIZES = 1, 16, 512, 4096
# What stands in a cluster of a card, and how many bytes clusters have; and what stands after a ride.
CONTENTS = "an older ride", "another cluster of it", "a ride of another file"
CLUSTERS = 4096, 16384, 32768
TAIL = "the end of an older ride"


class Found(NamedTuple):
    """A record: its bytes with its definition, and its place; or a definition."""

    what: object
    start: int
    end: int


def numbers(data):
    """The bytes of the records that a header gives, or all after it."""
    start, size = data[0], int.from_bytes(data[4:8], "little")
    return data[:start], data[start:start + size] if size else data[start:]


def items(row):
    """The definitions and the records of a row of items, up to the first fault."""
    for it in messages(row):
        if it.what is None or global_number(it) == RECORD:
            yield it


def global_number(it):
    """The number of the kind of message that a message is of."""
    definition = it.what[1]
    return int.from_bytes(definition[3:5], "big" if definition[2] & 1 else "little")


def messages(row):
    """The definitions and all messages of a row of items, up to the first fault."""
    under, at = {}, 0
    while at < len(row):
        first, start = row[at], at
        if 64 <= first < 128:
            at += 6 + 3 * row[at + 5] if at + 6 <= len(row) else len(row)
            if first & 32 and at < len(row):
                at += 1 + 3 * row[at]
            if at > len(row):
                return
            own = row[start:at]
            fields = own[6:6 + 3 * own[5]]
            developer = own[7 + 3 * own[5]:] if first & 32 else b""
            under[first & 15] = own, 1 + sum(fields[1::3]) + sum(developer[1::3])
            yield Found(None, start, at)
            continue
        local = first >> 5 & 3 if first & 128 else first & 15
        if local not in under or at + under[local][1] > len(row):
            return
        definition, size = under[local]
        at += size
        yield Found((bytes(row[start:at]), bytes(definition)), start, at)


def older(row):
    """The same row, with every time five days earlier."""
    out = bytearray(row)
    for it in messages(row):
        if it.what is None:
            continue
        (content, definition), at = it.what, it.start + 1
        for number, size, base in zip(*[iter(definition[6:6 + 3 * definition[5]])] * 3):
            if (number, size, base) == (253, 4, 0x86):
                order = "big" if definition[2] & 1 else "little"
                time = int.from_bytes(row[at:at + 4], order)
                if 5 * 86400 < time < 0xFFFFFFFF:
                    out[at:at + 4] = (time - 5 * 86400).to_bytes(4, order)
            at += size
    return bytes(out)


def hole(pick, row, old, kind, size, at):
    """The row with a hole of this kind."""
    after = row[at + size:]
    match kind:
        case "zeros":
            return row[:at] + bytes(size) + after
        case "FF":
            return row[:at] + b"\xff" * size + after
        case "noise":
            return row[:at] + pick.randbytes(size) + after
        case "older content":
            start = pick.randrange(len(old) - size)
            return row[:at] + old[start:start + size] + after
        case "lost":
            return row[:at] + after
        case "doubled":
            return row[:at + size] + row[at:]


@functools.cache
def both(data):
    """A file without its checksum, and the same as an older ride."""
    head, row = numbers(data)
    return head + row, head + older(row)


def other_cluster(pick, data, others, content, size):
    """A file one of whose clusters has another content, or the rest of which is that of an older ride. Returns it, and the first and last
    place of that; or None where the file has too few clusters."""
    file, before = both(data)
    if content == TAIL:
        at = pick.randrange(len(file) // 4, len(file) - 100)
        return file[:at] + before[at:], at, len(file)
    source = {CONTENTS[0]: before, CONTENTS[1]: file}.get(content) or both(pick.choice(others))[0]
    count, counted = len(file) // size, len(source) // size
    if count < 2 or not counted:
        return None
    at, start = pick.randrange(1, count) * size, pick.randrange(counted) * size
    if source == file and start == at:
        return None
    return file[:at] + source[start:start + size] + file[at + size:], at, at + size


def touches(it, kind, size, at):
    """Whether a hole touches an item."""
    if kind == "doubled":
        return it.start < at + size < it.end
    return it.start < at + size and at < it.end
