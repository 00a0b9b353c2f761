"""FIT files that are made for the checks: long ones, ones at a limit, and random ones, whole and damaged; and images of cards."""

import re

from tools.reader import BASE_TYPES, MESSAGES, checksum

# The most bytes of an input.
MOST = 268435456


def framed(records):
    """A file with these records and right checksums."""
    start = bytes([14, 0x10, 100, 0]) + len(records).to_bytes(4, "little") + b".FIT"
    start += checksum(start).to_bytes(2, "little")
    return start + records + checksum(start + records).to_bytes(2, "little")


def short(data):
    """A file of the same records with a header of 12 bytes."""
    start = b"\x0c" + data[1:12] + data[14:-2]
    return start + checksum(start).to_bytes(2, "little")


def image(pick, files):
    """An image of a card that has these files in clusters of 4,096 bytes with noise between them, and their places."""
    bytes_so_far, places = b"", []
    for file in files:
        bytes_so_far += pick.randbytes(4096 * pick.randrange(1, 5))
        places.append(len(bytes_so_far))
        bytes_so_far += file + pick.randbytes(-len(file) % 4096)
    return bytes_so_far + pick.randbytes(4096), places


def long_content(size):
    """A record with this much content, in fields of type byte. If these are too few, developer fields come after them."""
    sizes = [255] * (size // 255) + [size % 255] * (size % 255 > 0)
    fields, more = (b"".join(bytes([99, own, 13]) for own in part) for part in (sizes[:255], sizes[255:]))
    definition = bytes([0x60 if more else 0x40, 0, 0, 20, 0, len(fields) // 3]) + fields
    definition += bytes([len(more) // 3]) + more if more else b""
    return framed(definition + b"\0" + bytes(at % 250 + 1 for at in range(size)))


def many_messages(count):
    """A file of so many messages without fields."""
    return framed(bytes([0x40, 0, 0, 0xE8, 3, 0]) + bytes(count))


def long_beginning(size):
    """A prefix of a file of so many bytes. Zeros after it are whole messages up to its last byte, the last as long as possible."""
    empty, fields = bytes([0x40, 0, 0, 20, 0, 0]), 255 * bytes([99, 255, 13])
    long = bytes([0x60, 0, 0, 20, 0, 255]) + fields + bytes([255]) + fields
    start = bytes([14, 0x10, 100, 0]) + (size - 14).to_bytes(4, "little") + b".FIT\0\0"
    return start + empty + bytes((size - 15 - len(empty + long)) % (2 * 255 * 255 + 1)) + long


def widest(fields):
    """A message of this many fields with a compressed timestamp, after one without, each with 255 developer fields."""
    definition = bytes([0x60, 0, 0, 20, 0, fields]) + fields * bytes([3, 1, 2]) + bytes([255]) + 255 * bytes([7, 1, 0])
    return framed(definition + b"\0" + bytes(fields + 255) + b"\x85" + bytes(fields + 255))


def too_long_at_792():
    """At 14 a definition of 7 bytes that announces developer fields and has none, so it is written in 6 bytes; at 21 one of 255 fields,
    in 771 bytes; at 792 its message, with a compressed timestamp."""
    return framed(bytes([0x60, 0, 0, 20, 0, 0, 0]) + bytes([0x41, 0, 0, 20, 0, 255]) + 255 * bytes([3, 1, 2]) + b"\xA5" + bytes(255))


def compressed_ride(samples):
    """A ride whose records have a position and, except for the first, compressed timestamps, five seconds apart."""
    file_id = bytes([0x40, 0, 0, 0, 0, 2, 0, 1, 0, 4, 4, 0x86, 0, 4]) + (1000000000).to_bytes(4, "little")
    position = bytes([0, 4, 0x85, 1, 4, 0x85])
    records = file_id + bytes([0x41, 0, 0, 20, 0, 3, 253, 4, 0x86]) + position + bytes([0x42, 0, 0, 20, 0, 2]) + position
    for sample in range(samples):
        time, content = 1000000000 + 5 * sample, (500000000 + 1000 * sample).to_bytes(4, "little") * 2
        records += b"\1" + time.to_bytes(4, "little") + content if sample == 0 else bytes([0xC0 | time % 32]) + content
    return framed(records)


def two(value):
    return value.to_bytes(2, "little")


def developer_fields(pick, many):
    """The developer fields of a definition, and how many bytes of a data message they have; None if it announces none."""
    if not many and pick.random() < 0.7:
        return None, 0
    count = 255 if many else pick.choice([0, 0, 1, 1, 2, 3, 5])
    sizes = [pick.choice([0, 1, 1, 2, 4, pick.randrange(256)]) for _ in range(count)]
    sizes = [255] * count if many and pick.random() < 0.1 else sizes
    fields = [bytes([pick.choice([0, 1, pick.randrange(256)]), size, pick.choice([0, 0, 1, pick.randrange(256)])]) for size in sizes]
    return bytes([count]) + b"".join(fields), sum(sizes)


def definition(pick):
    """The bytes of a definition, and the size of the content of its data messages."""
    local, big = pick.choice([pick.randrange(4), pick.randrange(16)]), pick.randrange(2)
    message = pick.choice([*MESSAGES, 20, 20, pick.randrange(65536)])
    fields = []
    # sometimes as many as possible, of one kind or of both
    many = pick.random()
    for _ in range(255 if many < 0.006 else pick.choice([0, 1, 1, 2, 3, 5, 11])):
        base = pick.choice([*BASE_TYPES, 0x91, 0x06, 0xFF])
        value = BASE_TYPES.get(base, ("", 1, 0))[1]
        size = pick.choice([value, value, 0, 2 * value, 3 * value, pick.randrange(10)])
        field = pick.choice([253, 254, 3, 4, 13, 73, pick.randrange(12), pick.randrange(256)])
        if field in (253, 2, 4) and pick.random() < 0.7:
            base, size = 0x86, 4
        fields.append((field, size, base))
    after, size = developer_fields(pick, 0.003 < many < 0.01)
    # reserved bits and bytes may have any value
    first = 0x40 | local | pick.choice([0, 0, 0, 0x10]) | (0 if after is None else 0x20)
    head = bytes([first, pick.choice([0, 7]), big | pick.choice([0, 0, 0xFE])])
    number = message.to_bytes(2, "big" if big else "little")
    spelled = head + number + bytes([len(fields)]) + b"".join(map(bytes, fields)) + (after or b"")
    return spelled, local, sum(f[1] for f in fields) + size


def data_message(pick, local, size):
    """A data message of a local number."""
    if pick.random() < 0.2:
        content = b"\xFF" * size
    else:
        content = bytes(pick.choice([0, 0x7F, 0x80, 0xFF, pick.randrange(256)]) for _ in range(size))
    if local < 4 and pick.random() < 0.4:
        return bytes([0x80 | local << 5 | pick.randrange(32)]) + content
    return bytes([local | pick.choice([0, 0, 0x10, 0x30])]) + content


def made(pick):
    """A random file, mostly a valid one."""
    records, sizes = b"", {}
    for _ in range(pick.randrange(14)):
        if not sizes or pick.random() < 0.35:
            spelled, local, size = definition(pick)
            records += spelled
            sizes[local] = size
        else:
            local = pick.choice(list(sizes))
            records += data_message(pick, local, sizes[local])
    header, size = pick.choice([12, 14, 14]), len(records)
    if pick.random() < 0.1:
        size = max(0, size + pick.choice([-3, -1, 1, 5, -pick.randrange(size + 1)]))
    start = bytes([header, pick.choice([0x10, 0x20, 0x2F])]) + two(pick.randrange(65536))
    start += size.to_bytes(4, "little") + b".FIT"
    if header == 14:
        start += pick.choice([b"\0\0", two(checksum(start))])
    return start + records + two(checksum(start + records))


def damaged(pick, data):
    """The file with a byte changed, cut short, or with a byte added."""
    kind = pick.randrange(4)
    if kind == 0:
        return data[:pick.randrange(len(data))]
    if kind == 1:
        return data + bytes([pick.randrange(256)])
    at = pick.randrange(len(data))
    data = data[:at] + bytes([pick.randrange(256)]) + data[at + 1:]
    # under a right checksum the change has to be found by itself
    return data if kind == 2 else data[:-2] + two(checksum(data[:-2]))


def changes(data):
    """Each change of one byte."""
    for at in range(len(data)):
        for byte in range(256):
            if byte != data[at]:
                yield data[:at] + bytes([byte]) + data[at + 1:]


def kind_of(fault, otherwise):
    """The name of the refusal in a line of the program, such as Truncated."""
    return re.sub("[( ].*", "", fault.partition("\n")[0].removeprefix("fitrec: ")) or otherwise
