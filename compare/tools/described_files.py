"""Random files with developer fields and the messages field_description that describe them: mostly right ones, and some that lack a field
or have one of another type or size; descriptions that come again, or too late; and more of them than count."""

from tools.contents import STRINGS, content_made
from tools.described import INDEX, MESSAGE, MOST, NAME, NAME_SIZE, NUMBER, OFFSET, SCALE, TYPE, UNITS, UNITS_SIZE
from tools.fit_files import framed
from tools.reader import BASE_TYPES

SINT8, UINT8, SINT16, UINT16, STRING, RECORD = 0x01, 0x02, 0x83, 0x84, 0x07, 20
# Base type bytes, some of which are none.
TYPES = [*BASE_TYPES, 0x91, 0x06, 0xFF]
# What a scale and an offset may be; those that their types cannot hold are cut off.
SCALES = [0, 1, 2, 3, 7, 10, 10, 10, 100, 100, 100, 254, 255, 256, 1000, -10]
OFFSETS = [-129, -128, -5, -1, 0, 1, 5, 126, 127, 128, 500]


def spelled(pick, message, big, fields, developer=()):
    """A definition and a message of it. A field is its number, its base type byte and its bytes; a developer field its number, its index
    and its bytes."""
    local, parts = pick.randrange(16), [fields, developer] if developer else [fields]
    definition = bytes([0x60 | local if developer else 0x40 | local, 0, big]) + message.to_bytes(2, "big" if big else "little")
    for part in parts:
        definition += bytes([len(part)]) + b"".join(bytes([number, len(data), kind]) for number, kind, data in part)
    first = 0x80 | local << 5 | pick.randrange(32) if local < 4 and pick.random() < 0.5 else local
    return definition + bytes([first]) + b"".join(data for part in parts for _, _, data in part)


def content(pick, base, big):
    return content_made(pick, base, big) if base in BASE_TYPES else bytes(pick.randrange(256) for _ in range(pick.choice([0, 1, 2, 5])))


def number_field(pick, big, wrong, field, base, value):
    """A field of this base type with this value; a wrong one may be of another type, or have another size."""
    base = pick.choice([base, base, *TYPES]) if wrong else base
    size = BASE_TYPES.get(base, ("", 1))[1]
    data = (value % (1 << 8 * size)).to_bytes(size, "big" if big else "little")
    return field, base, pick.choice([data, data, data + data, data + b"\0", data[1:]]) if wrong else data


def text_field(pick, wrong, field):
    """A text; one in five has about as many bytes as the Profile has at most, or as a field."""
    text = pick.choice(STRINGS)
    if pick.random() < 0.2:
        text = (text * 255)[:(NAME_SIZE if field == NAME else UNITS_SIZE) + pick.choice([-1, 0, 0, 1, 1, 180])]
    text += pick.choice([b"", b"\0", b"\0rest"])
    return field, pick.choice([STRING, UINT8, 0xFF]) if wrong else STRING, text


def description(pick, big, index, number, base, faults):
    """The fields of a message that describes a field of this index, number and base type, in any order. So many of them are wrong."""
    wrong = lambda: pick.random() < faults
    fields = [number_field(pick, big, wrong(), *it) for it in ((INDEX, UINT8, index), (NUMBER, UINT8, number), (TYPE, UINT8, base))]
    fields += [text_field(pick, wrong(), it) for it in (NAME, UNITS) for _ in range(pick.choice([0, 1, 1, 1, 2]))]
    if pick.random() < 0.5:
        fields.append(number_field(pick, big, wrong(), SCALE, pick.choice([UINT8, UINT8, UINT16]), pick.choice(SCALES)))
    if pick.random() < 0.5:
        fields.append(number_field(pick, big, wrong(), OFFSET, pick.choice([SINT8, SINT8, SINT16]), pick.choice(OFFSETS)))
    if wrong():
        fields.remove(pick.choice(fields))
    if wrong():
        fields.append(number_field(pick, big, False, pick.choice([INDEX, NUMBER, TYPE]), UINT8, pick.choice([index, number, base])))
    return pick.sample(fields, len(fields))


def about_as_many_as_count(pick, index, number):
    """Descriptions of one field, with one definition, many types and names of one byte."""
    fields = bytes([INDEX, 1, UINT8, NUMBER, 1, UINT8, TYPE, 1, UINT8, NAME, 1, STRING])
    head, letters = bytes([0x40, 0, 0]) + MESSAGE.to_bytes(2, "little") + bytes([4]) + fields, pick.choice([1, 100, 256])
    return head + b"".join(bytes([0, index, number, pick.choice(TYPES), pick.randrange(letters)])
                           for _ in range(MOST + pick.choice([-3, -2, -1, 0, 1, 20])))


def described_file(pick, faults=0.08):
    """A file of such messages, and of records with fields of a few indices and numbers. So many fields of a description are wrong."""
    keys = [(pick.choice([0, 0, 1, 254, 255]), pick.choice([0, 1, 2, 254, 255])) for _ in range(pick.choice([1, 2, 3]))]
    types, records = dict.fromkeys(keys, UINT8), b""
    for _ in range(pick.randrange(2, 16)):
        big, kind = pick.randrange(2), pick.random()
        key = index, number = pick.choice(keys)
        developer = [(its[1], its[0], content(pick, pick.choice([*[types[its]] * 9, pick.choice(TYPES)]), big))
                     for its in pick.choices(keys, k=pick.choice([1, 1, 2, 4]))]
        if kind < 0.5:
            types[key] = pick.choice(TYPES)
            fields = description(pick, big, index, number, types[key], faults)
            records += spelled(pick, MESSAGE + (pick.random() < 0.05), big, fields, pick.choice([[], [], developer]))
        elif kind < 0.53:
            records += about_as_many_as_count(pick, index, number)
        else:
            records += spelled(pick, RECORD, big, [], developer)
    return framed(records)
