"""Compares `fitrec show --json` with the second reader: Python's `json` reads each line, over a ride that was recorded, over each change
of one byte of a small file, and over random files, whole and damaged. With `--profile` each field is compared, digit by digit, with what
the table of the Profile gives of the second reader's numbers: of every field of the Profile, and over the same files; and each developer
field by the description that its file has of it (`tools/described.py`), over random descriptions."""

import json
import pathlib
import random
import tempfile

import columns
from tools import reader
from tools.cells import decimal_text
from tools.checks import differs
from tools.described import NAME_SIZE, UNITS_SIZE, descriptions
from tools.described_files import described_file
from tools.fit_files import changes, damaged, framed, kind_of, made
from tools.program import room, run
from tools.reader import BASE_TYPES, WHOLE, Refused, hexadecimal, show_json, text_of, value_json, whole_number
from tools.rides import EXAMPLE

NEEDS = ("fitrec",)


def read(text):
    """The value of a text, with each object as a list of pairs, and each number with a point by its digits."""
    return json.loads(text, object_pairs_hook=list, parse_float=lambda digits: ("digits", digits))


def outcome(program, path, utc, profile=False):
    """The status, the values of the lines, each a list of pairs, and the errors. Each line has to be UTF-8 and one object."""
    status, out, err = run(program, "show", "--json", *["--utc"] * utc, *["--profile"] * profile, path)
    lines = out.split("\n")
    assert lines.pop() == "", "the last line has no end"
    return status, [read(line) for line in lines], err


# The types that have units: whole numbers of at most four bytes.
IN_UNITS = WHOLE - {"byte"}


def numbers_of(base, big, data):
    """Whether a field has units, and its whole numbers, None where one is invalid; if it has none, its value without the Profile."""
    name, size, _ = BASE_TYPES.get(base, ("raw", 1, None))
    if name not in IN_UNITS or not data or len(data) % size:
        return False, value_json(base, big, data)
    return True, [whole_number(base, big, data[at:at + size]) for at in range(0, len(data), size)]


def one_or_all(values):
    """The one value, or all of several."""
    return values if len(values) > 1 else values[0]


def member(message, field, held, form):
    """The name and the value of a field, as the table of the Profile has them."""
    in_units, value = numbers_of(*held)
    if not in_units:
        # a unit that would change the number is not named
        unit = columns.unit_of(message, field, form)
        changes = unit and unit is not columns.TIME and (unit[1], unit[3]) != (1, 0)
        return columns.name_of(message, field, ["--raw", *form] if changes else form)[1 if not changes else 0], value
    texts = [columns.cell_text(message, field, it, form, False) for it in value]
    is_date = "--utc" in form and columns.unit_of(message, field, form) is columns.TIME
    values = [None if not it else it if is_date else read(it) for it in texts]
    return columns.name_of(message, field, form)[1], one_or_all(values)


def developer_object(field, said):
    """A developer field, by its description if it has one. A name or units that are longer than in the Profile are left out."""
    index, number, big, data = field
    key = [("index", index), ("number", number)]
    if said is None:
        return [*key, ("bytes", hexadecimal(data))]
    in_units, value = numbers_of(said.base, big, data)
    if in_units:
        value = one_or_all([None if it is None else read(decimal_text(*said.in_units(it))) for it in value])
    name, units = (text_of(text if len(text) <= size else b"") for text, size in ((said.name, NAME_SIZE), (said.units, UNITS_SIZE)))
    return [*key, ("name", name), ("units", units), ("value", value)]


def by_profile(data, utc):
    """The values of the lines with the names and units of the Profile, and developer fields as their file describes them."""
    form, lines = ["--profile", *["--utc"] * utc], show_json(data)
    found = reader.messages(data, False, columns.held_by)[3]
    for line, (message, fields, developer), said in zip(lines[1:], found, descriptions(found)):
        line[2] = "name", columns.TITLES.get(message)
        line[3] = "fields", [member(message, field, held, form) for field, (held,) in fields if held[2]]
        line[4] = "developer", [developer_object(field, it) for field, it in zip(developer, said) if field[3]]
    return lines


def wanted(data, utc, profile=False):
    try:
        return 0, by_profile(data, utc) if profile else show_json(data, utc), ""
    except Refused as refused:
        return 1, [], refused.lines


def each_field(pick):
    """A file with each field of the Profile, of a type of whole numbers: one number, and several."""
    records, messages = b"", {}
    for message, field in columns.ROWS:
        messages.setdefault(message, []).append(field)
    for message, own in messages.items():
        fields, content = b"", b""
        for field in own:
            base = pick.choice([code for code, (name, _, _) in BASE_TYPES.items() if name in IN_UNITS])
            size = BASE_TYPES[base][1] * pick.choice([1, 1, 1, 2, 3])
            fields += bytes([field, size, base])
            content += bytes(pick.choice([0, 0x3B, 0x7F, 0x80, 0xFF, pick.randrange(256)]) for _ in range(size))
        for at in range(0, len(fields), 3 * 255):
            part = fields[at:at + 3 * 255]
            size = sum(part[1::3])
            records += bytes([0x40, 0, 0]) + message.to_bytes(2, "little") + bytes([len(part) // 3]) + part + b"\0" + content[:size]
            content = content[size:]
    return framed(records)


def strings():
    """A file whose strings are plain, to be escaped, UTF-8 of two to four bytes, cut off in a character, Latin-1, surrogates and empty."""
    texts = [b"plain", b'"\\/\x01\x1f\x7f\t\r\n', "\u00e9 \u2603 \U0001f6b4".encode(), "\u2603".encode()[:2], b"Caf\xe9", b"\xed\xa0\x80", b"\xff",
             b"\xc0\x80", b"\xf4\x90\x80\x80", b"", b"a\0\xff"]
    records = b"".join(b"\x40\0\0\x0c\0\x01\x03" + bytes([len(text) + 1]) + b"\x07\0" + text + b"\0" for text in texts)
    return framed(records)


def recorded(fitrec):
    """The file of a ride that was stopped, and the same with its times written out."""
    with tempfile.TemporaryDirectory() as folder:
        run(fitrec, "replay", EXAMPLE, folder)
        run(fitrec, "save", folder, folder + "/saved.fit")
        return [(pathlib.Path(folder) / name).read_bytes() for name in ("activity.fit", "saved.fit")]


def made_files(given):
    """A ride, strings of each kind, each change of one byte of a small file, random files, whole and damaged, and described fields."""
    pick = random.Random(given.seed)
    forms = [(utc, profile) for utc in (False, True) for profile in (False, True)]
    inputs = [(data, *form) for data in [strings(), *recorded(given.fitrec), *[each_field(pick) for _ in range(20)]] for form in forms]
    inputs += [(data, False, at % 8 == 0) for at, data in enumerate(changes(given.small))]
    for _ in range(given.files // 2):
        data = made(pick)
        data = data if pick.random() < 0.7 else damaged(pick, data)
        inputs += [(data, *form) for form in forms]
    for _ in range(given.files // 2):
        inputs.append((described_file(pick), pick.random() < 0.2, pick.random() < 0.95))
    with room() as (place, _):
        def judge(number, row):
            data, utc, profile = row
            path = place.parent / ("%d.fit" % number)
            path.write_bytes(data)
            try:
                said = outcome(given.fitrec, path, utc, profile)
            except ValueError as error:
                said = "no JSON", str(error)
            path.unlink()
            expected = wanted(data, utc, profile)
            way = ("by the Profile" if profile else "shown") + (" with dates" if utc else "")
            return kind_of(expected[2], way), differs(said, expected, data)

        yield from given.judged(judge, inputs)


def check(given):
    yield from given.checks(made_files, given)
