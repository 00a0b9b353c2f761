"""Compares the columns of the shared library, and the tables of the program, with the second reader, cell by cell: over random files, whole
and damaged, with every base type and size, both byte orders, compressed timestamps, fields that are there twice, and developer fields."""

import ctypes
import datetime
import fractions
import pathlib
import random
import re
import tempfile

from tools import cells, profile_table, reader
from tools.checks import differs
from tools.fit_files import damaged, made
from tools.libraries import build
from tools.library_calls import ANSWERS
from tools.program import ROOT, run

NEEDS = ("fitrec", "rt", "cc")
NO_VALUE = -2**63

# The units of fields by message: what the name of a column ends with, how many parts are one, how many decimals, and what is added.
METRES, SECONDS, SPEED, BEATS, WATTS = ("m", 100, 2, 0), ("s", 1000, 3, 0), ("m_s", 1000, 3, 0), ("bpm", 1, 0, 0), ("w", 1, 0, 0)
DEGREES, HEIGHT, TIME = ("deg", fractions.Fraction(2**31, 180), 8, 0), ("m", 5, 1, -500), ("s", 1, 0, 0)
UNITS = {
    0: {4: TIME}, 34: {0: SECONDS},
    18: {2: TIME, 7: SECONDS, 8: SECONDS, 9: METRES, 14: SPEED, 15: SPEED, 16: BEATS, 17: BEATS, 20: WATTS, 21: WATTS},
    19: {2: TIME, 7: SECONDS, 8: SECONDS, 9: METRES, 13: SPEED, 14: SPEED, 15: BEATS, 16: BEATS, 19: WATTS, 20: WATTS},
    20: {0: DEGREES, 1: DEGREES, 2: HEIGHT, 3: BEATS, 4: ("rpm", 1, 0, 0), 5: METRES, 6: SPEED, 7: WATTS, 13: ("c", 1, 0, 0), 73: SPEED,
         78: HEIGHT}}


def value_of(base, big, data):
    """The one whole number of a field, or None. The second reader leaves fields out whose value is empty, and so not this one."""
    return (reader.whole_number(base, big, data),)


def held_by(base, big, data):
    """A field as it is."""
    return ((base, big, data),)


def rows_of(data, message, value=value_of):
    """For each message of this number, the value of the first field of each number."""
    found = []
    for number, fields, _ in reader.messages(data, False, value)[3]:
        if number == message:
            row = {}
            for field, own in fields:
                row.setdefault(field, own[0])
            found.append(row)
    return found


def refusal_of(data):
    """The kind of the fault and its place; None for a file."""
    try:
        reader.messages(data, False, value_of)
    except reader.Refused as refused:
        return re.sub(r"\(\d+\)", "", str(refused))
    return None


class Library:
    """The shared library, called as C calls it."""

    def __init__(self, path):
        self.call = ctypes.CDLL(str(path)).fitrec_columns
        self.call.restype = ctypes.c_uint8

    def columns(self, data, message, fields, room, short=0):
        """The answer, the number of rows, the place of a fault, and the columns."""
        size = len(fields) * room - short
        out, rows, place = (ctypes.c_int64 * max(size, 1))(), ctypes.c_uint64(), ctypes.c_uint64()
        answer = self.call(data, ctypes.c_size_t(len(data)), ctypes.c_uint16(message), bytes(fields), ctypes.c_size_t(len(fields)),
                           ctypes.c_size_t(room), out, ctypes.c_size_t(size), ctypes.byref(rows), ctypes.byref(place))
        columns = [list(out[k * room:k * room + rows.value]) for k in range(len(fields))]
        return answer, rows.value, place.value, columns if answer == 0 else None


def by_library(calls, data, message, fields):
    """What differs between the columns by the library and by the second reader."""
    refusal = refusal_of(data)
    if refusal:
        kind, place = refusal.split(" at ")
        said = calls.columns(data, message, fields, 1)
        return differs((said[0], said[2]), (ANSWERS[kind], int(place)))
    rows = rows_of(data, message)
    wanted = [[NO_VALUE if row.get(field) is None else row[field] for row in rows] for field in fields]
    said = calls.columns(data, message, fields, len(rows))
    difference = differs((said[0], said[1], said[3]), (0, len(rows), wanted), data)
    if rows and not difference:
        difference = differs(calls.columns(data, message, fields, len(rows) - 1)[:2], (20, len(rows)), "a row too few")
    if rows and fields and not difference:
        difference = differs(calls.columns(data, message, fields, len(rows), 1)[0], 24, "a value too few")
    return difference


# How many decimals a scale of the Profile has, and units that do not end a column's name as they are.
DECIMALS = {1: 0, 2: 1, 4: 2, 5: 1, 10: 1, 16: 4, 100: 2, 128: 7, 256: 8, 1000: 3, 1024: 8, 5000: 4, 32768: 8, 65535: 8, 65536: 8,
            0.7111111: 5, 10430.38: 6, 0.01: 0, 0.5: 0}
ENDS = {"%": "percent", "m/s^2": "m_s2", "kg/m^3": "kg_m3", "local_date": "s"}
ROWS, TITLES = profile_table.rows_of(), profile_table.titles_of()


def unit_of(message, field, form):
    """The unit of a field, or None."""
    row = ROWS.get((message, field)) if "--profile" in form else None
    if row is None:
        return TIME if field == 253 else UNITS.get(message, {}).get(field)
    _, _, unit, scale, offset = row
    if unit in ("date", "semicircles"):
        return TIME if unit == "date" else DEGREES
    # 0.7111111 is 32 / 45: 256 parts are 360 degrees
    parts = fractions.Fraction(32, 45) if scale == 0.7111111 else fractions.Fraction(str(scale))
    end = ENDS.get(unit, unit.lower().replace("/", "_"))
    return (end, parts, DECIMALS[scale], -int(offset)) if unit or scale != 1 else None


def cell_text(message, field, value, form, alone):
    """A cell, exactly."""
    none = '""' if alone else ""
    unit = unit_of(message, field, form)
    if value is None:
        return none
    if unit is TIME and "--utc" in form:
        is_date = 0x10000000 <= value < 2**32
        return (reader.EPOCH + datetime.timedelta(seconds=value)).strftime("%Y-%m-%dT%H:%M:%SZ") if is_date else none
    if unit is None or "--raw" in form:
        return str(value)
    _, parts, places, more = unit
    return cells.decimal_text(value / fractions.Fraction(parts) + more, places)


def cell_in(message, field, row, form, alone):
    """A cell of a table, as `tools/cells` has it."""
    held = row.get(field)
    whole = value_of(*held)[0] if held else None
    if whole is not None or held is None or "--profile" not in form:
        text = cell_text(message, field, whole, form, alone)
        return "" if text == '""' else text

    def write(number, is_single):
        text = cell_text(message, field, number, form, alone and is_single)
        return "" if text == '""' else text

    return cells.cell_of(*held, write)


def name_of(message, field, form):
    known, names = reader.names_of(message)
    row = ROWS.get((message, field)) if "--profile" in form else None
    name = row[1] if row else reader.COMMON.get(field) or names.get(field) or "field_%d" % field
    unit = unit_of(message, field, form)
    is_plain = unit is None or not unit[0] or "--raw" in form or (unit is TIME and "--utc" in form)
    return name, name if is_plain else name + "_" + unit[0]


def by_program(fitrec, source, message, fields, form):
    """What differs between the table by the program and the one by the second reader."""
    data = source.read_bytes()
    names = [name_of(message, field, form) for field in fields]
    title = (TITLES.get(message) if "--profile" in form else None) or reader.names_of(message)[0] or "message_%d" % message
    words = ["--message", title, "--fields", ",".join(name for name, _ in names)]
    said = run(fitrec, "table", *form, *words, source)
    try:
        rows = rows_of(data, message, held_by)
    except reader.Refused as refused:
        return differs(said, (1, "", refused.lines), data)
    table = [[cell_in(message, field, row, form, len(fields) == 1) for field in fields] for row in rows]
    difference = differs(said[::2], (0, ""), data)
    return difference or cells.table_differs(said[1], [head for _, head in names], table, data if len(data) < 4096 else source)


def most_columns(calls, seed):
    one_more = calls.columns(made(random.Random(seed)), 20, [0] * 129, 0)[0]
    yield "128 columns and one more", differs((one_more, calls.columns(b"", 20, [0] * 128, 0)[0]), (23, 1))


def made_files(given, calls):
    """Random files, and of each the messages of some numbers: all their fields, and some fields, as columns; and some as a table."""
    pick, inputs = random.Random(given.seed), []
    for at in range(given.files // 20):
        data = damaged(pick, made(pick)) if at % 5 == 0 else made(pick)
        found = [] if refusal_of(data) else [number for number, _, _ in reader.messages(data, False, value_of)[3]]
        for message in sorted({20, pick.randrange(65536), *found}):
            for fields in range(128), range(128, 256), [pick.randrange(256) for _ in range(pick.randrange(5))]:
                inputs.append((data, message, list(fields), None))
            form = pick.choice([[], ["--utc"], ["--raw"], ["--raw", "--utc"]]) + pick.choice([[], ["--profile"]])
            # some of the fields that the Profile scales otherwise than the texts
            numbers = pick.choice([[*range(15), 73, 78, 253, 254], [*range(256)]])
            inputs.append((data, message, pick.sample(numbers, pick.choice([1, 3, 11])), form))
    with tempfile.TemporaryDirectory() as folder:
        def judge(number, row):
            data, message, fields, form = row
            if form is None:
                return "columns of a file", by_library(calls, data, message, fields)
            source = pathlib.Path(folder, "%d.fit" % number)
            source.write_bytes(data)
            return "table of a file", by_program(given.fitrec, source, message, fields, form)

        yield from given.judged(judge, inputs)


def proved_and_built(archive):
    yield "proved and built", differs(build(archive), None)
    if pathlib.Path(archive).exists():
        yield "build-shared", differs(run(ROOT / "build-shared", pathlib.Path(archive).parent, archive)[::2], (0, ""))


def check(given):
    with tempfile.TemporaryDirectory() as folder:
        archive, shared = folder + "/libfit_c.a", pathlib.Path(folder, "libfitrec.so")
        yield from given.checks(proved_and_built, archive)
        if not shared.exists():
            return
        calls = Library(shared)
        yield from given.checks(most_columns, calls, given.seed)
        yield from given.checks(made_files, given, calls)
