"""Checks the tables of the public FIT Profile (python/fitrec/profile.txt, enums.txt): they have the names and units of the texts, the
program's table is made of the first, and they state what the Perl module in Debian's package pytrainer states, as perl reads that. The
module is the one that is installed, or else the one that `apt-get download` fetches. Debian 12 has an older one with fewer fields. And
compares the cells of `table --profile` with the second reader, struct and csv: fields of every type, developer fields, all fields of a
file, and the rides of other makers."""

import collections
import pathlib
import random
import re
import tempfile

import columns
from tools import cells, described, other_makers, reader
from tools.checks import Skipped, differs, unless
from tools.contents import content_made
from tools.described_files import RECORD, described_file
from tools.fit_files import framed
from tools.needs import is_there
from tools.profile_table import TABLE, enums_of, rows_of
from tools.program import ROOT, run

NEEDS = ("fitrec", "perl")
MODULES = "usr/share/pytrainer/plugins/garmin-fit/bin/Geo/FIT.pm", "usr/share/pytrainer/plugins/garmin-fit/bin/Garmin/FIT.pm"

# What is left out: messages and fields that the module itself calls undocumented, unknown or not present.
LEFT_OUT = {"source", "location", "battery", "sensor"}
NOT_PRESENT = {(39, 4), (19, 27), (19, 28), (19, 29), (19, 30), (26, 7), (33, 10)}
# What it has wrong, by the jar of the format's own kit.
CORRECTED = {(55, 8): ("distance_16", "m", 0.01, 0), (55, 9): ("cycles_16", "cycles", 0.5, 0),
             (28, 6): ("scheduled_time", "local_date", 1, 0)}
UNITS = {"watts": "W", "deg.C": "C", "degrees": "deg", "mps": "m/s", "minutes": "min", "hr": "h", "percent": "%", "radians": "rad",
         "radians/second": "rad/s"}
TYPES = {"date_time": "date", "local_date_time": "local_date"}

# The types of numbers whose names are names of values, as those of an enum are. Its base type is 0.
LIKE_ENUMS = {"antplus_device_type", "battery_status", "exercise_category", "fit_base_type", "fit_base_unit", "local_device_type",
              "manufacturer", "mesg_num", "set_type"}

# A unit of a table, by the end of a column's name.
SHORT = {"m": "m", "s": "s", "m_s": "m/s", "bpm": "bpm", "w": "W", "deg": "semicircles", "rpm": "rpm", "c": "C"}


def of_the_texts():
    """The names of `show` and the units of `table` are those of the table."""
    table = rows_of()
    for message, (title, names) in reader.MESSAGES.items():
        for field, name in names.items():
            unit = columns.UNITS.get(message, {}).get(field)
            short = "" if unit is None else "date" if unit == columns.TIME else SHORT[unit[0]]
            scale = 1.0 if unit is None or unit == columns.DEGREES else float(unit[1])
            shown = title, name, short, scale, float(-unit[3]) if unit else 0.0
            found = table.get((message, field))
            if unit is None and found:
                found = found[:2] + shown[2:]  # a field without a unit in the texts may have one in the table
            yield "a name and a unit of the texts", differs(found, shown)


def laid_out(text):
    """A text without its layout."""
    return re.sub(r",(?=[)\]}])", "", re.sub(r"\s", "", text))


def of_what_is_made():
    """The program's table is made of this one."""
    with tempfile.TemporaryDirectory() as folder:
        run(ROOT / "crates/fit_profile/make", folder)
        for name in "src/table.rt", "specs/Table.antt", "src/known.rt", "specs/Known.antt":
            made, kept = pathlib.Path(folder, name).read_text(), (ROOT / "crates/fit_profile" / name).read_text()
            yield "made from the table", differs(laid_out(kept), laid_out(made), name)


def of_the_rows():
    """Each number and each name stands once in its message."""
    lines = [it for it in TABLE.read_text().splitlines() if not it.startswith("#")]
    yield "a field for each line", differs(len(rows_of()), sum(it.startswith(" ") for it in lines))
    names = collections.Counter((message, row[1]) for (message, _), row in rows_of().items())
    yield "a name for each field", differs([it for it, count in names.items() if count > 1], [])


def module_in(folder):
    """The module of the installed package, or of the one that apt fetches into a folder."""
    found = [pathlib.Path("/", it) for it in MODULES if pathlib.Path("/", it).exists()]
    if not found and is_there("apt-get") and is_there("dpkg-deb"):
        run("apt-get", "download", "pytrainer", cwd=folder)
        for package in pathlib.Path(folder).glob("pytrainer_*.deb"):
            run("dpkg-deb", "-x", package, folder)
        found = [pathlib.Path(folder, it) for it in MODULES if pathlib.Path(folder, it).exists()]
    return found[0] if found else None


def stated(line):
    """The place and the facts of a field of the module; None if it is left out."""
    message, title, field, name, kind, unit, scale, offset = line.split("\t")
    place = int(message or -1), int(field)
    if title in LEFT_OUT or place in NOT_PRESENT or name.startswith("unknown"):
        return None
    unit = TYPES.get(kind) or UNITS.get(unit, unit)
    return place, (title, *CORRECTED.get(place, (name, unit, float(scale or 1), float(offset or 0))))


def of_the_module():
    with tempfile.TemporaryDirectory() as folder:
        module = module_in(folder)
        if module is None:
            yield "fields of the module", Skipped("pytrainer")
            return
        status, text, errors = run("perl", ROOT / "compare/tools/fields.pl", module)
        yield "perl reads the module", differs((status, errors), (0, ""))
        table, said = rows_of(), dict(filter(None, map(stated, text.splitlines())))
        yield "many fields", unless(len(said) > 900, len(said), "more than 900")
        for place, facts in said.items():
            yield "a field of the module", differs(table.get(place), facts, place)
        if module.parent.name == "Geo":
            yield "all fields are the module's", differs(sorted(set(table) - set(said)), [])
        yield from of_the_names(module, text)


def of_the_names(module, text):
    """The names of values are the module's, and so are the fields that have them."""
    status, values, errors = run("perl", ROOT / "compare/tools/fields.pl", module, "values")
    yield "perl reads the names", differs((status, errors), (0, ""))
    said, kinds, enums = {}, {}, enums_of()
    for kind, base, mask, number, name in (it.split("\t") for it in values.splitlines()):
        if (base == "0" or kind in LIKE_ENUMS) and not mask and (kind, name) not in {("mesg_num", it) for it in LEFT_OUT}:
            said.setdefault(kind, {})[int(number)] = name
    for line in text.splitlines():
        facts, kind = stated(line), line.split("\t")[4]
        if facts and kind in said:
            kinds.setdefault(kind, set()).add("%s.%s" % facts[1][:2])
    yield "many names", unless(sum(len(said[it]) for it in kinds) > 1000, len(kinds), "more than 1,000 names")
    for kind, fields in kinds.items():
        its, names = enums.get(kind, ([], {}))
        yield "the fields of " + kind, differs(sorted(fields - set(its)), [])
        yield "the names of " + kind, differs({it: names.get(it) for it in said[kind]}, said[kind])
    if module.parent.name == "Geo":
        yield "all types are the module's", differs({kind: (set(its), names) for kind, (its, names) in enums.items()}, {
            kind: (fields, said[kind]) for kind, fields in kinds.items()})


def file_of_kinds(pick):
    """A file with messages of one number, mostly one of the Profile, whose fields have any type; and that number, and the fields."""
    message = pick.choice([20, 20, 18, 132, 227, *{number for number, _ in columns.ROWS}, pick.randrange(65536)])
    known = [field for number, field in columns.ROWS if number == message]
    # A word names one field: a message of the Profile may have a timestamp of its own.
    usual = {253} - {253 for it in known if it != 253 and columns.ROWS[message, it][1] == "timestamp"}
    fields, records = pick.sample(sorted({*known, *usual, *range(20, 30)}), 10), b""
    for _ in range(pick.choice([1, 2, 5])):
        big, local = pick.randrange(2), pick.randrange(4)
        held = [(field, base, content_made(pick, base, big)) for field in pick.sample(fields, pick.choice([1, 3, 9]))
                for base in [pick.choice(sorted(reader.BASE_TYPES))]]
        records += bytes([0x40 | local, 0, big]) + message.to_bytes(2, "big" if big else "little") + bytes([len(held)])
        records += b"".join(bytes([field, len(data), base]) for field, base, data in held)
        records += bytes([pick.choice([local, 0x80 | local << 5 | pick.randrange(32)])]) + b"".join(data for _, _, data in held)
        for _ in range(pick.randrange(3)):
            records += bytes([local]) + bytes(pick.choice([0, 0xFF, 44, 34, pick.randrange(256)]) for _, _, data in held for _ in data)
    return framed(records), message, fields


def kinds(given):
    """Fields of every type as the cells of a table."""
    pick, inputs = random.Random(given.seed), []
    for _ in range(given.files // 2):
        form = ["--profile"] * (pick.random() < 0.9) + pick.choice([[], [], ["--raw"], ["--utc"], ["--raw", "--utc"]])
        data, message, fields = file_of_kinds(pick)
        inputs.append((data, message, fields[:pick.choice([1, 5, 10])], form))
    with tempfile.TemporaryDirectory() as folder:
        def judge(number, row):
            data, message, fields, form = row
            source = pathlib.Path(folder, "%d.fit" % number)
            source.write_bytes(data)
            return "a table of every type", columns.by_program(given.fitrec, source, message, fields, form)

        yield from given.judged(judge, inputs)


def held_fields(found, message):
    """The fields of size 1 or more that the messages of this number have: the time first, and then by their numbers. The time, if none."""
    held = {field for number, fields, _ in found if number == message for field, ((_, _, content),) in fields if content}
    return [253] * (253 in held or not held) + sorted(held - {253})


def described_cell(developer, said, name, form):
    """The cell of the first developer field of a message that has this name."""
    found = [(it, big, data) for (_, _, big, data), it in zip(developer, said) if it and it.name == name]
    if not found:
        return ""
    it, big, data = found[0]
    return cells.cell_of(it.base, big, data, lambda n, _: str(n) if "--raw" in form else cells.decimal_text(*it.in_units(n)))


def described_rows(found, message, fields, names, form):
    """The cells of these fields and of the developer fields of these names, for each message of this number."""
    rows = []
    for (number, held, developer), said in zip(found, described.descriptions(found)):
        if number == message:
            first = {field: it for field, (it,) in reversed(held)}
            rows.append([columns.cell_in(message, field, first, form, False) for field in fields]
                        + [described_cell(developer, said, name, form) for name in names])
    return rows


def described_table(fitrec, source, message, form):
    """What differs between the table by the program, with a column for each name of a developer field, and the one by the second reader."""
    data = source.read_bytes()
    found = reader.messages(data, False, columns.held_by)[3]
    fields, names = held_fields(found, message)[:128], described.names(found)
    table = described_rows(found, message, fields, names, form)
    heads = [columns.name_of(message, field, form)[1] for field in fields] + list(map(reader.text_of, names))
    said = run(fitrec, "table", *form, "--message", columns.TITLES[message], source)
    return differs(said[::2], (0, ""), data) or cells.table_differs(said[1], heads, table, data, len(names))


def described_fields(given):
    """Developer fields as columns, by the names that the file gives them."""
    pick = random.Random(given.seed)
    inputs = []
    for _ in range(given.files // 4):
        form = ["--profile"] + pick.choice([[], [], ["--raw"], ["--utc"]])
        inputs.append((described_file(pick), pick.choice([RECORD, RECORD, described.MESSAGE]), form))
    with tempfile.TemporaryDirectory() as folder:
        def judge(number, row):
            data, message, form = row
            source = pathlib.Path(folder, "%d.fit" % number)
            source.write_bytes(data)
            return "a table of developer fields", described_table(given.fitrec, source, message, form)

        yield from given.judged(judge, inputs)


def is_word(name):
    """Whether --fields can have this name: it is UTF-8 without a comma."""
    try:
        return "," not in name.decode()
    except UnicodeDecodeError:
        return False


def chosen_table(fitrec, sources, message, fields, names, form):
    """What differs between the table of these files by the program, with columns of these fields and of developer fields of these names,
    and the one by the second reader."""
    table, files = [], []
    for source in sources:
        found = reader.messages(source.read_bytes(), False, columns.held_by)[3]
        own = described_rows(found, message, fields, names, form)
        table += own
        files += [str(source)] * len(own)
    titles = [columns.name_of(message, field, form) for field in fields]
    heads = [head for _, head in titles] + list(map(reader.text_of, names))
    words = ",".join([*map(bytes.decode, names[:1]), *(name for name, _ in titles), *map(bytes.decode, names[1:])])
    status, came, err = run(fitrec, "table", *form, "--message", columns.TITLES[message], "--fields", words, *sources)
    difference = differs((status, err), (0, ""))
    if "--each" in form and not difference:
        first = '(?m)^"(%s)",' % "|".join(re.escape(str(it)) for it in sources)
        difference = differs(re.findall(first, came), files)
        came = re.sub(first, "", came.removeprefix("file,"))
    return difference or cells.table_differs(came, heads, table, sources, len(names))


def chosen_names(pick, found, others=(b"Power", b"Form Power", b'a"b')):
    """Some names of the developer fields of a file, in any order, and some that no file has."""
    names = [it for it in described.names(found) if is_word(it)][:100]
    return pick.sample(names, pick.randrange(len(names) + 1)) + pick.sample(others, pick.randrange(len(others) + 1))


def chosen_fields(given):
    """Developer fields that are chosen by name, in one file, and in several, of which each has descriptions of its own."""
    pick, inputs = random.Random(given.seed), []
    for at in range(given.files // 8):
        form = ["--profile"] + ["--each"] * (at % 2) + pick.choice([[], ["--raw"], ["--utc"]])
        sources = [described_file(pick) for _ in range(pick.choice([1, 2, 3]) if at % 2 else 1)]
        names = chosen_names(pick, reader.messages(pick.choice(sources), False, columns.held_by)[3])
        known = {name for (number, _), (_, name, *_) in columns.ROWS.items() if number == RECORD}
        names = [it for it in names if it.decode() not in known and not re.fullmatch(rb"field_\d+", it)]
        inputs.append((sources, pick.sample([253, 3, 7, 29], pick.choice([1, 1, 2, 4])), names, form))
    with tempfile.TemporaryDirectory() as folder:
        def judge(number, row):
            sources = [pathlib.Path(folder, "%d_%d.fit" % (number, at)) for at in range(len(row[0]))]
            for source, data in zip(sources, row[0]):
                source.write_bytes(data)
            return "a table of chosen developer fields", chosen_table(given.fitrec, sources, RECORD, *row[1:])

        yield from given.judged(judge, inputs)


def file_of_fields(pick, count):
    """A file of sessions with so many fields, in definitions of some of them each, and more that are of size 0."""
    numbers, records = pick.sample(range(256), count), b""
    for at in range(0, count, 100):
        own = numbers[at:at + 100]
        empty = pick.sample(range(256), 20)
        head = bytes([0x40 | at // 100, 0, 0, 18, 0, len(own) + len(empty)])
        records += head + b"".join(bytes([it, 0, 2]) for it in empty) + b"".join(bytes([it, 1, 2]) for it in own)
        records += bytes([at // 100]) + bytes(pick.randrange(256) for _ in own)
    return framed(records)


def all_fields(given):
    """Without names of fields the columns are those that the messages have, and what is past 128 is reported."""
    pick, inputs = random.Random(given.seed), []
    for count in (0, 1, 5, 127, 128, 129, 200, 256):
        inputs.append((file_of_fields(pick, count), 18))
    inputs += [file_of_kinds(pick)[:2] for _ in range(given.files // 10)]
    with tempfile.TemporaryDirectory() as folder:
        def judge(number, row):
            data, message = row
            source = pathlib.Path(folder, "%d.fit" % number)
            source.write_bytes(data)
            found = reader.messages(data, False, columns.held_by)[3]
            fields = held_fields(found, message)
            heads = [columns.name_of(message, field, ["--profile"])[1] for field in fields[:128]]
            title = columns.TITLES.get(message) or "message_%d" % message
            said = run(given.fitrec, "table", "--profile", "--message", title, source)
            line = "fitrec: %d columns past the first 128 are left out; --fields chooses them\n" % (len(fields) - 128)
            wanted = 0, ",".join(heads), line if len(fields) > 128 else ""
            return "a table of all fields", differs((said[0], said[1].split("\r\n")[0], said[2]), wanted, data)

        yield from given.judged(judge, inputs)


# The most bytes of such a ride: the second reader takes seconds for each number of messages of a longer one.
MOST = 100_000


def other_makers_rides(given):
    """All messages that the Profile names of the shorter rides of other makers."""
    rides = other_makers.rides()
    if isinstance(rides, Skipped):
        yield "tables of other makers' rides", rides
        return
    with tempfile.TemporaryDirectory() as folder:
        inputs = []
        for name, data in rides.items():
            if len(data) > MOST:
                continue
            source = pathlib.Path(folder, name)
            source.write_bytes(data)
            try:
                found = reader.messages(data, False, columns.held_by)[3]
            except reader.Refused:
                continue
            for message in sorted({number for number, _, _ in found} & set(columns.TITLES)):
                held = {field for number, fields, _ in found if number == message for field, _ in fields}
                inputs.append(([source], message, sorted(held)[:128], None))
            names = [it for it in described.names(found) if is_word(it)][:100]
            if names:
                inputs.append(([source], RECORD, [253, 3], names))
        named = [row for row in inputs if row[3]]
        if named:
            every = [source for sources, *_ in named for source in sources]
            inputs.append((every, RECORD, [253, 3], list(dict.fromkeys(name for *_, names in named for name in names))[:100]))

        def judge(number, row):
            sources, message, fields, names = row
            if names:
                form = ["--profile"] + ["--each"] * (len(sources) > 1)
                return "developer fields of other makers", chosen_table(given.fitrec, sources, message, fields, names, form)
            name = "%s: messages %d with the Profile" % (sources[0].name, message)
            return name, columns.by_program(given.fitrec, sources[0], message, fields, ["--profile"])

        yield from given.judged(judge, inputs)


def check(given):
    for group in of_the_texts, of_the_rows, of_what_is_made, of_the_module:
        yield from given.checks(group)
    for group in kinds, described_fields, chosen_fields, all_fields, other_makers_rides:
        yield from given.checks(group, given)
