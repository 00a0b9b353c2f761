"""Compares `fitrec show --gpx` with the second reader: byte by byte, over random files, whole and damaged, and over random rides, with
fields of every type, both byte orders, compressed timestamps and invalid values. Python's XML parser reads each track and has to find the
same values by their names; and gpsbabel, if it is there, the same points."""

import pathlib
import random
import re
import tempfile
import xml.etree.ElementTree as xml

import columns
from tools import reader
from tools.checks import differs
from tools.fit_files import damaged, framed, kind_of, made
from tools.needs import missing
from tools.program import run
from tools.reader import BASE_TYPES

NEEDS = ("fitrec",)

HEAD = """\
<?xml version="1.0" encoding="UTF-8"?>
<gpx version="1.1" creator="fitrec" xmlns="http://www.topografix.com/GPX/1/1" xmlns:gpxtpx="http://www.garmin.com/xmlschemas/TrackPointExtension/v1">
<trk><trkseg>
"""
TAIL = "</trkseg></trk>\n</gpx>\n"
TRACK, SENSORS = "{http://www.topografix.com/GPX/1/1}", "{http://www.garmin.com/xmlschemas/TrackPointExtension/v1}"
RECORD = 20
# The usual types of the fields of a point.
USUAL = {253: 0x86, 0: 0x85, 1: 0x85, 2: 0x84, 78: 0x86, 7: 0x84, 13: 0x01, 3: 0x02, 4: 0x02}


def points_of(data):
    """The values of each record with a position, as a table with --utc has them, by their paths in a point; those that it has."""
    found = []
    for row in columns.rows_of(data, RECORD):
        lat, lon, high, low, time, power, warmth, heart, cadence = (
            columns.cell_text(RECORD, field, row.get(field), ["--utc"], False) for field in (0, 1, 78, 2, 253, 7, 13, 3, 4))
        sensors = "extensions/%sTrackPointExtension/%s" % (SENSORS, SENSORS)
        if lat and lon:
            own = {"lat": lat, "lon": lon, "ele": high or low, "time": time, "extensions/power": power, sensors + "atemp": warmth,
                   sensors + "hr": heart, sensors + "cad": cadence}
            found.append({path: text for path, text in own.items() if text})
    return found


def element(name, *inside):
    """The text of an element; nothing if nothing is in it."""
    text = "".join(inside)
    return "<%s>%s</%s>" % (name, text, name) if text else ""


def point_text(point):
    """The line of a point."""
    own = {re.split("[/}]", path)[-1]: text for path, text in point.items()}
    sensors = [element("gpxtpx:" + name, own.get(name, "")) for name in ("atemp", "hr", "cad")]
    extensions = element("extensions", element("power", own.get("power", "")), element("gpxtpx:TrackPointExtension", *sensors))
    front = '<trkpt lat="%s" lon="%s">' % (own["lat"], own["lon"])
    return front + element("ele", own.get("ele", "")) + element("time", own.get("time", "")) + extensions + "</trkpt>\n"


def wanted(data):
    """The status, the text and the errors, and the points."""
    try:
        points = points_of(data)
    except reader.Refused as refused:
        return (1, "", refused.lines), None
    return (0, HEAD + "".join(map(point_text, points)) + TAIL, ""), points


def read(text):
    """The values of the points of a GPX, by their paths, as `points_of` has them."""
    found = []
    for point in xml.fromstring(text.encode()).iterfind("%strk/%strkseg/%strkpt" % (TRACK, TRACK, TRACK)):
        own = dict(point.attrib)

        def enter(node, path):
            for child in node:
                at = path + child.tag.removeprefix(TRACK)
                if len(child):
                    enter(child, at + "/")
                else:
                    own[at] = child.text
        enter(point, "")
        found.append(own)
    return found


def field_value(pick, field, base, big, tame):
    """The bytes of a field: its invalid value, or any; those of a tame ride are usual ones."""
    name, size, invalid = BASE_TYPES[base]
    order = "big" if big else "little"
    if pick.random() < 0.2 and not (tame and field in (0, 1)):
        return invalid.to_bytes(size, order)
    if field == 253 and size == 4:
        early, late = pick.randrange(0x10000000), pick.randrange(0x10000000, 0xFFFFFFFF)
        time = pick.choice([late, late, late, early, 0x0FFFFFFF, 0x10000000, 0xFFFFFFFE])
        return (pick.randrange(1000000000, 1100000000) if tame else time).to_bytes(size, order)
    if tame and field in (0, 1):
        most = (2**30 if field == 0 else 2**31) - 1
        return pick.randrange(-most, most).to_bytes(size, order, signed=True)
    return bytes(pick.choice([0, 0x7F, 0x80, 0xFF, *[pick.randrange(256)] * 4]) for _ in range(size))


def ridden(pick, tame):
    """A file of records, most of them with a position, among other messages. A tame one has the usual types, and places on the earth."""
    records, known = b"", {}
    for _ in range(pick.randrange(40)):
        if not known or pick.random() < 0.2:
            local, big = pick.randrange(16 if pick.random() < 0.3 else 4), pick.randrange(2)
            message = pick.choice([RECORD] * 9 + [19])
            fields = [(field, base) for field, base in USUAL.items() if pick.random() < (0.9 if field in (0, 1) else 0.6)]
            if not tame:
                fields = [(field, pick.choice([base] * 9 + [*BASE_TYPES])) for field, base in fields]
                fields += pick.choices(list(USUAL.items()), k=pick.choice([0, 0, 0, 1, 2]))
            pick.shuffle(fields)
            known[local] = big, fields
            triples = b"".join(bytes([field, BASE_TYPES[base][1], base]) for field, base in fields)
            records += bytes([0x40 | local, 0, big]) + message.to_bytes(2, "big" if big else "little") + bytes([len(fields)]) + triples
        else:
            local = pick.choice(list(known))
            big, fields = known[local]
            content = b"".join(field_value(pick, field, base, big, tame) for field, base in fields)
            is_short = local < 4 and pick.random() < 0.4
            records += bytes([0x80 | local << 5 | pick.randrange(32) if is_short else local]) + content
    return framed(records)


def by_program(given):
    """Random rides and files, whole and damaged."""
    pick, inputs = random.Random(given.seed), []
    for at in range(given.files // 2):
        data = made(pick) if at % 4 == 0 else ridden(pick, False)
        inputs.append(damaged(pick, data) if at % 5 == 0 else data)
    with tempfile.TemporaryDirectory() as folder:
        def judge(number, data):
            path = pathlib.Path(folder, "%d.fit" % number)
            path.write_bytes(data)
            said = run(given.fitrec, "show", "--gpx", path)
            path.unlink()
            expected, points = wanted(data)
            difference = differs(said, expected, data)
            if points is not None and difference is None:
                difference = differs(read(said[1]), points, data)
            return kind_of(expected[2], "a track"), difference

        yield from given.judged(judge, inputs)


def as_numbers(points):
    """What gpsbabel writes in digits of its own: places and heights as numbers, and times."""
    return [(float(it["lat"]), float(it["lon"]), float(it["ele"]) if "ele" in it else None, it.get("time")) for it in points]


def by_gpsbabel(given):
    """The points that gpsbabel reads, of rides on the earth."""
    if lacks := missing("gpsbabel"):
        yield "gpsbabel reads the points of a track", lacks
        return
    pick = random.Random(given.seed)
    inputs = [ridden(pick, True) for _ in range(max(1, given.files // 30))]
    with tempfile.TemporaryDirectory() as folder:
        def judge(number, data):
            path = pathlib.Path(folder, "%d" % number)
            path.with_suffix(".fit").write_bytes(data)
            path.with_suffix(".gpx").write_text(run(given.fitrec, "show", "--gpx", path.with_suffix(".fit"))[1])
            status, text, errors = run("gpsbabel", "-i", "gpx", "-f", path.with_suffix(".gpx"), "-o", "gpx", "-F", "-")
            came = (status, errors, as_numbers(read(text)) if status == 0 else text)
            return "gpsbabel reads the points of a track", differs(came, (0, "", as_numbers(points_of(data))), data)

        yield from given.judged(judge, inputs)


def check(given):
    yield from given.checks(by_program, given)
    yield from given.checks(by_gpsbabel, given)
