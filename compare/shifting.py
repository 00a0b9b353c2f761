"""Compares `fitrec shift` with the second reader, over random files, whole and damaged, over a ride, and at its limits.

The times are the fields of the table of the Profile whose unit is a date, and field 253 of each message."""

import datetime
import pathlib
import random
import tempfile

from tools.checks import differs
from tools.fit_files import compressed_ride, damaged, framed, kind_of, long_content, made, many_messages, too_long_at_792, widest
from tools.places import OLD, place_of
from tools.program import ROOT, bytes_of, room, run
from tools.reader import EPOCH, Refused, item_size, messages, number, plained, read_header
from tools.rides import script_of

NEEDS = ("fitrec",)

INVALID = 0xFFFFFFFF
# By how many seconds the times of made files are moved.
SHIFTS = [0, 1, -1, 31, 32, -32, 3600, -86401, 1 << 31, -(1 << 31), INVALID - 1, 1 - INVALID]
FILE_ID = bytes([0x40, 0, 0, 0, 0, 1, 4, 4, 0x86])
RECORD = bytes([0x41, 0, 0, 20, 0, 2, 253, 4, 0x86, 3, 1, 2])


def times_of_profile():
    """The messages and fields that hold times, in UTC or of the place."""
    found, message = set(), None
    for line in (ROOT / "python/fitrec/profile.txt").read_text().splitlines():
        words = line.split()
        if line.startswith(" ") and words[2:3] and words[2] in ("date", "local_date"):
            found.add((message, int(words[0])))
        elif line and line[0].isdigit():
            message = int(words[0])
    return found


TIMES = times_of_profile()


def is_time(message, field, base):
    return base == 0x86 and (field == 253 or (message, field) in TIMES)


def stated(data):
    """The messages of a file: of each field its base type, and its numbers if it has whole ones of four bytes, else its bytes."""
    def value(base, big, content):
        if base == 0x86 and len(content) % 4 == 0:
            return base, [number(content[at:at + 4], big) for at in range(0, len(content), 4)]
        return base, (big, content)
    return messages(data, False, value)[3]


def places(data):
    """Where the data messages of a file begin."""
    (at, size), sizes, found = read_header(data), {}, []
    end = at + size
    while at < end:
        if data[at] & 0xC0 != 0x40:
            found.append(at)
        at += item_size(data[at:end], sizes)
    return found


def moved_time(time, seconds, place):
    if time == INVALID:
        return time
    if not 0 <= time + seconds < INVALID:
        raise Refused("TimeTooFar at %d" % place)
    return time + seconds


def moved(data, seconds):
    """The messages of a file with their times moved."""
    out = []
    for (message, fields, developer), place in zip(stated(data), places(data), strict=True):
        new = []
        for field, (base, values) in fields:
            if is_time(message, field, base) and isinstance(values, list):
                values = [moved_time(time, seconds, place) for time in values]
            new.append((field, (base, values)))
        out.append((message, new, developer))
    return out


def start_of(data):
    """The time of the first record that has one, or else of the first message."""
    def first(chosen):
        for message, fields, _ in stated(data):
            for field, (base, values) in fields if chosen(message) else ():
                if (field, base) == (253, 0x86) and isinstance(values, list) and len(values) == 1 and values[0] != INVALID:
                    return values[0]
        return None
    time = first(lambda message: message == 20)
    return first(lambda message: True) if time is None else time


def said_of(data, seconds):
    """The status and the line of a run over these bytes, and the messages that the new file has to have."""
    try:
        out = moved(data, seconds)
        plained(data)
        return (0, "messages %d\n" % len(out), ""), out
    except Refused as refused:
        return (1, "", refused.lines), None


def judge(fitrec, folder, case, data, *words, seconds=None):
    """How a run ends, and how it differs from the second reader. The new file is its own plain form, under the header of the old one, and
    moved back it has the messages of the old one."""
    source, out, back = (pathlib.Path(folder) / ("%s.%s" % (case, name)) for name in ("in", "out", "back"))
    source.write_bytes(data)
    said, wanted = said_of(data, seconds)
    is_, expected = [run(fitrec, "shift", *words, source, out)], [said]
    if wanted is not None:
        new = bytes_of(out)
        is_ += [stated(new), plained(new)[1] == new, new[:4], run(fitrec, "shift", "--by", str(-seconds), out, back)]
        expected += [wanted, True, data[:4], said]
        is_.append(stated(bytes_of(back)))
        expected.append(stated(data))
    else:
        is_.append(bytes_of(out))
        expected.append(None)
    for path in (source, out, back):
        path.unlink(missing_ok=True)
    return "moved" if wanted is not None else kind_of(said[2], ""), differs(is_, expected, (words, data))


def by(fitrec, folder, case, data, seconds):
    return judge(fitrec, folder, case, data, "--by", str(seconds), seconds=seconds)


def made_files(given):
    """Random files, whole and damaged, moved by any number of seconds."""
    pick, count = random.Random(given.seed), given.files // 4
    inputs = [made(pick) for _ in range(count)]
    inputs += [damaged(pick, made(pick)) for _ in range(count // 6)]
    pairs = [(data, pick.choice([*SHIFTS, pick.randrange(-100000, 100000)])) for data in inputs]
    with tempfile.TemporaryDirectory() as folder:
        yield from given.judged(lambda at, pair: by(given.fitrec, folder, at, *pair), pairs)


def times(fitrec):
    """Each field of the Profile that holds a time, in both byte orders and with several values, and its neighbour, which does not."""
    with tempfile.TemporaryDirectory() as folder:
        for message, field in sorted(TIMES):
            for big in (0, 1):
                for at, base, size in ((field, 0x86, 4), (field, 0x86, 8), (field, 0x86, 6), (field, 0x85, 4), (field, 0x8C, 4), (252, 0x86, 4)):
                    order = "big" if big else "little"
                    records = bytes([0x40, 0, big]) + message.to_bytes(2, order) + bytes([1, at, size, base])
                    records += b"\0" + (1000000000).to_bytes(4, order) * 2 if size == 8 else b"\0" + (1000000000).to_bytes(4, order) + bytes(size - 4)
                    yield "%d.%d" % (message, at), by(fitrec, folder, "%d.%d" % (message, at), framed(records), 86400)[1]


def a_ride(fitrec):
    """A ride of the recorder, with compressed timestamps, and one whose clock began anew."""
    with room(*script_of(40, 7).splitlines()) as (script, new):
        folder = new()
        run(fitrec, "replay", script, folder)
        data = pathlib.Path(folder, "activity.fit").read_bytes()
        for seconds in (1, 32, -1000000, 12345):
            yield "a ride", by(fitrec, folder, "ride", data, seconds)[1]
        yield "compressed times", by(fitrec, folder, "compressed", compressed_ride(100), 7)[1]


def starts(fitrec):
    """A ride that has to begin at a time, which is stated in each way; in a time since the device was turned on; and without any time."""
    new_year = int((datetime.datetime(2026, 1, 1) - EPOCH).total_seconds())
    words = {"2026-01-01T00:00:00Z": new_year, "2026-01-01T02:00:00+02:00": new_year, "2025-12-31T18:30:00-05:30": new_year,
             str(new_year): new_year, "0": 0, "1989-12-31T00:00:00Z": 0, str(INVALID - 1): INVALID - 1, "2126-02-06T06:28:14Z": INVALID - 1}
    begun = framed(RECORD + b"\1" + (5000).to_bytes(4, "little") + b"d" + b"\1" + (5001).to_bytes(4, "little") + b"d")
    with tempfile.TemporaryDirectory() as folder:
        for word, time in words.items():
            for name, data in (("compressed", compressed_ride(3)), ("turned on", begun)):
                seconds = time - start_of(data)
                yield "%s %s" % (name, word), judge(fitrec, folder, "start", data, "--start", word, seconds=seconds)[1]
        # the file_id has no field 253, and an event comes before the first record
        event = bytes([0x42, 0, 0, 21, 0, 1, 253, 4, 0x86])
        before = framed(FILE_ID + b"\0" + (7).to_bytes(4, "little") + event + b"\2" + (900).to_bytes(4, "little") + RECORD + b"\1" + (1000).to_bytes(4, "little") + b"d")
        yield "an event before", judge(fitrec, folder, "event", before, "--start", "5000", seconds=4000)[1]
        alone = framed(event + b"\2" + b"\xFF" * 4 + b"\2" + (900).to_bytes(4, "little"))
        yield "no record", judge(fitrec, folder, "alone", alone, "--start", "5000", seconds=4100)[1]
    for data in (framed(b""), framed(FILE_ID + b"\0" + (7).to_bytes(4, "little")), framed(event + b"\2" + b"\xFF" * 4)):
        with place_of(data) as place:
            said = run(fitrec, "shift", "--start", "5000", place.source, place.out)
            yield "no time", differs((said, place.left()), ((1, "", "fitrec: NoTime\n"), (OLD, ["in.fit", "out.fit"])))


def limits(fitrec):
    """The first and the last time, the place of a message that is refused, a definition without room, long content, and many messages."""
    def record(time):
        return b"\1" + time.to_bytes(4, "little") + b"d"
    with tempfile.TemporaryDirectory() as folder:
        for time, seconds in ((0, 0), (0, -1), (5, -5), (5, -6), (INVALID - 2, 1), (INVALID - 1, 1), (INVALID - 1, 0), (INVALID, 1), (INVALID, -1)):
            yield "%d by %d" % (time, seconds), by(fitrec, folder, "limit", framed(RECORD + record(INVALID) + record(time)), seconds)[1]
        for name, data in (("the widest definition", widest(254)), ("no room", widest(255)), ("the place of an item", too_long_at_792()),
                           *(("long content", long_content(size)) for size in (65535, 65536, 130050))):
            yield name, by(fitrec, folder, "wide", data, 3)[1]
    # at 14 a definition that announces developer fields and has none, so it is written in 6 bytes; at 21 that of a record, at 33 and 39 two
    with place_of(framed(bytes([0x60, 0, 0, 20, 0, 0, 0]) + RECORD + record(100) + record(5))) as place:
        said = run(fitrec, "shift", "--by", "-6", place.source, place.out)
        yield "the place of a message", differs((said, place.left()), ((1, "", "fitrec: TimeTooFar at 39\n"), (OLD, ["in.fit", "out.fit"])))
    data = many_messages(1000000)
    with place_of(data) as place:
        said = run(fitrec, "shift", "--by", "5", place.source, place.source)
        yield "in its own place", differs((said, place.source.read_bytes() == data), ((0, "messages 1000000\n", ""), True))


def check(given):
    yield from given.checks(made_files, given)
    for group in (times, a_ride, starts, limits):
        yield from given.checks(group, given.fitrec)
