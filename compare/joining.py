"""Compares `fitrec join` with a second reader of its description: over made activities of other makers, over rides of our own and of other
makers in Debian's source of goldencheetah that are cut into halves, and at its limits. gpsbabel reads what is joined.

The halves of a ride begin with the definitions in force at the cut, and the odometer of a later half begins at 0, as after a new start of a
device."""

import pathlib
import random
import tempfile

from finishing import Maker, recorded, ride
from programs import read_by_gpsbabel, sample
from tools.checks import Skipped, differs
from tools.described import descriptions
from tools.finished import ENUM, UINT8, UINT16, UINT32, closing, heard, opening, stated_sport, value_of
from tools.fit_files import compressed_ride, framed
from tools.holes import messages as found_in, numbers
from tools.needs import missing
from tools.other_makers import rides
from tools.program import bytes_of, room, run
from tools.reader import BASE_TYPES, Refused, hexadecimal, messages, names_of, number, plained, show, value_text

NEEDS = ("fitrec", "gpsbabel")

START = 1000000000
INVALID = 0xFFFFFFFF
FILE_ID, SPORT, SESSION, LAP, RECORD, EVENT, ACTIVITY, DESCRIPTION, DEVELOPER = 0, 12, 18, 19, 20, 21, 34, 206, 207
# The fields that are developer data indices.
INDICES = {DEVELOPER: 3, DESCRIPTION: 0}
STOPS, STARTS = (1, 4, 8, 9), (0,)


def stated(data):
    """The messages of a file: of each field its base type, whether its high byte is first, and its bytes."""
    return messages(data, False, lambda base, big, content: (base, big, content))[3]


def made_laps(found):
    """Whether the rider made a lap: one after which a record or another lap follows."""
    laps = [at for at, it in enumerate(found) if it[0] == LAP]
    return bool(laps) and any(it[0] in (LAP, RECORD) for it in found[laps[0] + 1:])


def with_value(fields, wanted, base, change):
    """The fields, with another number in each of this number and type that has one."""
    size = BASE_TYPES[base][1]
    for field, (its, big, content) in fields:
        if (field, its, len(content)) == (wanted, base, size):
            content = change(number(content, big)).to_bytes(size, "big" if big else "little")
        yield field, (its, big, content)


def timer_events(found):
    """The kinds of the events of the timer."""
    kinds = [value_of(fields, 1, ENUM) for message, fields, _ in found if message == EVENT and value_of(fields, 0, ENUM) == 0]
    return [kind for kind in kinds if kind in STOPS + STARTS]


def entry_times(found, keeps_laps):
    """The times of the records, of the events, and of the laps, if laps stay."""
    kinds = (RECORD, EVENT, LAP) if keeps_laps else (RECORD, EVENT)
    times = [value_of(fields, 253, UINT32) for message, fields, _ in found if message in kinds]
    return [time for time in times if time is not None]


def timer_event(time, kind):
    return EVENT, [(253, (UINT32, False, time.to_bytes(4, "little"))), (0, (ENUM, False, b"\0")), (1, (ENUM, False, bytes([kind])))], []


def maker_of(fields):
    """The bytes of application_id and developer_id, where their types have values of one byte."""
    stated = [next((it for field, it in fields if field == wanted), (None, False, b"")) for wanted in (1, 0)]
    return [content if base in BASE_TYPES and BASE_TYPES[base][1] == 1 else b"" for base, _, content in stated]


def given_to(part, makers):
    """The index in the joined file of each developer data index that a part declares. `makers` are those of the parts before it, by their
    indices, and those of this part are added."""
    given = {}
    for message, fields, _ in part:
        index = value_of(fields, 3, UINT8) if message == DEVELOPER else None
        if index is not None and index not in given:
            maker = maker_of(fields)
            given[index] = next((it for it in (index, *range(255)) if makers.get(it, maker) == maker), index)
            makers[given[index]] = maker
    return given


def further(part, reached):
    """How much further the distances of a part go after parts that went so far: not at all if its odometer went on."""
    distances = [value_of(fields, 5, UINT32) for message, fields, _ in part if message == RECORD]
    first = next((it for it in distances if it is not None), None)
    return 0 if first is not None and reached >= 10_000 and 0 <= first - reached <= 100_000 else reached


def joined(parts):
    """The messages of these parts as one activity, without those that close it."""
    out, reached, laps, makers = [], 0, 0, {}
    keeps_laps = any(map(made_laps, parts))
    for place, part in enumerate(parts):
        begun, events, times, given = further(part, reached), timer_events(part), entry_times(part, keeps_laps), given_to(part, makers)
        if place and times and events[:1] != [0]:
            out.append(timer_event(times[0], 0))
        for message, fields, developer in part:
            if message in (SESSION, ACTIVITY) or message == FILE_ID and place or message == LAP and not keeps_laps:
                continue
            if message == RECORD:
                distance = value_of(fields, 5, UINT32)
                reached = reached if distance is None else min(begun + distance, INVALID)
                fields = list(with_value(fields, 5, UINT32, lambda it: min(begun + it, INVALID)))
            if message == LAP:
                fields = list(with_value(fields, 254, UINT16, lambda _: min(laps, 0xFFFF)))
                laps += 1
            if message in INDICES:
                fields = list(with_value(fields, INDICES[message], UINT8, lambda it: given.get(it, it)))
            out.append((message, fields, [(given.get(index, index), *others) for index, *others in developer]))
        if place + 1 < len(parts) and times and (not events or events[-1] == 0):
            out.append(timer_event(times[-1], 4))
    return out + sport_added(parts)


def sport_added(parts):
    """A sport message of the first sport that a part states, if no sport message states one."""
    if any(stated_sport([it]) for part in parts for it in part if it[0] == SPORT):
        return []
    pair = next(filter(None, map(stated_sport, parts)), None)
    return [(SPORT, [(at, (ENUM, False, bytes([it]))) for at, it in enumerate(pair)], [])] if pair else []


def texts(found):
    """The text of each message."""
    for message, fields, developer in found:
        name, names = names_of(message)
        pairs = "".join(" %s=%s" % (names.get(field, "field_%d" % field), value_text(*value)) for field, value in fields)
        pairs += "".join(" developer_%d_%d=%s" % (index, field, hexadecimal(it) if it else "") for index, field, _, it in developer)
        yield (name or "message_%d" % message) + pairs


def first_time(part):
    return (entry_times(part, True) or [None])[0]


def sport_of(part):
    """The first sport that a sport message, a session or a lap states."""
    return (stated_sport(part) or [None])[0]


def in_order(parts):
    """The places of the parts by their first times; one without a time comes last."""
    times = [first_time(it) for it in parts]
    return sorted(range(len(parts)), key=lambda at: (times[at] is None, times[at] or 0))


def misfit(parts):
    """The place of the first part that does not go with one of those before it, and why."""
    for at, part in enumerate(parts):
        sports = {sport_of(it) for it in parts[:at + 1]} - {None}
        if len(sports) > 1:
            return at, "OtherSport"
        if first_time(part) is not None and any(first_time(part) < it for other in parts[:at] for it in entry_times(other, True)[-1:]):
            return at, "Overlap"
    return None


TORN = "fitrec: salvage --skip --plain --finish makes a whole file of what is readable of a torn one\n"
AS_GIVEN = "; join --as-given takes the parts as they are given\n"
WHY = {"OtherSport": "fitrec: the parts before it have another sport" + AS_GIVEN, "Overlap": "fitrec: it begins before a part before it ends" + AS_GIVEN}


def put(datas, as_given):
    """The places of the parts in the order in which they are joined."""
    try:
        return range(len(datas)) if as_given else in_order([stated(it) for it in datas])
    except Refused:
        return range(len(datas))


def said_of(datas, as_given=False):
    """The status and the texts of a run over files of these bytes, and the texts of the messages that the new file has to have."""
    for place, data in enumerate(datas):
        try:
            plained(data)
        except Refused as refused:
            is_plain = str(refused).startswith("TooLong")
            return (1, "", "fitrec: %s\n" % refused if is_plain else "fitrec: %d.fit: %s\n%s" % (place, refused, TORN)), None
    order = put(datas, as_given)
    parts = [stated(datas[at]) for at in order]
    refused = None if as_given else misfit(parts)
    if refused:
        return (1, "", "fitrec: %d.fit: %s\n%s" % (order[refused[0]], refused[1], WHY[refused[1]])), None
    found = joined(parts)
    if found and found[0][0] == FILE_ID and value_of(found[0][1], 0, ENUM) != 4:
        return (1, "", "fitrec: NotActivity\n"), None
    heard_ride = heard(found)[0]
    if heard_ride is None or not heard_ride.samples:
        return (1, "", "fitrec: NoSample\n"), None
    shown = [text for text, _ in opening(found, heard_ride)] + list(texts(found)) + [text for text, _ in closing(found, heard_ride)]
    return (0, "messages %d\n" % len(found), ""), shown


def shown_of(data):
    return [line.partition(" ")[2] for line in show(data).splitlines()[1:-1]]


def judge(fitrec, folder, case, datas, as_given=False):
    """How a join ends, and how it differs from the second reader. The new file is its own plain form, is an activity, and lacks nothing."""
    place = pathlib.Path(folder, str(case))
    place.mkdir()
    names = []
    for at, data in enumerate(datas):
        (place / ("%d.fit" % at)).write_bytes(data)
        names.append("%d.fit" % at)
    said, wanted = said_of(datas, as_given)
    came, out = run(fitrec, "join", *["--as-given"] * as_given, "out.fit", *names, cwd=place), place / "out.fit"
    made = bytes_of(out)
    found, expected = [came, made and shown_of(made)], [said, wanted]
    if made is not None and wanted is not None:
        found += [plained(made)[1] == made, made[:4], run(fitrec, "check", out)[0]]
        expected += [True, datas[put(datas, as_given)[0]][:4], 0]
        run(fitrec, "salvage", "--finish", out, place / "again.fit")
        found.append(bytes_of(place / "again.fit") == made)
        expected.append(True)
    return "joined" if wanted is not None else said[2].split("\n")[0].split(" ")[-1], differs(found, expected, datas)


def of_other_makers(given):
    """Made activities, of which some are no activities or have no sample, two to four at a time, mostly one after another, in any order."""
    pick = random.Random(given.seed)
    inputs = []
    for _ in range(given.files // 12):
        time, datas = START, []
        for _ in range(pick.choice([2, 2, 2, 3, 4])):
            maker = Maker(pick)
            maker.time = time
            datas.append(maker.activity())
            time = maker.time + pick.choice([0, 1, 600, 600, 600, -40])
        pick.shuffle(datas)
        inputs.append((datas, pick.random() < 0.3))
    with tempfile.TemporaryDirectory() as folder:
        yield from given.judged(lambda at, row: judge(given.fitrec, folder, at, *row), inputs)


def halves(data, *cuts):
    """A ride whose device stopped after so many messages: a file for each part. The odometer of a later part begins at 0."""
    row = numbers(data[:-2])[1]
    parts, under, out, count, begun, last = [], {}, b"", 0, 0, 0
    for it in found_in(row):
        own = row[it.start:it.end]
        if it.what is None:
            under[own[0] & 15] = own
            out += own
            continue
        if count in cuts:
            parts.append(out)
            begun, out = last, b"".join(under.values())
        (content, definition), at = it.what, 1
        order = "big" if definition[2] & 1 else "little"
        own = bytearray(content)
        for field, size, base in zip(*[iter(definition[6:6 + 3 * definition[5]])] * 3):
            if (field, size, base) == (5, 4, UINT32) and int.from_bytes(definition[3:5], order) == RECORD:
                value = int.from_bytes(own[at:at + 4], order)
                if value != INVALID:
                    last = value
                    own[at:at + 4] = max(value - begun, 0).to_bytes(4, order)
            at += size
        out += bytes(own)
        count += 1
    return [framed(it) for it in [*parts, out]]


def without_closing(data):
    """The messages of a ride without those that sum it up, and without the events of the timer and the sport, which a join adds."""
    return [(message, fields) for message, fields, _ in stated(data) if message not in (FILE_ID, SPORT, SESSION, LAP, EVENT, ACTIVITY)]


def judge_halves(fitrec, folder, case, data, *cuts):
    """A ride whose device stopped has each record at its time again, with its values and its distance, whatever the order of its parts."""
    parts = halves(data, *cuts)
    times = [first_time(stated(it)) for it in parts]
    turned = parts[::-1] if len(set(times)) == len(times) else parts
    name, difference = judge(fitrec, folder, case, turned)
    out = pathlib.Path(folder, str(case), "out.fit")
    if difference is None and name == "joined":
        difference = differs(without_closing(out.read_bytes()), without_closing(data), (data, cuts))
    return name, difference


def places(pick, data):
    """Where a ride is cut into two parts or three: after its first record, and before its last one."""
    records = [at for at, it in enumerate(stated(data)) if it[0] == RECORD]
    return sorted(pick.sample(range(records[0] + 1, records[-1] + 1), min(pick.choice([1, 1, 2]), records[-1] - records[0])))


def of_our_own(given):
    """Rides of our own, saved, cut at random."""
    pick = random.Random(given.seed)
    inputs = []
    with room() as (script, new):
        while len(inputs) < given.files // 30:
            folder = recorded(given.fitrec, script, new, ride(pick))
            saved = script.parent / "saved.fit"
            if run(given.fitrec, "save", folder, saved)[0] == 0:
                data = saved.read_bytes()
                if sum(it[0] == RECORD for it in stated(data)) > 2:
                    inputs.append((data, *places(pick, data)))
        joined_in = pathlib.Path(new())
        yield from given.judged(lambda at, row: judge_halves(given.fitrec, joined_in, at, *row), inputs)


def of_other_makers_files(given):
    """Rides of other makers, cut at random, whose distances rise."""
    found = rides()
    if isinstance(found, Skipped):
        yield "rides of other makers", found
        return
    pick, inputs = random.Random(given.seed), []
    for data in found.values():
        try:
            plain = plained(data)[1]
        except Refused:
            continue
        distances = [value_of(fields, 5, UINT32) for message, fields, _ in stated(plain) if message == RECORD]
        known = [it for it in distances if it is not None]
        if len(distances) > 2 and len(data) < 200000 and known == sorted(known):
            inputs += [(plain, *places(pick, plain)) for _ in range(max(1, given.files // 300))]
    with tempfile.TemporaryDirectory() as folder:
        yield from given.judged(lambda at, row: judge_halves(given.fitrec, folder, at, *row), inputs)


def laps(fitrec):
    """Where a part has a lap that the rider made, its own and those of the others stay: after a record, before a lap, or neither."""
    pick = random.Random(1)
    lap = {(254, UINT16): 7, (253, UINT32): START}

    def part(*kinds):
        maker = Maker(pick)
        for at, kind in enumerate(kinds):
            maker.message(kind, lap | {(253, UINT32): START + at} if kind == LAP else {(253, UINT32): START + at, (5, UINT32): 100 * at})
        return framed(maker.bytes)

    made = part(RECORD, LAP, RECORD), part(RECORD, LAP, LAP), part(LAP, RECORD)
    summed_up = part(RECORD, RECORD, LAP), part(RECORD)
    with tempfile.TemporaryDirectory() as folder:
        for at, datas in enumerate([(it, other) for it in made + summed_up for other in made + summed_up]):
            yield "laps", judge(fitrec, folder, at, datas, True)[1]


def compared(fitrec):
    """Parts whose sports and times are the same, others, or none, in each order, with the option and without. Times are those of records, of
    events and of laps."""
    pick = random.Random(1)

    def part(sport, kind, *times):
        maker = Maker(pick)
        if sport is not None:
            sub_sport = pick.choice([0, 3, 255])
            places = [(SPORT, 0, 1), (SESSION, 5, 6), (LAP, 25, 39)]
            maker.message(*[(message, {(one, ENUM): sport, (other, ENUM): sub_sport}) for message, one, other in places][pick.randrange(3)])
        maker.message(RECORD, {(3, 2): 100})
        for time in times:
            maker.message(kind, {(253, UINT32): START + time})
        return framed(maker.bytes)

    rows = [("apart", (0, 9), (10, 19)), ("at one time", (0, 9), (9, 19)), ("a second less", (0, 9), (8, 19)), ("within", (0, 90), (8, 19)),
            ("begun together", (5, 9), (5, 19)), ("no time", (), (8, 19)), ("no times", (), ()), ("back to the start", (5, 0), (3, 9))]
    with tempfile.TemporaryDirectory() as folder:
        for at, (name, one, other) in enumerate(rows):
            for kind in (RECORD, EVENT, LAP):
                for sports in ((None, None), (2, 2), (1, 2), (0, 2), (None, 2), (255, 2)):
                    datas = [part(sports[0], kind, *one), part(sports[1], kind, *other)]
                    for turned, as_given in ((False, False), (True, False), (False, True), (True, True)):
                        case = "%d %d %s %d %d" % (at, kind, sports, turned, as_given)
                        yield "compared: " + name, judge(fitrec, folder, case, datas[::-1] if turned else datas, as_given)[1]
        three = [part(None, RECORD, 0, 50), part(2, RECORD, 60, 70), part(1, RECORD, 80, 90)], [part(1, RECORD, 0, 90), part(1, RECORD, 10, 20), part(1, RECORD, 30, 40)]
        for at, datas in enumerate(three):
            yield "compared: three", judge(fitrec, folder, "three %d" % at, datas)[1]


def developed(time, *makers, big=0):
    """A part with records of these makers of developer data: for each its index, application_id, developer_id, and the name of its field."""
    order, records = "big" if big else "little", b""

    def definition(local, message, fields, developer=()):
        parts = [fields, developer] if developer else [fields]
        start = bytes([0x60 | local if developer else 0x40 | local, 0, big]) + message.to_bytes(2, order)
        return start + b"".join(bytes([len(part)]) + b"".join(map(bytes, part)) for part in parts)

    for index, application, developer, name in makers:
        records += definition(1, DEVELOPER, [(1, len(application), 13), (0, len(developer), 13), (3, 1, 2)])
        records += b"\1" + application + developer + bytes([index])
        records += definition(2, DESCRIPTION, [(0, 1, 2), (1, 1, 2), (2, 1, 2), (3, len(name), 7)]) + bytes([2, index, 9, 2]) + name
    for at, (index, *_) in enumerate(makers):
        records += definition(0, RECORD, [(253, 4, UINT32)], [(9, 1, index)]) + b"\0" + (time + at).to_bytes(4, order) + bytes([at])
    return framed(records)


def names_in(data):
    """The name that each developer field of a record has, by the last description before it."""
    found = messages(data, False, lambda *it: [it])[3]
    return [it and it.name for (message, *_), own in zip(found, descriptions(found)) if message == RECORD for it in own]


def makers(fitrec):
    """Parts whose developer data has one maker or several, at the same indices or others: each record has the field of its own maker again,
    and each maker the indices that are wanted, one after another."""
    def maker(index, letter, developer=b""):
        return index, letter * 16, developer, b"of " + letter + developer[:1] + b"\0"

    a, b, c, own, many = b"A", b"B", b"C", bytes(range(16)), [maker(it, bytes([it])) for it in range(255)]
    rows = [("two makers", [[maker(0, a)], [maker(0, b)]], [0, 1]),
            ("one maker", [[maker(0, a)], [maker(0, a)]], [0, 0]),
            ("a free index", [[maker(0, a)], [maker(3, b)]], [0, 3]),
            ("one maker at another index", [[maker(5, a)], [maker(3, a)]], [5, 3]),
            ("a maker again", [[maker(0, a)], [maker(0, b)], [maker(0, a)]], [0, 1, 0]),
            ("both again", [[maker(0, a)], [maker(0, b)], [maker(1, b), maker(0, a)], [maker(0, b)]], [0, 1, 1, 0, 1]),
            ("two in a part", [[maker(0, a), maker(1, b)], [maker(0, b), maker(1, a)], [maker(1, c), maker(0, b)]], [0, 1, 1, 0, 2, 1]),
            ("the one before is taken", [[maker(0, a)], [maker(0, b), maker(1, c)]], [0, 1, 2]),
            ("another developer", [[maker(7, a, own)], [maker(7, a, own[::-1])], [maker(7, a)], [maker(7, a, own)]], [7, 0, 1, 7]),
            ("the last index", [[maker(254, a)], [maker(254, b)]], [254, 0]),
            ("no maker", [[(0, b"", b"", b"one\0")], [(0, b"", b"", b"one\0")], [maker(0, a)]], [0, 0, 1]),
            ("no index is left", [many, [maker(9, a), maker(8, bytes([77]))]], [*range(255), 65, 77]),
            ("none at all", [many, [(9, b"other", b"", b"of 9\0")]], [*range(255), 9])]
    with tempfile.TemporaryDirectory() as folder:
        for name, parts, wanted in rows:
            datas = [developed(START + 1000 * at, *its, big=at % 2) for at, its in enumerate(parts)]
            difference = judge(fitrec, folder, name, datas)[1]
            out = bytes_of(pathlib.Path(folder, name, "out.fit"))
            if difference is None:
                came = [index for _, _, developer in stated(out) for index, *_ in developer], names_in(out)
                difference = differs(came, (wanted, [it for data in datas for it in names_in(data)]), datas)
            yield "makers: " + name, difference


def part(time, *distances):
    """A part with records of these distances, one a second."""
    record = bytes([0x40, 0, 0, 20, 0, 2, 253, 4, 0x86, 5, 4, 0x86])
    return framed(record + b"".join(b"\0" + (time + at).to_bytes(4, "little") + it.to_bytes(4, "little") for at, it in enumerate(distances)))


def odometers(fitrec):
    """The distances of a later part go on from those before it if its odometer began at 0, and stay as they are if it went on."""
    rows = [("began at 0", [[0, 20000], [0, 300]], [0, 20000, 20000, 20300]), ("went on", [[0, 20000], [20000, 20500]], [0, 20000, 20000, 20500]),
            ("1 km further", [[0, 20000], [120000, 120007]], [0, 20000, 120000, 120007]), ("further", [[0, 20000], [120001]], [0, 20000, 140001]),
            ("a centimetre less", [[0, 20000], [19999]], [0, 20000, 39999]), ("after 100 m", [[0, 10000], [10000]], [0, 10000, 10000]),
            ("after less", [[0, 9999], [9999]], [0, 9999, 19998]), ("no first distance", [[0, 20000], [INVALID, 20100]], [0, 20000, INVALID, 20100]),
            ("a part without one", [[0, 20000], [INVALID], [20100, 20200]], [0, 20000, INVALID, 20100, 20200]),
            ("went on and began at 0", [[0, 20000], [20000, 30000], [0, 50], [30050]], [0, 20000, 20000, 30000, 30000, 30050, 30050])]
    with tempfile.TemporaryDirectory() as folder:
        for name, parts, wanted in rows:
            difference = judge(fitrec, folder, name, [part(START + 100 * at, *its) for at, its in enumerate(parts)])[1]
            if difference is None:
                out = stated(pathlib.Path(folder, name, "out.fit").read_bytes())
                came = [number(its[5][2], its[5][1]) for its in (dict(fields) for message, fields, _ in out if message == RECORD)]
                difference = differs(came, wanted)
            yield "odometers: " + name, difference


def limits(fitrec):
    """Compressed times, distances as long as four bytes allow, a part that is not there, many parts, and OUT as one of the parts."""
    with tempfile.TemporaryDirectory() as folder:
        for name, datas in (("compressed times", [compressed_ride(100), compressed_ride(40)]),
                            ("the longest distance", [part(START, INVALID - 1), part(START + 9, 0, 1, INVALID - 1, INVALID)]),
                            ("up to it", [part(START, INVALID - 5), part(START + 9, 3, 4, 5), part(START + 20, 0, 7)]),
                            ("no distance", [part(START, INVALID), part(START + 9, 5), part(START + 20, 7)]),
                            ("no message", [part(START, 5), framed(b""), part(START + 9, 6)]),
                            ("twenty parts", [part(START + 9 * at, 0, 10) for at in range(20)])):
            # Both rides with compressed times begin at one time.
            yield name, judge(fitrec, folder, name, datas, name == "compressed times")[1]
    with tempfile.TemporaryDirectory() as folder:
        place = pathlib.Path(folder)
        datas = [part(START, 0, 5), part(START + 9, 0, 6)]
        for at, data in enumerate(datas):
            (place / ("%d.fit" % at)).write_bytes(data)
        said, wanted = said_of(datas)
        yield "OUT is a part", differs((run(fitrec, "join", "1.fit", "0.fit", "1.fit", cwd=place), shown_of((place / "1.fit").read_bytes())), (said, wanted))
        said = run(fitrec, "join", "1.fit", "0.fit", "none.fit", cwd=place)
        yield "no such part", differs((said, sorted(it.name for it in place.iterdir())), ((1, "", "fitrec: cannot open none.fit\n"), ["0.fit", "1.fit"]))


def by_gpsbabel(fitrec):
    """gpsbabel reads each point of both parts, at its time."""
    if missing("gpsbabel"):
        yield "read by gpsbabel", missing("gpsbabel")
        return
    with room() as (script, new):
        place, points = pathlib.Path(new()), []
        for name, start in ("a", START), ("b", START + 1000):
            samples = [sample(at, start + 1 + at) for at in range(100)]
            points += samples
            folder = recorded(fitrec, script, new, ["start %d 7 cycling" % start, *(it.line() for it in samples)])
            run(fitrec, "save", folder, place / (name + ".fit"))
        run(fitrec, "join", place / "out.fit", place / "a.fit", place / "b.fit")
        read = [(second, round(lat, 5), round(long, 5), rate) for second, lat, long, rate in read_by_gpsbabel(place / "out.fit")]
        wanted = [(it.second, round(it.lat, 5), round(it.long, 5), it.rate) for it in points]
        yield "read by gpsbabel", differs(read, wanted)


def check(given):
    yield from given.checks(of_other_makers, given)
    yield from given.checks(of_our_own, given)
    yield from given.checks(of_other_makers_files, given)
    for group in (laps, compared, makers, odometers, limits, by_gpsbabel):
        yield from given.checks(group, given.fitrec)
