"""Compares `fitrec salvage --finish` with a second reader of its description (tools/finished.py). The files are made as other makers make
them, whole and damaged, or rides of our own that are cut off, which have the totals of a repair of the same ride, or rides of other makers
in Debian's source of goldencheetah, which have the totals that their maker stated."""

import pathlib
import random
import re

from tools.checks import Skipped, differs, unless
from tools.finished import effort, finished, text
from tools.fit_files import damaged, framed
from tools.other_makers import rides
from tools.program import bytes_of, room, run
from tools.reader import BASE_TYPES, Refused, item_size, salvaged, show, wanted_salvage

NEEDS = ("fitrec",)

START = 1000000000


def wanted_finish(data, everything=False, plain=False):
    """What the program has to say of a salvage with --finish, and the text of its file."""
    (status, line, fault), file = wanted_salvage(data, everything)
    if status:
        return (status, line, fault), None
    try:
        text, heard = finished(file)
    except Refused as refused:
        return (1, "", refused.lines), None
    return (0, line + heard, fault), text


class Maker:
    """Makes activities as another maker's device may: in either byte order, with fields in any order and others beside them."""

    def __init__(self, pick):
        self.pick, self.bytes, self.time, self.distance, self.altitude = pick, b"", START, 0, 2600
        self.layouts = {}

    def define(self, message, fields):
        """A definition of a message with these fields, in a new local number or the last one."""
        local, big = self.pick.randrange(16), self.pick.randrange(2)
        rows = b"".join(bytes([field, BASE_TYPES[base][1], base]) for field, base in fields)
        self.bytes += bytes([0x40 | local, 0, big]) + message.to_bytes(2, "big" if big else "little") + bytes([len(fields)]) + rows
        self.layouts = {key: it for key, it in self.layouts.items() if it[0] != local}
        self.layouts[message] = local, "big" if big else "little", fields

    def message(self, message, values):
        """A message with these values by (number, base type); a value that is None is invalid."""
        fields = list(values)
        if message not in self.layouts or set(self.layouts[message][2]) != set(fields) or self.pick.random() < 0.01:
            self.pick.shuffle(fields)
            self.define(message, fields)
        local, order, fields = self.layouts[message]
        self.bytes += bytes([local])
        for row in fields:
            name, size, invalid = BASE_TYPES[row[1]]
            value = invalid if values[row] is None else values[row] % (1 << 8 * size)
            self.bytes += value.to_bytes(size, order)

    def move(self):
        """The time goes on, or now and then not, or back, or is missing."""
        self.time += self.pick.choice([1] * 60 + [0, 5, 30, -3, 100000])
        return self.pick.choice([self.time] * 300 + [None, 5, self.time + 5000000])

    def record(self, kinds):
        self.distance += self.pick.choice([300, 500, 0, -20 if self.pick.random() < 0.02 else 700])
        self.altitude = max(self.altitude + self.pick.choice([0, 1, 3, 9, 10, 11, -1, -2, -9, -10, -40, 60000 if self.pick.random() < 0.01 else 5]), 0)
        cadence, altitude = self.pick.choice([0, 0, 1, 60, 90, 254]), self.altitude
        value = {(3, 2): self.pick.randrange(90, 190), (5, 0x86): max(self.distance, 0), (7, 0x84): self.pick.randrange(600),
                 (73, 0x86): self.pick.choice([3000, 8000, 70000]), (6, 0x84): self.pick.randrange(65535), (4, 2): cadence,
                 (0, 0x85): self.pick.randrange(-2**30, 2**30), (1, 0x85): self.pick.randrange(-2**30, 2**30), (78, 0x86): altitude,
                 (13, 1): self.pick.randrange(-9, 30), (39, 0x84): 77, (3, 0x84): 100, (2, 0x84): altitude % 65535}
        values = {row: None if self.pick.random() < 0.03 else value[row] for row in kinds}
        self.message(20, {(253, 0x86): self.move()} | values)

    def activity(self):
        """An activity with some of its closing messages, or without."""
        pick = self.pick
        if pick.random() < 0.97:
            self.message(0, {(0, 0): pick.choice([4] * 30 + [6]), (1, 0x84): 1, (4, 0x86): START})
        if pick.random() < 0.5:
            self.message(12, {(0, 0): pick.choice([0, 1, 2, 5, None]), (1, 0): pick.choice([0, 3, 17, None])})
        rows = [(3, 2), (5, 0x86), (7, 0x84), (73, 0x86), (6, 0x84), (13, 1), (0, 0x85), (1, 0x85), (78, 0x86), (39, 0x84), (3, 0x84),
                (2, 0x84), (4, 2)]
        kinds = pick.sample(rows, pick.randrange(len(rows) + 1))
        lap = {(254, 0x84): 0, (253, 0x86): 0, (2, 0x86): START}
        if pick.random() < 0.3:
            lap[25, 0], lap[39, 0] = pick.choice([0, 1, 2, 5, None]), pick.choice([0, 3, 17, None])
        for _ in range(pick.choice([0, 1, 3, 40, 200])):
            draw = pick.random()
            if draw < 0.86:
                self.record(kinds)
            elif draw < 0.92:
                kind = pick.choice([0, 0, 1, 4, 4, 8, 9, 3, None])
                self.message(21, {(0, 0): pick.choice([0, 0, 0, 9, None]), (1, 0): kind, (253, 0x86): self.move()})
            elif draw < 0.97:
                self.message(19, lap | {(253, 0x86): self.move()})
            else:
                self.message(23, {(253, 0x86): self.time, (0, 2): 1})
        for message, chance in ((19, 0.4), (18, 0.3), (18, 0.1), (18, 0.1), (34, 0.3)):
            if pick.random() < chance:
                sport = {(5, 0): pick.choice([1, 2, 11]), (6, 0): pick.choice([0, 1, 2, None])} if message == 18 else {}
                self.message(message, {(253, 0x86): self.time} | sport)
        return framed(self.bytes)


def judge(fitrec, folder, number, data, everything):
    """How a salvage with --finish ends, and how it differs from the second reader."""
    source, out, plain = (folder / ("%d.%s" % (number, name)) for name in ("in", "out", "plain"))
    source.write_bytes(data)
    words = ["salvage", "--finish", *["--all"] * everything]
    said, text = wanted_finish(data, everything)
    came, made = run(fitrec, *words, source, out), bytes_of(out)
    found, wanted = [came, made and show(made)], [said, text]
    if made is not None and not said[0]:
        # The file is an activity, a salvage of it has nothing to add, and a plain one states the same.
        found += [run(fitrec, "check", out)[0], run(fitrec, *words, "--plain", source, plain)[0]]
        found += [run(fitrec, "salvage", "--finish", out, source)[0], show(plain.read_bytes()).splitlines()[1:], source.read_bytes()]
        wanted += [0, 0, 0, text.splitlines()[1:], made]
    for path in (source, out, plain):
        path.unlink(missing_ok=True)
    return said[2].strip().rpartition("fitrec: ")[2].partition(" ")[0] or "finished", differs(found, wanted, data)


def of_other_makers(given):
    """Made activities, whole, cut off, and damaged."""
    pick = random.Random(given.seed)
    inputs = []
    for _ in range(given.files // 6):
        data = Maker(pick).activity()
        inputs += [(data, False), (data + bytes(9), False), (data[:pick.randrange(14, len(data) + 1)], pick.random() < 0.5)]
        inputs.append((damaged(pick, data) or data, pick.random() < 0.5))
    with room() as (place, _):
        yield from given.judged(lambda number, row: judge(given.fitrec, place.parent, number, *row), inputs)


def ride(pick):
    """The lines of a ride of our own."""
    altitude = 2600
    lines, time, distance, running = ["start %d 7 %s" % (START, pick.choice(["running", "cycling", "generic"]))], START, 0, True
    for _ in range(pick.randrange(1, 120)):
        time += pick.choice([0, 1, 1, 1, 1, 7, 46])
        draw = pick.random()
        if draw < 0.05:
            lines.append("lap %d" % time)
        elif draw < 0.1:
            lines.append("%s %d" % ("pause" if running else "resume", time))
            running = not running
        elif running:
            distance += pick.randrange(900)
            values = ["dist=%d" % distance, "hr=%d" % pick.randrange(90, 190), "power=%d" % pick.randrange(500)]
            altitude = max(altitude + pick.choice([0, 1, 4, 9, 10, 11, -1, -4, -9, -10, -30]), 0)
            values += ["espeed=%d" % pick.randrange(20000), "cad=%d" % pick.choice([0, 0, 75, 90]), "alt=%d" % altitude, "ealt=%d" % (altitude + pick.choice([0, 7]))]
            lines.append(" ".join(["sample %d" % time, *pick.sample(values, pick.randrange(7))]))
    return lines


# The fields of a script that an added session is about.
KEYS = {"cad": "cadence", "alt": "altitude", "ealt": "enhanced_altitude"}


def with_effort(session, lines):
    """The session of a repair of a ride of these lines, with what an added one has after it."""
    samples = []
    for line in lines:
        kind, *words = line.split(" ")
        if kind == "sample":
            its = dict(word.split("=") for word in words[1:])
            samples.append({name: int(its[key]) if key in its else None for key, name in KEYS.items()})
    return text(session, effort(samples))


def summaries(file):
    """The laps, sessions and activity messages of a file."""
    return [line.partition(" ")[2] for line in show(file).splitlines() if line.split(" ")[1] in ("lap", "session", "activity")]


def recorded(fitrec, script, new, lines):
    """The folder of a ride of these lines."""
    script.write_text("".join(line + "\n" for line in (*lines, "commit")))
    folder = pathlib.Path(new())
    run(fitrec, "replay", script, folder)
    return folder


def repaired(fitrec, script, new, lines):
    """The laps, the session and the activity message after a repair of that ride."""
    folder = recorded(fitrec, script, new, lines)
    run(fitrec, "repair", folder)
    return summaries((folder / "activity.fit").read_bytes())


def judge_ride(fitrec, number, lines, cut):
    """A ride that is cut off has the totals that a repair of what is left gives, and in its session cadence and ascent too."""
    with room() as (script, new):
        body = (recorded(fitrec, script, new, lines) / "activity.fit").read_bytes()
        place = pathlib.Path(new())
        (place / "in").write_bytes(body[:len(body) - cut])
        said = run(fitrec, "salvage", "--finish", place / "in", place / "out")
        # A cut takes the last entry.
        kept = lines[:-1] if cut else lines
        if not any(line.startswith("sample") for line in kept):
            return "without a sample", differs(said, (1, "", "fitrec: NoSample\n"))
        wanted = repaired(fitrec, script, new, kept)
        if kept[-1].startswith("lap"):
            # A recorder adds a lap after the last one. The ride ends with the entry before it.
            wanted = wanted[:-3] + repaired(fitrec, script, new, kept[:-1])[-2:]
        laps = [line for line in kept if line.startswith("lap")]
        if laps and kept[-1] == laps[-1].replace("lap", "pause"):
            # A recorder adds a lap of 0 seconds where the timer stops at the time of the last one.
            fewer = re.sub(r"(?<=num_laps=)\d+", lambda it: str(int(it[0]) - 1), wanted[-2])
            wanted = [*wanted[:-3], fewer, wanted[-1]]
        wanted[-2] = with_effort(wanted[-2], kept)
        return "as repaired", differs((said[0], said[2], summaries((place / "out").read_bytes())), (0, "", wanted), lines)


def of_our_own(given):
    """Our own rides, cut off after each of many entries, and in the one after that."""
    pick = random.Random(given.seed)
    inputs = []
    for _ in range(given.files // 12):
        lines = ride(pick)
        inputs.append((lines[:pick.randrange(1, len(lines) + 1)], pick.choice([0, 0, 1])))
    yield from given.judged(lambda number, row: judge_ride(given.fitrec, number, *row), [it for it in inputs if len(it[0]) > 1])


def shown(file, names):
    """The lines of these messages of a file, without their numbers."""
    return [line.partition(" ")[2] for line in show(file).splitlines() if line.split(" ")[1] in names]


def zeros(given):
    """Zeros after a recording, which a salvage reads as samples, are not heard: each is counted, and the summary is that without them."""
    pick = random.Random(given.seed)
    for number in range(max(2, given.files // 300)):
        lines = [it for it in ride(pick) if number % 2 or it[:3] != "lap"]
        with room() as (script, new):
            body = (recorded(given.fitrec, script, new, [*lines, "resume %d" % (START + 9000), "sample %d hr=99" % (START + 9001)]) / "activity.fit").read_bytes()
            made = []
            for name, data in ("whole", body), ("zeros", body + bytes(4096)):
                (pathlib.Path(script.parent) / name).write_bytes(data)
                out = pathlib.Path(script.parent) / (name + ".fit")
                said = run(given.fitrec, "salvage", "--finish", pathlib.Path(script.parent) / name, out)
                counts = re.findall(r"heard (\d+) entries, (\d+) left out", said[1])
                file = bytes_of(out)
                made.append((said[0], *map(int, counts[0] if counts else (0, 0)), file and shown(file, ("record",)), file and shown(file, ("lap", "session", "activity"))))
            whole, more = made
            added = len(more[3] or ()) - len(whole[3] or ())
            yield "zeros after a recording", differs((more[:2], more[2] - whole[2], more[4]), (whole[:2], added, whole[4]), lines)
            yield "so many zeros", unless(added > 100, added, "more than 100")


def begun(pick, *fields):
    """The beginning of a file with a file_id, if it has these fields, and records of 99 seconds."""
    maker = Maker(pick)
    if fields:
        maker.message(0, dict(fields))
    for second in range(1, 100):
        maker.message(20, {(253, 0x86): START + second, (3, 2): 99})
    return maker


def finished_file(given, maker):
    """What the program says of the file that was made, and the file that it finishes it as."""
    with room() as (script, _):
        source, out = script.parent / "in.fit", script.parent / "out.fit"
        source.write_bytes(framed(maker.bytes))
        said = run(given.fitrec, "salvage", "--finish", source, out)
        return said, bytes_of(out), run(given.fitrec, "check", out)[0]


def laps_afterwards(given):
    """Where the laps stand after the records, an added session has the number of all laps: those whose time falls, which are left out, and
    the one after the last entry too. One is added only where an entry follows the last lap, and none was left out."""
    pick = random.Random(given.seed)
    for laps in 1, 2, 7:
        for is_followed in False, True:
            maker = begun(pick, ((0, 0), 4), ((1, 0x84), 1), ((4, 0x86), START))
            for lap in range(1, laps + 1):
                maker.message(19, {(253, 0x86): START + 99 * lap // laps, (2, 0x86): START, (254, 0x84): lap - 1})
            if is_followed:
                # Behind a message that no profile names.
                maker.message(0xFF00, {(0, 2): 1})
                maker.message(20, {(253, 0x86): START + 120, (3, 2): 99})
            said, file, judged = finished_file(given, maker)
            lines, wanted = file and shown(file, ("lap", "session")), laps + (laps == 1 and is_followed)
            found = said[0], judged, lines and len(lines) - 1, lines and re.findall(r"num_laps=(\d+)", lines[-1])
            yield "laps after the records", differs(found, (0, 0, wanted, [str(wanted)]), lines)


def lost_file_ids(given):
    """A file that does not begin with a file_id gets one, and a line says so. One of another type, or without a record, is refused."""
    pick = random.Random(given.seed)
    own = {"type": "4", "manufacturer": "1", "time_created": str(START)}
    added = {"type": "4", "manufacturer": "255", "product": "1", "time_created": str(START + 1)}
    activity, course = ((((0, 0), kind), ((1, 0x84), 1), ((4, 0x86), START)) for kind in (4, 6))
    for name, maker, wanted, line in ("a file_id", begun(pick, *activity), own, ""), ("no file_id", begun(pick), added, ", file_id added"):
        said, file, judged = finished_file(given, maker)
        lines = file and show(file).splitlines()[1:]
        first = lines and dict(it.partition("=")[::2] for it in lines[0].split(" ")[2:])
        found = said[0], said[1].splitlines()[-1:], judged, lines and lines[0].split(" ")[1], first and {it: first.get(it) for it in wanted}
        yield name, differs(found, (0, ["heard 99 entries, 0 left out" + line], 0, "file_id", wanted), lines)
        yield name + ", alone", differs(len(lines and shown(file, ("file_id",)) or ()), 1, lines)
    unknown = Maker(pick)
    for _ in range(9):
        unknown.message(0xFF00, {(0, 2): 1})
    for name, maker, fault in ("a course", begun(pick, *course), "NotActivity"), ("messages that no profile names", unknown, "NoSample"):
        said, file, _ = finished_file(given, maker)
        yield name, differs((said, file), ((1, "", "fitrec: %s\n" % fault), None))


def after_last_record(data):
    """The readable part of a file up to its last record, as bytes that are cut off."""
    row = salvaged(data)[3]
    at, end, last, sizes, kinds = 14, len(row) - 2, 14, {}, {}
    while at < end:
        size, first = item_size(row[at:end], sizes), row[at]
        if first & 0xC0 == 0x40:
            kinds[first & 15] = int.from_bytes(row[at + 3:at + 5], "big" if row[at + 2] & 1 else "little")
        elif kinds[first >> 5 & 3 if first & 0x80 else first & 15] == 20:
            last = at + size
        at += size
    return row[:last]


def totals(text):
    """The distance in cm and the time of the timer in ms of a file's only session. None if it has another number, or no distance."""
    lines = [line.split(" ") for line in text.splitlines()]
    sessions = [dict(word.partition("=")[::2] for word in words[2:]) for words in lines if words[1:2] == ["session"]]
    if len(sessions) != 1 or not sessions[0].get("total_distance", "-").isdigit():
        return None
    return tuple(int(sessions[0][name]) for name in ("total_distance", "total_timer_time"))


def as_stated(fitrec, place, row, stated):
    """A ride that was cut off after its last record has the distance that its maker stated, to a metre, and the timer's time, to 2 s."""
    (place / "in.fit").write_bytes(row)
    said = run(fitrec, "salvage", "--finish", "--all", place / "in.fit", place / "out.fit")
    came = totals(show((place / "out.fit").read_bytes())) if said[0] == 0 else None
    is_right = came is not None and abs(came[0] - stated[0]) <= 100 and abs(came[1] - stated[1]) <= 2000
    return unless(is_right, (said, came), "about %s" % (stated,))


def of_other_makers_files(given):
    """Rides of other makers, whole, cut off at many places, and after their last record."""
    found = rides()
    if isinstance(found, Skipped):
        yield "rides of other makers", found
        return
    found = {name: data for name, data in found.items() if len(data) < 200000}
    pick = random.Random(given.seed)
    inputs = []
    for data in found.values():
        small = data[:100000]
        inputs += [(small, True)] + [(small[:pick.randrange(14, len(small))], True) for _ in range(max(1, given.files // 300))]
    with room() as (script, new):
        yield from given.judged(lambda number, row: judge(given.fitrec, script.parent, number, *row), inputs)
        for name, data in found.items():
            stated, row = totals(show(salvaged(data)[3])), after_last_record(data)
            # Some have several sessions, or no sample.
            if stated is not None and wanted_finish(row, True)[1] is not None:
                yield "as its maker stated: " + name, as_stated(given.fitrec, pathlib.Path(new()), row, stated)


def check(given):
    yield from given.checks(of_other_makers, given)
    yield from given.checks(of_our_own, given)
    yield from given.checks(zeros, given)
    yield from given.checks(laps_afterwards, given)
    yield from given.checks(lost_file_ids, given)
    yield from given.checks(of_other_makers_files, given)
