#!/usr/bin/env -S python3 -B
"""`fitrec salvage --skip` over rides with a hole: how many of the records outside are kept, and how many are made up. The rides are our own
and those of other makers in Debian's source of goldencheetah. Chained files are split, and the files in the image of a card are found.

    compare/mending.py SEED..

prints the rows of the table in docs/PROGRAMS.md for these seeds, with those of gpsbabel's recovery mode."""

import collections
import functools
import itertools
import os
import pathlib
import random
import re
import sys
import tempfile
import time
from typing import NamedTuple

from tools.checks import Skipped, differs, unless
from tools.finished import finished
from tools.fit_files import framed, image, short
from tools.holes import CLUSTERS, CONTENTS, KINDS, SIZES, TAIL, global_number, hole, items, messages, numbers, older, other_cluster, touches
from tools.other_makers import rides
from tools.program import FITREC, as_nobody, bytes_of, for_everyone, run
from tools.reader import Refused, checksum, show
from tools.rides import recording

NEEDS = ("fitrec",)

# Of the records outside a hole of so many bytes, how many are kept at least, and of those that are kept, how many may be made up.
KEPT = {1: 0.99, 16: 0.99, 512: 0.99, 4096: 0.97}
MADE_UP = 1 / 1000
# In how many bytes of a record a hole begins, and in how many one ends; and how many false records a hole of a kind may leave there.
ALIGNMENTS = 8
LEFT = {"zeros": 0, "FF": 0, "noise": 0.2, "older content": 0.2}
# Beside a cluster that has another content, or before the end of an older ride.
KEPT_BESIDE = 0.99
# Of the parts with another ride, how many say so at least.
TOLD = 0.3
# How many may be of bytes of other moments, in a ride of heart rates alone: nearly all that stand in a hole of 512 bytes.
MADE_UP_WITHOUT = 72 / 1000
# One ride of another maker has so many records whose times are two years later, and one before them.
STRANGE = 15
# Two rides of one device each, whose definitions have the same local numbers; and how many of the intact records come back at least where one
# has lost its definitions and the other lends them.
OF_ONE_DEVICE = (("2012_01_11_11_51_01.fit", "2013-04-11-17-32-50.fit"), ("20130716_202738.fit", "20130717_143733.fit"),
                 ("GarminSwimExample.fit", "2016-05-23_18-14-30_4_25.fit"))
BROUGHT_BACK = 0.95


class Damaged(NamedTuple):
    """A ride with holes: its file, the records that it had, those outside the holes, and whether a hole touches a definition."""

    data: bytes
    holes: int
    whole: collections.Counter
    outside: collections.Counter
    is_undefined: bool


def mended(fitrec, data, *words, like=None):
    """What salvage --skip prints of these bytes, and the file that it makes, with the definitions of another file if one is given."""
    with tempfile.TemporaryDirectory() as folder:
        source, out, other = (pathlib.Path(folder) / name for name in ("in.fit", "out.fit", "like.fit"))
        source.write_bytes(data)
        if like is not None:
            other.write_bytes(like)
            words = *words, "--like", other
        status, text, err = run(fitrec, "salvage", "--skip", *words, source, out)
        return (status, text.replace(str(other), "LIKE"), err.replace(str(other), "LIKE")), bytes_of(out)


def records(data):
    return [it for it in items(numbers(data)[1]) if it.what is not None]


def of_other_makers():
    """The rides of other makers, each with at least 300 records; or why there are none."""
    found = rides()
    if isinstance(found, Skipped):
        return found
    return [it for it in found.values() if len(it) < 400_000 and len(records(it)) >= 300]


def own_rides(fitrec):
    """Rides of an hour: one with heart rates and distances alone, and one with all fields. Each has a lap every 500 seconds."""
    rides, pick = [], random.Random(1)
    for is_full in False, True:
        lines, heart, distance, lat, long = ["start 1000000000 7 running"], 120, 0, 566012345, 102345678
        for second in range(1, 3600):
            heart = max(80, min(190, heart + pick.choice([-2, -1, 0, 0, 0, 1, 2])))
            distance, lat, long = distance + pick.randrange(250, 400), lat + pick.randrange(-300, 500), long + pick.randrange(-300, 500)
            line = "sample %d hr=%d dist=%d" % (1000000000 + second, heart, distance)
            if is_full:
                line += " lat=%d long=%d alt=%d cad=%d speed=%d power=%d temp=%d" % (
                    lat, long, 2655 + second // 40, pick.randrange(75, 90), pick.randrange(2500, 4000), pick.randrange(120, 320),
                    second // 900 - 3)
            lines.append(line)
            if second % 500 == 0:
                lines.append("lap %d" % (1000000000 + second))
        rides.append(recording(fitrec, *lines, "stop 1000003600")["activity.fit"])
    return rides


def damaged(pick, data, kind, size, holes):
    """A ride with so many holes of a kind."""
    head, row = numbers(data)
    there = list(items(row))
    old, places = older(row), [pick.randrange(200, len(row) - size - 20) for _ in range(holes)]
    for at in sorted(places, reverse=True):
        row = hole(pick, row, old, kind, size, at)
    touched = [it for it in there if any(touches(it, kind, size, at) for at in places)]
    whole = collections.Counter(it.what for it in there if it.what is not None)
    outside = whole - collections.Counter(it.what for it in touched if it.what is not None)
    return Damaged(head + row + bytes(2), holes, whole, outside, any(it.what is None for it in touched))


def counts(ride, kept):
    """How many records stand outside the holes, are kept of these, and are made up. The two at the ends of a hole may have other values."""
    made_up = max(0, sum((kept - ride.whole).values()) - 2 * ride.holes)
    return sum(ride.outside.values()), sum((kept & ride.outside).values()), made_up


def by_salvage(fitrec, ride):
    (status, out, err), file = mended(fitrec, ride.data, "--all")
    return counts(ride, collections.Counter(it.what for it in records(file))) if status == 0 else None


def damaged_rides(seed, rides, kind, size, rounds, holes=1):
    """Each ride with its places of holes, by a seed."""
    pick = random.Random("%d %s %d %d" % (seed, kind, size, holes))
    for data in rides:
        for _ in range(rounds):
            yield data, damaged(pick, data, kind, size, holes)


def judged(fitrec, seed, rides, kind, size, rounds, holes=1):
    """The sums over all rides of which no hole touches a definition."""
    found = [by_salvage(fitrec, ride) for data, ride in damaged_rides(seed, rides, kind, size, rounds, holes) if not ride.is_undefined]
    return None if None in found else [sum(each) for each in zip((0, 0, 0), *found)]


@functools.cache
def items_of(data):
    """The definitions and the records of a file, and how often each record is there."""
    there = list(items(numbers(data)[1]))
    return there, collections.Counter(it.what for it in there if it.what is not None)


def clustered(pick, rides, content, size):
    """A ride with a cluster of another content, or with the end of an older ride, of which no definition is lost in it."""
    while True:
        data = pick.choice(rides)
        made = other_cluster(pick, data, [it for it in rides if it is not data], content, size)
        if made is None:
            continue
        file, start, end = made
        front, (there, whole) = data[0], items_of(data)
        touched = [it for it in there if front + it.start < end and start < front + it.end]
        if content != TAIL and any(it.what is None for it in touched):
            continue
        outside = whole - collections.Counter(it.what for it in touched if it.what is not None)
        return Damaged(file + bytes(2), 1, whole, outside, False)


def clusters(given):
    """Content of another ride, or of another place of the same ride, is left out, and the rest is kept. A thousand rides of a kind are made
    with --files 60000."""
    found = of_other_makers()
    if isinstance(found, Skipped):
        yield "clusters", found
        return
    for content, size in [(content, size) for content in CONTENTS for size in CLUSTERS] + [(TAIL, 0)]:
        pick = random.Random("%d %s %d" % (given.seed, content, size))
        made = [by_salvage(given.fitrec, clustered(pick, found, content, size)) for _ in range(max(1, given.files // 60))]
        sums = [sum(each) for each in zip((0, 0, 0), *[it or (1, 0, 0) for it in made])]
        well = sums[1] >= KEPT_BESIDE * sums[0] and sums[2] <= MADE_UP * sums[1]
        wanted = "%.2f kept, %.3f made up" % (KEPT_BESIDE, MADE_UP)
        yield "%s, %d bytes" % (content, size), unless(well, described(sums), wanted)


def described(sums):
    stood, kept, made_up = sums
    return "%.4f of %d kept, %d made up" % (kept / stood if stood else 1, stood, made_up)


def over(given, rides, name):
    rounds = max(1, given.files // 3000) * max(1, 8 // len(rides))
    for kind, size, holes in [(kind, size, 1) for size in SIZES for kind in KINDS] + [("noise", 512, 2), ("FF", 16, 2)]:
        sums = judged(given.fitrec, given.seed, rides, kind, size, rounds, holes)
        well = sums is not None and sums[1] >= KEPT[size] * sums[0] and sums[2] <= MADE_UP * sums[1]
        wanted = "%.2f kept, %.3f made up" % (KEPT[size], MADE_UP)
        yield "%s, %d bytes %s, holes %d" % (name, size, kind, holes), unless(well, sums and described(sums), wanted)


def own(given):
    yield from over(given, own_rides(given.fitrec), "our rides")


def others(given):
    rides = of_other_makers()
    if isinstance(rides, Skipped):
        yield "rides of other makers", rides
    else:
        yield from over(given, rides, "other makers")


def elsewhere(row):
    """The row, with the latitude of its first record some 300 km away, and with 512 bytes of zeros in the middle; or None if it has none."""
    first, middle = next(it for it in items(row) if it.what is not None), len(row) // 2
    definition, at, out = first.what[1], first.start + 1, bytearray(row)
    for number, size, _ in zip(*[iter(definition[6:6 + 3 * definition[5]])] * 3):
        if number == 0:
            at += 0 if definition[2] & 1 else size - 1
            out[at] = out[at] + 2 & 0xFF
            return hole(None, bytes(out), None, "zeros", 512, middle), middle
        at += size
    return None


def from_elsewhere(given):
    """A ride whose first position is that of another place, as of the last fix before it, is kept, also where a hole follows."""
    found = of_other_makers()
    if isinstance(found, Skipped):
        yield "a first position from another place", found
        return
    for data in found:
        head, row = numbers(data)
        made = elsewhere(row)
        if made is None:
            continue
        stood = sum(not touches(it, "zeros", 512, made[1]) for it in records(data))
        file = mended(given.fitrec, head + made[0] + bytes(2), "--all")[1]
        kept = len(records(file)) if file else 0
        yield "a first position from another place", unless(kept >= KEPT[512] * stood - STRANGE, kept, stood)


def named_once(given):
    """Zeros in a file whose file_id has the local number 0 are read as others. None is kept."""
    found, pick = of_other_makers(), random.Random(given.seed)
    if isinstance(found, Skipped):
        yield "zeros are no file_id", found
        return
    for (head, row), size in [(numbers(data), size) for data in found for size in (512, 4096)]:
        at = pick.randrange(len(row) // 4, len(row) - size)
        file = mended(given.fitrec, head + hole(pick, row, None, "zeros", size, at) + bytes(2), "--all")[1]
        count = file and sum(it.what is not None and global_number(it) == 0 for it in messages(numbers(file)[1]))
        yield "zeros are no file_id", differs(count, 1, at)


def cut_by(pick, data, kind, size):
    """The ride with a hole that begins within a record, and with one that ends there, at some of its bytes."""
    head, row = numbers(data)
    there, old = list(items(row)), older(row)
    whole = collections.Counter(it.what for it in there if it.what is not None)
    one = pick.choice([it for it in there if it.what is not None and size + 200 < it.start < len(row) - size - 200])
    places = range(one.start, one.end)
    for at in [it - gone for gone in (0, size) for it in pick.sample(places, min(ALIGNMENTS, len(places)))]:
        touched = [it for it in there if touches(it, kind, size, at)]
        outside = whole - collections.Counter(it.what for it in touched if it.what is not None)
        if all(it.what is not None for it in touched):
            yield Damaged(head + hole(pick, row, old, kind, size, at) + bytes(2), 0, whole, outside, False)


def edges(given):
    """A record that a hole cuts is left out with it, wherever the hole begins or ends in it: no record has zeros for values, or FF."""
    found = of_other_makers()
    rides, pick = own_rides(given.fitrec) + ([] if isinstance(found, Skipped) else found), random.Random(given.seed)
    for kind, size in [(kind, size) for kind in LEFT for size in (512, 4096)]:
        cut = [it for data in rides for _ in range(max(1, given.files // 3000)) for it in cut_by(pick, data, kind, size)]
        sums = [sum(each) for each in zip((0, 0, 0), *[by_salvage(given.fitrec, it) or (1, 0, 0) for it in cut])]
        most = LEFT[kind] * len(cut)
        well = sums[1] >= KEPT[size] * sums[0] and sums[2] <= most
        yield "records cut by %d bytes of %s" % (size, kind), unless(well, described(sums), "%d made up" % most)


def without_distances(given):
    """Heart rates alone do not say of which moment they are, and compressed timestamps not of which minute: bytes of other moments fit in."""
    pick = random.Random(given.seed)
    lines = ["sample %d hr=%d" % (1000000000 + second, 120 + pick.randrange(-5, 6)) for second in range(1, 3600)]
    ride = recording(given.fitrec, "start 1000000000 7 running", *lines, "stop 1000003600")["activity.fit"]
    for kind in "older content", "doubled":
        stood, kept, made_up = sums = judged(given.fitrec, given.seed, [ride], kind, 512, 16)
        well = kept >= KEPT[512] * stood and made_up <= MADE_UP_WITHOUT * kept
        yield "%s without distances" % kind, unless(well, described(sums), "%.2f kept, %.3f made up" % (KEPT[512], MADE_UP_WITHOUT))


def whole(given):
    """Nothing is left out of an undamaged file, and little of one that is cut off, or whose checksum is wrong or header gives no size."""
    found = of_other_makers()
    rides = own_rides(given.fitrec) + ([] if isinstance(found, Skipped) else found)
    for number, data in enumerate(rides):
        row = numbers(data)[1]
        (status, out, err), file = mended(given.fitrec, data)
        wanted = 0, "kept %d of %d, parts 1\n" % (len(row), len(row)), row
        yield "an undamaged file", differs((status, out, file and numbers(file)[1]), wanted, number)
        full = len(records(data))
        for name, bad in ("a wrong checksum", data[:-1] + bytes([data[-1] ^ 0x5A])), ("no size", data[:4] + bytes(4) + data[8:]):
            file = mended(given.fitrec, bad)[1]
            kept = file and len(records(file))
            yield name, unless(kept in (full, full - STRANGE), kept, full)
        pick = random.Random("%d %d" % (given.seed, number))
        for _ in range(max(1, given.files // 1000)):
            end = pick.randrange(len(row) // 3, len(row))
            cut = data[:data[0] + end]
            before = sum(it.end <= end for it in records(data))
            file = mended(given.fitrec, cut)[1]
            kept = file and len(records(file))
            yield "a file that is cut off", unless(file is not None and kept >= before - STRANGE, kept, before)


def in_rhythm(steps):
    """The lines of a ride whose samples follow one another by these seconds, in turn, with laps and pauses in the seconds of samples."""
    lines, second = ["start 1000000000 7 running"], 1000000000
    for number in range(1000):
        lines.append("sample %d hr=%d dist=%d" % (second, 120 + number % 50, 300 * number))
        lines += ["lap %d" % second] if number % 300 == 100 else []
        second += steps[number % len(steps)]
        lines += ["lap %d" % second] if number % 300 == 200 else []
        lines += ["pause %d" % second, "resume %d" % second] if number % 300 == 299 else []
    return lines


# By how many seconds the samples of rides are apart, in turn.
STEPS = [(1,), (0, 1), (0, 0, 1), (5,), (9,), (10,), (10, 11), (9, 10, 11, 10), (12, 15, 13, 19), (20, 25, 22, 28), (31,), (60,), (1, 1, 1, 20), (1, 31)]


def rhythms(given):
    """Nothing is left out of a ride that is cut off after an entry, however far apart its samples are."""
    for steps in STEPS:
        data = recording(given.fitrec, *in_rhythm(steps), "commit")["activity.fit"]
        size = len(numbers(data)[1])
        came = mended(given.fitrec, data)[0]
        yield "samples %s s apart" % " and ".join(map(str, steps)), differs(came, (0, "kept %d of %d, parts 1\n" % (size, size), ""))


def silences(given):
    """Nothing is left out of a ride that is cut off after a commit and had a silence, of some minutes or an hour, with or without a way."""
    for fields in ("hr=%d", "hr=%d dist=%d", "hr=%d dist=%d lat=%d long=%d"):
        for seconds in (100, 240, 600, 3600):
            values = [(120 + k % 9, 650 * k, 566012345 + 300 * k, 102345678 + 300 * k)[:fields.count("=")] for k in range(600)]
            lines = ["sample %d %s" % (1000000001 + k + seconds * (k >= 300), fields % it) for k, it in enumerate(values)]
            data = recording(given.fitrec, "start 1000000000 7 cycling", *lines, "commit")["activity.fit"]
            size = len(numbers(data)[1])
            came = mended(given.fitrec, data, "--all")[0]
            yield "%d s without a sample, %s" % (seconds, fields), differs(came, (0, "kept %d of %d, parts 1\n" % (size, size), ""))


def bytes_for(size, n):
    return n.to_bytes(size, "little")


def defined(local, number, *fields):
    return bytes([0x40 | local, 0, 0, number, 0, len(fields)]) + b"".join(map(bytes, fields))


# The fields of a time, a distance, a heart rate, and what begins a file of another maker.
AT, FAR, HEART = (253, 4, 0x86), (5, 4, 0x86), (3, 1, 2)
BEGIN = defined(0, 0, (0, 1, 0), (4, 4, 0x86)) + bytes([0, 4]) + bytes_for(4, 1000000000) + defined(2, 21, AT, (0, 1, 0), (1, 1, 0))


def stopped(time, seconds):
    """The timer stops at a time, and goes on so many seconds later."""
    return bytes([2]) + bytes_for(4, time) + bytes([0, 4]) + bytes([2]) + bytes_for(4, time + seconds) + bytes(2)


def swim():
    """A swim of 60 lengths, with a rest of 200 seconds after each tenth: each length has a message of its own, and then a sample."""
    row, time = BEGIN + defined(6, 20, AT, FAR, HEART) + defined(7, 101, AT, (2, 4, 0x86), (254, 2, 0x84), (0, 1, 0), (1, 1, 0)), 1000000000
    for number in range(60):
        begin = time + 200 * (number % 10 == 9)
        time = begin + 27 + number % 4
        row += bytes([7]) + bytes_for(4, time) + bytes_for(4, begin) + bytes_for(2, number) + bytes([28, 3])
        row += bytes([6]) + bytes_for(4, time) + bytes_for(4, 2500 * number + 2500) + bytes([140 + number % 10])
    return framed(row)


def swims(given):
    """What follows a hole in a swim is kept, also where samples are minutes apart and messages of lengths stand between them."""
    data, pick = swim(), random.Random(given.seed)
    head, row = numbers(data)
    there = list(items(row))
    for kind in ("zeros", "FF", "noise"):
        for at in [pick.randrange(200, len(row) - 532) for _ in range(8)]:
            holed = hole(pick, row, older(row), kind, 512, at)
            outside = collections.Counter(it.what for it in there if it.what is not None and not touches(it, kind, 512, at))
            kept = collections.Counter(it.what for it in records(mended(given.fitrec, head + holed + bytes(2), "--all")[1]))
            lost = sum((outside - kept).values())
            yield "a swim with a hole of %s" % kind, unless(lost <= 4 and sum((kept - outside).values()) <= 2, lost, "4 lost at most")


def after_pauses(given):
    """After a pause, or a silence without one, a sample with a false time takes at most one other with it."""
    for seconds, is_told in ((240, True), (600, True), (600, False), (3600, True)):
        row, places, time = BEGIN + defined(6, 20, AT, FAR, HEART), [], 1000000000
        for number in range(900):
            if number == 500:
                row, time = row + (stopped(time, seconds) if is_told else b""), time + seconds
            places.append((len(row) + 1, time))
            row += bytes([6]) + bytes_for(4, time) + bytes_for(4, 700 * number) + bytes([120 + number % 9])
            time += 1
        for after in (20, 50, 100, 150, 300):
            at, stated = places[500 + after]
            for bit in [it for it in range(3, 9) if stated >> it & 1][:2]:
                damaged = row[:at] + bytes_for(4, stated ^ 1 << bit) + row[at + 4:]
                kept = records(mended(given.fitrec, framed(damaged)[:-2] + bytes(2))[1])
                yield "a false time %d samples after %d s" % (after, seconds), unless(len(kept) >= 898, len(kept), "898 of 900")


def legs(given):
    """In an activity of several sports distances begin anew with each, after a lap and a session: what stands outside a hole is kept."""
    pick, row = random.Random(given.seed), BEGIN + defined(6, 20, AT, FAR, HEART)
    row += b"".join(defined(local, number, AT, (2, 4, 0x86), (7, 4, 0x86)) for local, number in ((7, 19), (8, 18)))
    for leg in range(3):
        begin = 1000000000 + 600 * leg
        for number in range(600):
            row += bytes([6]) + bytes_for(4, begin + number) + bytes_for(4, (700, 900, 300)[leg] * number) + bytes([120 + number % 9])
        for local in (7, 8):
            row += bytes([local]) + bytes_for(4, begin + 599) + bytes_for(4, begin) + bytes_for(4, 599000)
    head, row = numbers(framed(row))
    there = list(items(row))
    for kind, size in itertools.product(("zeros", "FF", "noise"), (16, 512)):
        for at in [pick.randrange(200, len(row) - size - 20) for _ in range(4)]:
            holed = hole(pick, row, older(row), kind, size, at)
            outside = collections.Counter(it.what for it in there if it.what is not None and not touches(it, kind, size, at))
            kept = collections.Counter(it.what for it in records(mended(given.fitrec, head + holed + bytes(2), "--all")[1]))
            lost = sum((outside - kept).values())
            yield "legs with %d bytes of %s" % (size, kind), unless(lost <= 2 and sum((kept - outside).values()) <= 1, lost, "2 lost at most")


def short_times(given):
    """Of a ride with times in the short form and some in full, with silences or pauses, all is kept, and in time."""
    for silence, is_told in itertools.product((100, 300, 3000), (False, True)):
        row, time = BEGIN + defined(1, 20, AT, FAR, HEART) + defined(3, 20, FAR, HEART), 1000000000
        for number in range(900):
            if number in (300, 600):
                row, time = row + (stopped(time, silence) if is_told else b""), time + silence - 1
            time += 1
            values = bytes_for(4, 700 * number) + bytes([120 + number % 9])
            is_full = number % 31 == 0 or number in (300, 600)
            row += (bytes([1]) + bytes_for(4, time) if is_full else bytes([0x80 | 3 << 5 | time % 32])) + values
        whole = framed(row)
        (status, out, err), file = mended(given.fitrec, whole[:-1])
        yield "%s of %d s" % ("pauses" if is_told else "silences", silence), differs((status, out, err), (0, "kept %d of %d, parts 1\n" % (len(row), len(row)), ""))
        wanted = dict(re.findall(r"record timestamp=(\d+) distance=(\d+)", show(whole)))
        came = re.findall(r"record timestamp=(\d+) distance=(\d+)", show(file))
        yield "times with %s of %d s" % ("pauses" if is_told else "silences", silence), differs([it for it in came if wanted.get(it[0]) != it[1]], [])


def damaged_headers(given):
    """One byte of the header is wrong, or the header is lost."""
    data = own_rides(given.fitrec)[1]
    full = len(records(data))
    for at in range(data[0]):
        bad = bytearray(data)
        bad[at] ^= 0x5A
        (status, out, err), file = mended(given.fitrec, bytes(bad), "--all")
        came = status, file is not None and len(records(file))
        yield "a byte of the header", differs(came, (0, full), at)
    (status, out, err), file = mended(given.fitrec, data[data[0]:])
    yield "no header", differs((status, file is not None and len(records(file))), (0, full))


def begins_with_file_id(file):
    """Whether the first item of a file is a definition of global number 0."""
    return file is not None and file[14] & 0xF0 == 0x40 and file[17:19] == bytes(2)


def lost_beginnings(given):
    """Of rides of other makers, whose header is damaged or missing, or behind other bytes, all is kept, as its file_id. Where the first 512
    bytes are lost, what is under the definitions after them is."""
    found = of_other_makers()
    if isinstance(found, Skipped):
        yield "lost beginnings", found
        return
    noise = random.Random(given.seed).randbytes(3000)
    for number, data in enumerate(found):
        full, (head, row) = len(records(data)), numbers(data)
        for name, bad in (("byte 0", bytes([data[0] ^ 0x5A]) + data[1:]), ("bytes 8 to 11", data[:8] + b"\xff" * 4 + data[12:]),
                          ("no header", data[len(head):]), ("3000 other bytes before it", noise + data)):
            file = mended(given.fitrec, bad, "--all")[1]
            kept = file and len(records(file))
            is_right = begins_with_file_id(file) and kept >= full - STRANGE
            yield name, unless(is_right, (kept, file and file[14:24]), (full, "a file_id"))
        lost = data[512:]
        under = defined_after(row, 512 - len(head))
        file = mended(given.fitrec, lost, "--all")[1]
        kept = len(records(file)) if file else 0
        yield "the first 512 bytes lost", unless(kept >= 0.99 * under, kept, under)


def without_definitions(pick, data):
    """A ride whose first definitions are lost in some way, and up to which place of its records."""
    head, row = numbers(data)
    first = next(it.start for it in items(row) if it.what is not None)
    yield "the first 512 bytes lost", data[512:], 512 - len(head)
    yield "512 bytes of zeros", head + bytes(512) + row[512:], 512
    yield "512 bytes of noise", head + pick.randbytes(512) + row[512:], 512
    yield "all before the first record lost", row[first:], first
    yield "zeros before the first record", head + bytes(first) + row[first:], first


def definition_count(data):
    """For how many local numbers a file has a definition."""
    row = numbers(data)[1]
    return len({row[it.start] & 15 for it in messages(row) if it.what is None})


def lent_definitions(given):
    """Where the definitions are lost, those of another ride of the device bring the records back, and those of another device make nothing
    up. Where none is lost, the messages are the same."""
    found = rides()
    if isinstance(found, Skipped):
        yield "definitions of another file", found
        return
    pick, names = random.Random(given.seed), [name for pair in OF_ONE_DEVICE for name in pair]
    for pair in OF_ONE_DEVICE:
        for name, other in pair, pair[::-1]:
            data, there = found[name], collections.Counter(it.what for it in records(found[name]))
            line = "definitions from LIKE: %d\n" % definition_count(found[other])
            for lost, bad, at in without_definitions(pick, data):
                outside = collections.Counter(it.what for it in records(data) if it.start >= at)
                for lender in [it for it in names if it != name]:
                    (status, out, err), file = mended(given.fitrec, bad, "--all", like=found[lender])
                    kept = collections.Counter(it.what for it in records(file)) if file else collections.Counter()
                    sums = sum(outside.values()), sum((kept & outside).values()), sum((kept - there).values())
                    if lender == other:
                        well = sums[1] >= BROUGHT_BACK * sums[0] and sums[2] == 0 and out.endswith(line)
                        wanted = "%.2f kept, none made up, %r" % (BROUGHT_BACK, line)
                    else:
                        well, wanted = sums[2] <= MADE_UP * sum(there.values()), "none made up"
                    yield "%s, by %s" % (lost, "its device" if lender == other else "another"), unless(well, described(sums) + out, wanted)
            head, row = numbers(data)
            at = pick.randrange(len(row) // 2, len(row) - 600)
            for bad in data, head + hole(pick, row, older(row), "noise", 512, at) + bytes(2):
                plain, lent = (mended(given.fitrec, bad, like=like)[1] for like in (None, found[other]))
                came, wanted = ([it.what[0] for it in messages(numbers(it)[1]) if it.what] for it in (lent, plain))
                yield "no definition lost", unless(came == wanted, len(came), len(wanted))
    small = given.small
    for bad, fault in (small[:-1] + bytes([small[-1] ^ 1]), "FileCrc at %d" % (len(small) - 2)), (b"", "Truncated at 0"):
        came = mended(given.fitrec, small, like=bad)
        yield "what is no file lends none", differs(came, ((1, "", "fitrec: LIKE: %s\n" % fault), None))


def defined_after(row, at):
    """How many records have their definition, and all of it, after a place."""
    defined, count = {}, 0
    for it in items(row):
        if it.what is None:
            defined[row[it.start] & 15] = it.start >= at
        else:
            first = it.what[0][0]
            count += bool(defined.get(first >> 5 & 3 if first & 128 else first & 15)) and it.start >= at
    return count


def noise(given):
    """Ten million bytes without a file in them take seconds, also where other programs run, and not more than in proportion."""
    data = random.Random(given.seed).randbytes(10_000_000)
    took = []
    for size in 5_000_000, 10_000_000:
        began = time.monotonic()
        (status, out, err), file = mended(given.fitrec, framed(b"")[:14] + data[:size], "--all")
        took.append(time.monotonic() - began)
    yield "10 MB of noise", unless(status == 0 and took[1] < 20 and took[1] < 4 * took[0] + 2, took, "seconds, linear")


def part_line(number, data):
    """The line of a chained file of this number, with the fault that a second reader finds in it."""
    try:
        show(data)
        fault = ""
    except Refused as refused:
        fault = ", %s" % refused
    return "%d.fit: %d bytes%s\n" % (number, len(data), fault)


def split(given):
    """The files of a chained one are written as they are, and a line says of each how long it is and why it is no file."""
    files = own_rides(given.fitrec) + [given.small]
    end = random.Random(given.seed).randrange(14, len(given.small))
    for name, chain in (
            ("whole", files), ("the last one cut off", files[:-1] + [given.small[:end]]), ("with bytes after it", files + [b"\0\1\2"]),
            ("with faults", [framed(b"\5"), files[0][:-1] + bytes([files[0][-1] ^ 1]), framed(b"\x40"), *files])):
        with tempfile.TemporaryDirectory() as folder:
            source = pathlib.Path(folder) / "in.fit"
            source.write_bytes(b"".join(chain))
            new = pathlib.Path(folder) / "new"
            new.mkdir()
            said = run(given.fitrec, "split", source, new)
            left = [bytes_of(new / ("%d.fit" % number)) for number in range(1, len(chain) + 1)]
            lines = "".join(part_line(number, file) for number, file in enumerate(chain, 1))
            yield name, differs((said, left, len(os.listdir(new))), ((0, lines, ""), chain, len(chain)))


def split_refused(given):
    """A part that is not written has no line, and none after it is made. A folder has a name. Without --all so many files are refused before
    one is made; with it all are written."""
    with tempfile.TemporaryDirectory() as folder:
        source, new = pathlib.Path(folder) / "in.fit", pathlib.Path(folder) / "new"
        (new / "2.fit").mkdir(parents=True)
        source.write_bytes(3 * given.small)
        said = run(given.fitrec, "split", source, new)
        wanted = (1, part_line(1, given.small), "fitrec: cannot write %s\n" % new), {"1.fit", "2.fit"}
        yield "a part that is not written", differs((said, set(os.listdir(new))), wanted)
        for words in (), ("--all",):
            # As root it would make the files in the root folder, so it runs as another user.
            with for_everyone(given.fitrec) as fitrec:
                os.chmod(folder, 0o755)
                said = run(fitrec, "split", *words, source, "", preexec_fn=as_nobody)
            yield "a folder without a name", differs(said, (1, "", "fitrec: cannot open \n"))
            for count in 1000, 1001:
                source.write_bytes(count * framed(b""))
                made = pathlib.Path(folder) / ("made%d%s" % (count, len(words)))
                made.mkdir()
                said, left = run(given.fitrec, "split", *words, source, made), len(os.listdir(made))
                is_right = (said[0], said[1].count("\n"), said[2], left) == (0, count, "", count)
                if count == 1001 and not words:
                    is_right = (said, left) == ((1, "", "fitrec: TooManyFiles(1001)\n"), 0)
                yield "%d files" % count, unless(is_right, (said[0], said[2], left), "at most 1000 without --all")
            source.write_bytes(3 * given.small)


def split_images(given):
    """Every whole file of an image is written as it is, and named by its place. The places of whole files are those where they were put."""
    pick, rides = random.Random(given.seed), own_rides(given.fitrec)
    small = framed(b"\x40\0\0\0\0\1\0\1\0\0\4")
    inside = framed(b"\x40\0\0\xff\0\1\0" + bytes([len(small)]) + b"\x0d\0" + small)
    stale = rides[0][:300]
    torn = rides[1][:-1] + bytes([rides[1][-1] ^ 1])
    nothing = pick.randbytes(20000)
    for name, files, whole in (
            ("three rides", [rides[0], rides[1], given.small], (0, 1, 2)), ("torn rides between", [torn, rides[0], torn, small], (1, 3)),
            ("a beginning alone before one", [stale, small, rides[1]], (1, 2)), ("one file inside another", [inside, small], (0, 1)),
            ("no ride", [nothing], ()), ("short headers", [short(rides[0]), short(small)], (0, 1))):
        data, places = image(pick, files)
        with tempfile.TemporaryDirectory() as folder:
            source, new = pathlib.Path(folder) / "card.img", pathlib.Path(folder) / "new"
            source.write_bytes(data)
            new.mkdir()
            said = run(given.fitrec, "split", "--all", source, new)
            wanted = {"%d.fit" % places[at]: files[at] for at in whole}
            lines = "".join("%d.fit: %d bytes\n" % (places[at], len(files[at])) for at in whole)
            left = {path.name: path.read_bytes() for path in new.iterdir()}
            answer = (0, lines, "") if whole else (1, "", "fitrec: no FIT file in %s\n" % source)
            yield name, unless((said, left) == (answer, wanted), (said, sorted(left)), (answer, sorted(wanted)))


def split_hostile(given):
    """Work is in proportion to the bytes, also where every 21 bytes are the beginning of a file of all that follows. Each header is the
    data message of the definition before it, so each of these files is wrong in its checksum alone."""
    definition = b"\x4c\0\0\0\0\1\0\x14\x0d"
    for size in 210_000, 2_100_000:
        data = b"".join(b"\x0c\x10\x64\0" + max(0, size - at - 12).to_bytes(4, "little") + b".FIT" + definition for at in range(0, size, 21))
        with tempfile.TemporaryDirectory() as folder:
            source, new = pathlib.Path(folder) / "card.img", pathlib.Path(folder) / "new"
            source.write_bytes(data + b"\1\1")
            new.mkdir()
            began = time.monotonic()
            said = run(given.fitrec, "split", "--all", source, new)
            took = time.monotonic() - began
            yield "%d bytes of headers" % size, differs((said, os.listdir(new)), ((1, "", "fitrec: TooManyHeaders\n"), []))
        yield "%d bytes of headers take little time" % size, unless(took < 2, took, "less than 2 s")


def time_stated(row, it):
    """The time that a message states in full."""
    at, fields = it.start + 1, it.what[1][6:6 + 3 * it.what[1][5]]
    for number, size, base in zip(*[iter(fields)] * 3):
        if (number, size, base) == (253, 4, 0x86):
            return int.from_bytes(row[at:at + 4], "big" if it.what[1][2] & 1 else "little")
        at += size


def others_told(given):
    """A part that is left out and has another ride says when that starts, by the definitions before it or its own. One that has the same
    ride again, or none, says nothing."""
    pick, (hearts, ride) = random.Random(given.seed), [bytes_plain(given.fitrec, it) for it in own_rides(given.fitrec)]
    head, row = numbers(ride)
    there, old, other = records(ride), older(row), older(numbers(hearts)[1])
    # The record before the hole is left out with it, unless nobody wrote what follows. It ends in no zero, so none cuts it.
    last, start = there[2000], there[900]
    end, times = last.end, [time_stated(old, it) for it in there[900:902]]
    of_hearts = time_stated(other, records(hearts)[0])
    for name, hole, said in (
            ("an older ride", old[start.start:], times[0]), ("within a record", old[start.start + 9:], times[1]),
            ("another layout", hearts[:len(head)] + other, of_hearts),
            ("fewer than eight records", old[start.start:there[907].start] + bytes(200), None), ("noise", pick.randbytes(3000), None),
            ("zeros", bytes(3000), None)):
        (status, out, err), file = mended(given.fitrec, head + row[:end] + hole, "--all")
        kept = end if name == "zeros" else last.start
        line = "left out %d at %d%s\n" % (end - kept + len(hole), len(head) + kept, ": another ride from %d" % said if said else "")
        wanted = 0, "kept %d of %d, parts 1\n" % (kept, end + len(hole)) + line, ""
        yield name, differs((status, out, err), wanted)
    # The last record before that is left out too.
    (status, out, err), file = mended(given.fitrec, head + row[:end] + row[start.start:there[1900].start], "--all")
    is_right = out.count("left out") == 1 and "another" not in out
    yield "the same ride again", unless((status, is_right, err) == (0, True, ""), out, "one part, and no other ride")


def same_told(given):
    """A cluster of another place of the same ride is not told as another ride; one of an older ride, or its end, often is."""
    found = of_other_makers()
    if isinstance(found, Skipped):
        yield "clusters of the same ride", found
        return
    for content, sizes, least, most in (
            (CONTENTS[1], CLUSTERS, 0, 0), (CONTENTS[0], CLUSTERS, TOLD, 1), (TAIL, [0], TOLD, 1)):
        told, count = 0, 0
        for size in sizes:
            pick = random.Random("%d %s %d" % (given.seed, content, size))
            for _ in range(max(1, given.files // 75)):
                told, count = told + ("another ride" in mended(given.fitrec, clustered(pick, found, content, size).data, "--all")[0][1]), count + 1
        yield "told: " + content, unless(least * count <= told <= most * count, "%d of %d" % (told, count), "%.2f to %.2f" % (least, most))


def bytes_plain(fitrec, data):
    """The plain form of a file."""
    with tempfile.TemporaryDirectory() as folder:
        source, out = pathlib.Path(folder) / "in.fit", pathlib.Path(folder) / "out.fit"
        source.write_bytes(data)
        run(fitrec, "plain", source, out)
        return bytes_of(out)


def finishes(given):
    """With --finish the file has the closing messages that a second reader gives what is kept, and another line says how many entries."""
    pick = random.Random(given.seed)
    for data in own_rides(given.fitrec):
        head, row = numbers(data)
        at = pick.randrange(len(row) // 3, len(row) // 2)
        damaged = head + hole(pick, row, older(row), "noise", 512, at)[:-400]
        (status, out, err), file = mended(given.fitrec, damaged, "--all")
        text, heard = finished(file)
        (status, more, err), made = mended(given.fitrec, damaged, "--all", "--finish")
        wanted = 0, out + heard, text
        yield "finished", differs((status, more, made and show(made)), wanted)


def told(given):
    """That bytes follow the end that the header gives is said, also of a file that is finished."""
    data = own_rides(given.fitrec)[0]
    line = "fitrec: 10 bytes after the end that the header gives were not read; salvage --all reads them\n"
    for words in ([], ["--finish"], ["--finish", "--plain"]):
        status, _, err = mended(given.fitrec, data + bytes(10), *words)[0]
        yield "bytes that are not looked at", differs((status, err), (0, line), words)


def check(given):
    yield from given.checks(whole, given)
    yield from given.checks(rhythms, given)
    yield from given.checks(silences, given)
    yield from given.checks(swims, given)
    yield from given.checks(legs, given)
    yield from given.checks(after_pauses, given)
    yield from given.checks(short_times, given)
    yield from given.checks(damaged_headers, given)
    yield from given.checks(lost_beginnings, given)
    yield from given.checks(lent_definitions, given)
    yield from given.checks(told, given)
    yield from given.checks(others_told, given)
    yield from given.checks(same_told, given)
    yield from given.checks(clusters, given)
    yield from given.checks(split, given)
    yield from given.checks(split_refused, given)
    yield from given.checks(split_images, given)
    yield from given.checks(split_hostile, given)
    yield from given.checks(finishes, given)
    yield from given.checks(noise, given)
    yield from given.checks(own, given)
    yield from given.checks(from_elsewhere, given)
    yield from given.checks(named_once, given)
    yield from given.checks(edges, given)
    yield from given.checks(without_distances, given)
    yield from given.checks(others, given)


@functools.cache
def points(data):
    """The points that gpsbabel reads in its recovery mode, without their number and their time: it does not carry short times."""
    with tempfile.TemporaryDirectory() as folder:
        source = pathlib.Path(folder) / "in.fit"
        source.write_bytes(data)
        words = "-t", "-i", "garmin_fit,recoverymode=1", "-f", source, "-o", "unicsv,utc=0", "-F", "-"
        lines = run("gpsbabel", *words)[1].splitlines()
    names = lines[0].split(",") if lines else []
    left_out = {names.index(name) for name in ("No", "Date", "Time") if name in names}
    return collections.Counter(tuple(it for at, it in enumerate(line.split(",")) if at not in left_out) for line in lines[1:])


def by_gpsbabel(data, ride):
    """The same counts of gpsbabel, as far as it reads the points of the undamaged file."""
    whole, found = points(data), points(ride.data)
    stood = max(0, sum(whole.values()) - sum((ride.whole - ride.outside).values()))
    return stood, min(stood, sum((found & whole).values())), max(0, sum((found - whole).values()) - 2 * ride.holes)


def shares(found):
    """Of all rides of each seed: how much is kept of what stood, and how much is made up by what is kept."""
    sums = [[sum(each) for each in zip((0, 0, 0), *some)] for some in found]
    return [kept / stood for stood, kept, made_up in sums], [made_up / max(1, kept) for stood, kept, made_up in sums]


def worst(found):
    """The least that is kept by a seed, and the most that is made up, if anything is."""
    kept, made_up = shares(found)
    return ("%.2f" % (100 * min(kept))).replace("100.00", "100") + " %" + ", %.2f %% made up" % (100 * max(made_up)) * any(made_up)


def from_to(form, row):
    """The least and the greatest share of a row, or none where they are rounded to nothing."""
    ends = [form % (100 * it) for it in (min(row), max(row))]
    ends = [it if float(it) else "0" for it in ends]
    return "none" if ends[1] == "0" else " to ".join(dict.fromkeys(ends)) + " %"


def print_table(fitrec, seeds):
    """The rows of the table in docs/PROGRAMS.md."""
    own, others = own_rides(fitrec), of_other_makers()
    for size, kind in [(size, kind) for size in SIZES for kind in KINDS]:
        ours, theirs = [[[it for it in damaged_rides(seed, rides, kind, size, max(1, 8 // len(rides))) if not it[1].is_undefined]
                         for seed in seeds] for rides in (own, others)]
        kept = [worst([[by_salvage(fitrec, ride) for data, ride in each] for each in it]) for it in (ours, theirs)]
        points, made_up = shares([[by_gpsbabel(data, ride) for data, ride in each] for each in theirs])
        cells = "%d, %s" % (size, kind), *kept, from_to("%.0f", points), from_to("%.1f", made_up)
        print("| %s |" % " | ".join(cells), flush=True)


if __name__ == "__main__":
    print_table(FITREC, [int(word) for word in sys.argv[1:]])
