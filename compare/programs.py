#!/usr/bin/env -S python3 -B
"""Checks which programs read the files that are made of a recording, as docs/PROGRAMS.md says it, with those that run without a screen.

    compare/programs.py FOLDER

makes these files in a new folder, to be opened in the other programs: repaired.fit, saved.fit, and salvaged.fit of a file that is cut off;
finished.fit, of the same file by salvage --finish; mended.fit, by salvage --skip --finish of one with a hole of 512 bytes too. The last
three are there with --plain, as salvaged_plain.fit and so on. The ride has positions, distances, three laps, a pause, samples 7 s and 46 s
apart, and goes on once."""

import calendar
import csv
import itertools
import pathlib
import re
import shutil
import sys
import tempfile
import time
from typing import NamedTuple

from tools.checks import differs
from tools.holes import items, numbers, touches
from tools.needs import missing
from tools.program import FITREC, run

NEEDS = ("fitrec", "gpsbabel")

# 1989-12-31T00:00:00Z, from which times are counted.
EPOCH = 631065600
START = 1000000000
# The seconds after these lines of a script.
AFTER = {"commit": 45, "pause": 45, "lap": 1, "resume": 1}
# The sample at which the hole begins, and its bytes.
HOLE, SIZE = 210, 512


class Sample(NamedTuple):
    """A sample: its time, its place in degrees, its heart rate, and its distance in cm."""

    second: int
    lat: float
    long: float
    rate: int
    distance: int

    def line(self):
        place = self.lat * 2**31 / 180, self.long * 2**31 / 180
        return "sample %d lat=%d long=%d hr=%d dist=%d" % (self.second, *place, self.rate, self.distance)


class Wanted(NamedTuple):
    """What a program has to read of a file: its samples, its laps, and whether it has every time in full."""

    samples: list
    laps: list
    is_plain: bool


def sample(number, second):
    return Sample(second, 47 + number / 10000, 8 + 13 * number / 100000, 110 + number % 60, 1500 * number)


def ride():
    """The lines of two replays of a ride, the samples that are committed of it, and the ends of its laps but the last one."""
    lines, samples, ends, second = ["start %d 7 cycling" % START], [], [], START + 1
    for count, step, after in ((100, 1, ["commit"]), (60, 1, ["lap"]), (40, 7, ["pause", "resume"]), (80, 1, ["commit"]),
                               (20, 1, ["reopen"]), (60, 1, ["lap"]), (60, 1, ["commit"])):
        part = [sample(len(samples) + at, second + step * at) for at in range(count)]
        lines += [it.line() for it in part]
        # What comes before the reopening was not committed.
        samples += part if after != ["reopen"] else []
        second += step * count
        for word in after:
            lines.append(word if word in ("commit", "reopen") else "%s %d" % (word, second))
            ends += [second] if word == "lap" else []
            second += AFTER.get(word, 0)
    return lines, samples, ends


def laps_of(samples, ends):
    """The laps with these ends: the start of each, its time in ms, and its distance in cm."""
    known = [max((it.distance for it in samples if it.second <= end), default=0) for end in (START, *ends)]
    return [(start, 1000 * (end - start), after - before)
            for (start, end), (before, after) in zip(itertools.pairwise((START, *ends)), itertools.pairwise(known))]


def holed(data):
    """A data file with zeros in the middle, from within a sample on, and the numbers of the first and the last sample that they touch."""
    head, row = numbers(data)
    records = [it for it in items(row) if it.what is not None]
    at = records[HOLE].start + 1
    touched = [number for number, it in enumerate(records) if touches(it, "zeros", SIZE, at)]
    return head + row[:at] + bytes(SIZE) + row[at + SIZE:], touched[0], touched[-1]


def outside(samples, first, last):
    """The samples outside a hole. A short time says which of 32 seconds it is, and not how often these passed in the hole: up to the next
    full time, which stands after a longer step, samples are early."""
    full = next(at for at in range(last + 2, len(samples)) if samples[at].second - samples[at - 1].second >= 32)
    lost = (samples[last + 1].second - samples[first - 1].second) // 32 * 32
    early = [it._replace(second=it.second - lost) for it in samples[last + 1:full]]
    return samples[:first] + early + samples[full:]


def make(fitrec, folder):
    """The files that are made of the recording of that ride, by their names, and what they hold. What is salvaged lost its last three
    bytes, and a sample."""
    folder = pathlib.Path(folder)
    lines, samples, ends = ride()
    (folder / "script").write_text("\n".join(lines) + "\n")
    for name in ("ride", "copy"):
        (folder / name).mkdir()
        run(fitrec, "replay", folder / "script", folder / name)
    data = (folder / "ride/activity.fit").read_bytes()[:-3]
    (folder / "torn.fit").write_bytes(data)
    data, first, last = holed(data)
    (folder / "holed.fit").write_bytes(data)
    run(fitrec, "repair", folder / "copy")
    shutil.copy(folder / "copy/activity.fit", folder / "repaired.fit")
    run(fitrec, "save", folder / "ride", folder / "saved.fit")
    torn, laps = samples[:-1], laps_of(samples, [*ends, samples[-1].second])
    closed = laps_of(torn, [*ends, torn[-1].second])
    made = {"repaired": Wanted(samples, laps, False), "saved": Wanted(samples, laps, True)}
    for name, source, words, kept, laps in (
            ("salvaged", "torn.fit", (), torn, laps_of(torn, ends)),
            ("finished", "torn.fit", ("--finish",), torn, closed),
            ("mended", "holed.fit", ("--skip", "--finish"), outside(torn, first, last), closed)):
        run(fitrec, "salvage", *words, folder / source, folder / (name + ".fit"))
        run(fitrec, "salvage", *words, "--plain", folder / source, folder / (name + "_plain.fit"))
        made |= {name: Wanted(kept, laps, False), name + "_plain": Wanted(kept, laps, True)}
    return made


def read_by_gpsbabel(file):
    """The points that gpsbabel reads of a file: the time, the place and the heart rate of each."""
    words = ["gpsbabel", "-t", "-i", "garmin_fit", "-f", file, "-o", "unicsv,utc=0", "-F", "-"]
    points = []
    for row in csv.DictReader(run(*words)[1].splitlines()):
        moment = time.strptime(row["Date"] + " " + row["Time"].split(".")[0], "%Y/%m/%d %H:%M:%S")
        points.append((calendar.timegm(moment) - EPOCH, float(row["Latitude"]), float(row["Longitude"]), int(row["Heartrate"] or 0)))
    return points


def laps_by_gpsbabel(file):
    """The laps that gpsbabel reads, as it says where its debugging is on: it writes none without a position."""
    said = "".join(run("gpsbabel", "-D", "7", "-t", "-i", "garmin_fit", "-f", file, "-o", "unicsv", "-F", "/dev/null")[1:])
    values = [re.findall("parsing fit data: %s=([0-9]+)" % name, said) for name in ("starttime", "elapsedtime", "totaldistance")]
    return [tuple(int(it) for it in lap) for lap in zip(*values, strict=True)]


def without_times(points):
    """Their places, to a hundred thousandth of a degree, and their heart rates."""
    return [(round(lat, 5), round(long, 5), rate) for _, lat, long, rate in points]


def by_gpsbabel(fitrec):
    if missing("gpsbabel"):
        yield "read by gpsbabel", missing("gpsbabel")
        return
    with tempfile.TemporaryDirectory() as folder:
        for name, wanted in make(fitrec, folder).items():
            file = "%s/%s.fit" % (folder, name)
            points = read_by_gpsbabel(file)
            yield "read by gpsbabel: " + name, differs(without_times(points), without_times([it[:4] for it in wanted.samples]))
            right = [point[0] for point in points] == [it.second for it in wanted.samples]
            yield "times read by gpsbabel: " + name, differs(right, wanted.is_plain)
            yield "laps read by gpsbabel: " + name, differs(laps_by_gpsbabel(file), wanted.laps)


def check(given):
    yield from given.checks(by_gpsbabel, given.fitrec)


if __name__ == "__main__":
    made = pathlib.Path(sys.argv[1])
    made.mkdir()
    for name, wanted in make(FITREC, made).items():
        print("%s.fit: %d samples, %d laps" % (name, len(wanted.samples), len(wanted.laps)))
