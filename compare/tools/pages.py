"""Rides for the page, and what the second reader says of them."""

import itertools
import json
import math
import pathlib
import re

from tools import reader
from tools.program import NAMES, ROOT, run

# 2024-11-08 08:00 UTC.
START = 1100000000 - 1100000000 % 86400 + 8 * 3600
SEMICIRCLE = 2**31 / 180

# A ride of five minutes with positions and everything that is drawn, but cadence and temperature.
RIDE = ["start 1000000000 7 cycling"] + [
    "sample %d lat=%d long=%d alt=%d hr=%d dist=%d speed=%d power=%d" % (
        1000000000 + at, (47 + at / 5000) * SEMICIRCLE, (8 + (at - 150) ** 2 / 4e6) * SEMICIRCLE, 2700 + at, 110 + at % 60, at * 780,
        7800 + at % 500, 150 + at % 120) for at in range(300)] + ["commit"]


def recorded(fitrec, folder, lines, *words):
    """A folder with the recording of these lines."""
    folder.mkdir()
    script = folder.with_suffix(".script")
    script.write_text("\n".join(lines))
    run(fitrec, "replay", *words, script, folder)
    return folder


def of_module(name, expression):
    """What an expression over a module of the page, `it`, is under Node."""
    script = "import * as it from 'file://%s'; process.stdout.write(JSON.stringify(%s))" % (ROOT / "web" / name, expression)
    return json.loads(run("node", "--input-type=module", "-e", script)[1])


def both(folder):
    return [folder / name for name in NAMES]


def by_device(serial, lines):
    """The same ride by a device of another number."""
    return [lines[0].replace(" 7 ", " %d " % serial), *lines[1:]]


# A wrong value of power.
WRONG = 65534


def tour(seconds=3000, begin=START, longitude=8.5):
    """A ride with everything that is drawn: a long and a short pause, a gap, two laps, noise, and one wrong value of power."""
    lines, at, distance = ["start %d 7 cycling" % begin], begin, 0
    for i in range(seconds):
        if i == seconds // 4:
            lines += ["pause %d" % at, "resume %d" % (at + 600)]
            at += 600
        if i == 5 * seconds // 8:
            lines += ["pause %d" % at, "resume %d" % (at + 5)]
            at += 5
        if i in (seconds // 3, 2 * seconds // 3):
            lines.append("lap %d" % at)
        if i == 3 * seconds // 4:
            at += 240
        speed = 7000 + int(2000 * math.sin(i / 200)) + i * 7919 % 400
        # At the gap it is slow: no clock was set there.
        speed = 1000 if abs(i - 3 * seconds // 4) < 2 else speed
        distance += speed // 10
        place = (47 + i / 20000) * SEMICIRCLE, ((longitude + (i / 1000) ** 2 / 100 + 180) % 360 - 180) * SEMICIRCLE
        watts = WRONG if i == seconds // 2 else 180 + i * 104729 % 120
        heart = 148 if i == 2 * seconds // 5 else 120 + int(20 * math.sin(i / 150)) + i % 3
        lines.append("sample %d lat=%d long=%d alt=%d hr=%d cad=%d dist=%d speed=%d power=%d temp=%d" % (
            at, *place, 2700 + 100 * math.sin(i / 300) + i % 2, heart, 80 + i % 9, distance, speed, watts, 12 + i // 1000))
        at += 1
    return [*lines, "commit"]


def rows(data, message=20):
    """For each message of this number its fields that are one whole number."""
    shown = reader.show(data).splitlines()[1:-1]
    name = reader.names_of(message)[0]
    found = []
    for line in shown:
        _, own, *fields = line.split(" ")
        if own == name:
            found.append({key: int(value) for key, value in (it.split("=", 1) for it in fields) if re.fullmatch(r"-?\d+", value)})
    return found


# Each series: its fields, factor, what is added, decimals and unit.
SERIES = {
    "Speed": (("enhanced_speed", "speed"), 0.0036, 0, 1, "km/h"), "Heart rate": (("heart_rate",), 1, 0, 0, "bpm"),
    "Altitude": (("enhanced_altitude", "altitude"), 0.2, -500, 0, "m"), "Power": (("power",), 1, 0, 0, "W"),
    "Cadence": (("cadence",), 1, 0, 0, "rpm"), "Temperature": (("temperature",), 1, 0, 0, "°C")}


def series_of(found, name):
    """The times and values of a series, without the wrong value of a tour."""
    fields, factor, more, _, _ = SERIES[name]
    pairs = ((it["timestamp"], next((it[field] for field in fields if field in it), None)) for it in found)
    return [(time, raw * factor + more) for time, raw in pairs if raw not in (None, WRONG)]


def rounded(n, decimals):
    """As a browser writes it: a half goes up."""
    return f"{math.floor(n * 10**decimals + 0.5 + 1e-9) / 10**decimals:,.{decimals}f}"


def pauses_of(data):
    """From when to when the timer stood, by the events of the timer."""
    found, since = [], None
    for it in rows(data, 21):
        if it["event"] == 0 and it["event_type"] == 0 and since is not None:
            found.append((since, it["timestamp"]))
        since = None if it["event_type"] == 0 else since or it["timestamp"]
    return found


def weighted(pairs, pauses):
    """The times and values of a series, each with the seconds of the timer for which it counts: half of those since the value before it, and
    half of those to the next one, a minute of each at most."""
    clock = [time - sum(min(time, to) - since for since, to in pauses if since < time) for time, _ in pairs]
    steps = [0, *(min(b - a, 60) for a, b in itertools.pairwise(clock)), 0]
    return [(*pair, (before + after) / 2) for pair, (before, after) in zip(pairs, itertools.pairwise(steps))]


def average_of(triples):
    return sum(value * seconds for _, value, seconds in triples) / sum(seconds for _, _, seconds in triples)


def facts_of(data, name):
    """The line on the lowest, the average and the highest value. The average is over the time; that of speeds is the way by the time."""
    pairs, session = series_of(rows(data), name), rows(data, 18)[0]
    values, average = [value for _, value in pairs], average_of(weighted(pairs, pauses_of(data)))
    if name == "Speed":
        average = session["total_distance"] / session["total_timer_time"] * 36
    decimals, unit = SERIES[name][3:]
    low, average, high = (rounded(it, decimals) for it in (min(values), average, max(values)))
    return "lowest %s · average %s · highest %s %s" % (low, average, high, unit)


def ascent_of(found):
    """How many metres are climbed, where a rise counts from two metres on: each from a low to the next high."""
    total, low, high = 0, None, None
    for _, value in series_of(found, "Altitude"):
        if low is None or value < low or high - value >= 2:
            total += high - low if low is not None and high - low >= 2 else 0
            low = high = value
        high = max(high, value)
    return total + (high - low if high - low >= 2 else 0)


def columns_of(pairs, count=1200):
    """The least and the greatest value in each column of a picture."""
    begin, end, found = pairs[0][0], pairs[-1][0], {}
    for time, value in pairs:
        column = min((time - begin) * count // ((end - begin) or 1), count - 1)
        low, high = found.get(column, (value, value))
        found[column] = min(low, value), max(high, value)
    return found


def drawn_of(curve):
    """What a picture shows in each column: the least and the greatest value, from its lines."""
    low, high, found = float(curve["low"]), float(curve["high"]), {}
    value = lambda y: high - float(y) / 100 * (high - low)
    for x, y in re.findall(r"[ML](\d+) ([\d.-]+)", curve["line"]):
        found[int(x)] = value(y), value(y)
    for x, first, last in re.findall(r"M(\d+) ([\d.-]+)V([\d.-]+)", curve["bars"]):
        found[int(x)] = value(first), value(last)
    return found


def copy(files, folder, names):
    """Copies of files under other names."""
    folder.mkdir()
    return [pathlib.Path(folder / name) for name, file in zip(names, files) if (folder / name).write_bytes(file.read_bytes()) is not None]
