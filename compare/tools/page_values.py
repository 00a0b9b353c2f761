"""The page in a browser: what it says of values, by rides of another maker that are made here byte by byte."""

import pathlib

from tools.checks import differs
from tools.fit_files import framed
from tools.pages import SEMICIRCLE, START, average_of, rounded, weighted
from tools.visits import WIDTHS, WINDOWS

UINT8, UINT16, UINT32, SINT32, ENUM = 0x02, 0x84, 0x86, 0x85, 0x00
SIZES = {ENUM: 1, UINT8: 1, UINT16: 2, UINT32: 4, SINT32: 4}
TIME = 253, UINT32
# The fields of a sample, and of what closes a ride.
HEART, POWER, SPEED, ENHANCED_SPEED, ALTITUDE, DISTANCE = (3, UINT8), (7, UINT16), (6, UINT16), (73, UINT32), (2, UINT16), (5, UINT32)
BEGIN, ELAPSED, TIMER, LENGTH, MOST_HEART, MOST_POWER = (2, UINT32), (7, UINT32), (8, UINT32), (9, UINT32), (17, UINT8), (21, UINT16)

LAT, LONG = (0, SINT32), (1, SINT32)
CADENCE, MEAN_CADENCE, MEAN_POWER, ASCENT = (4, UINT8), (18, UINT8), (20, UINT16), (22, UINT16)


def message(number, fields):
    """A definition under local number 0 and its data message; fields with their values by their numbers and types."""
    numbers = [bytes([field, SIZES[base], base]) for field, base in fields]
    content = [value.to_bytes(SIZES[base], "little") for (_, base), value in fields.items()]
    return b"\x40\0\0" + number.to_bytes(2, "little") + bytes([len(fields)]) + b"".join(numbers) + b"\0" + b"".join(content)


def ride(samples, sessions=(), laps=()):
    """A ride of samples (each a time after the start, and fields), with sessions and laps (each a beginning, an end, a distance and fields)."""
    def closing(number, begin, end, distance, fields=()):
        known = {TIME: START + end, BEGIN: START + begin, ELAPSED: 1000 * (end - begin), TIMER: 1000 * (end - begin)}
        return message(number, known | ({} if distance is None else {LENGTH: distance}) | dict(fields))

    last = samples[-1][0]
    parts = [message(0, {(0, ENUM): 4, (4, UINT32): START}), *(message(20, {TIME: START + at} | fields) for at, fields in samples)]
    parts += [closing(19, *it) for it in laps or [(0, last, None)]] + [closing(18, *it) for it in sessions]
    parts += [message(34, {TIME: START + last, (1, UINT16): max(1, len(sessions))})] if sessions else []
    return framed(b"".join(parts))


def series(samples, field, factor=1, more=0):
    return [(at, fields[field] * factor + more) for at, fields in samples if field in fields]


def line(values, average, unit, decimals=0, most=None):
    low, average, high = (rounded(it, decimals) for it in (min(values), average, max(values) if most is None else most))
    return "lowest %s · average %s · highest %s %s" % (low, average, high, unit)


def over_time(pairs):
    return average_of(weighted(pairs, []))


def of_values(fitrec, folder, browser):
    """Sprints are no faults, what cannot be is one, averages are over the time, and several sessions are added up."""

    def visit(name, data, captions, notes=(), numbers=None, laps=None):
        def judge(shown, made):
            it = shown[0]
            yield "captions", differs({key: it["captions"].get(key) for key in captions}, captions)
            yield "notes", differs(it["notes"], list(notes))
            yield "numbers", differs({key: it["numbers"].get(key) for key in numbers or {}}, numbers or {})
            yield "laps", differs(laps and [row[4:] for row in it["laps"]], laps)
            for key, caption in captions.items():
                high = float(caption.split(" ")[-2].replace(",", ""))
                curve = float(it["curves"][key]["high"])
                yield key + ": the curve has room", differs(curve >= high or "a session" in name, True)

        file = folder / (name.replace(" ", "-") + ".fit")
        file.write_bytes(data)
        for window in ("wide", "narrow and dark"):
            browser.visit("%s, %s" % (name, window), [{"files": [file]}], judge, **WINDOWS[window])

    # Six seconds of a sprint in half an hour.
    sprint = dict(zip(range(900, 906), (673, 890, 1170, 1122, 951, 702)))
    samples = [(at, {POWER: sprint.get(at, 190 + at * 7919 % 40)}) for at in range(1800)]
    watts = series(samples, POWER)
    powers = [value for _, value in watts]
    visit("a sprint", ride(samples, [(0, 1799, None, {MOST_POWER: 1170})]), {"Power": line(powers, over_time(watts), "W")})

    # The session states a maximum that lies between two samples.
    samples = [(at, {POWER: 190 + at % 40, HEART: 120 + at % 30}) for at in range(600)]
    beats, watts = series(samples, HEART), series(samples, POWER)
    visit("a maximum of a session", ride(samples, [(0, 599, None, {MOST_POWER: 1300, MOST_HEART: 171})]),
          {"Power": line([it for _, it in watts], over_time(watts), "W", most=1300),
           "Heart rate": line([it for _, it in beats], over_time(beats), "bpm", most=171)})

    # A sample each second and then one each ten seconds: fast, and then as long slowly.
    times = [*range(300), *range(309, 600, 10)]
    samples = [(at, {HEART: 150, SPEED: 8333} if at < 300 else {HEART: 110, SPEED: 2778}) for at in times]
    beats, speeds = series(samples, HEART), series(samples, SPEED, 0.0036)
    heart, speed = over_time(beats), over_time(speeds)
    values = [it for _, it in speeds]
    captions = {"Heart rate": line([110, 150], heart, "bpm"), "Speed": line(values, speed, "km/h", 1)}
    head = ["Average heart rate", "Highest heart rate"]
    lap = [rounded(heart, 0) + " bpm", "150 bpm"]
    visit("uneven samples", ride(samples, [(0, 599, None)]), captions)
    way = ride(samples, [(0, 599, 332_000)], [(0, 599, 332_000)])
    average = 332_000 / 599_000 * 36
    visit("uneven samples of a way", way, captions | {"Speed": line(values, average, "km/h", 1)},
          numbers={"Average speed": rounded(average, 1) + " km/h", "Distance": "3.32 km", "Sessions": None},
          laps=[["Average speed", *head], [rounded(average, 1) + " km/h", *lap]])

    # What cannot be.
    wrong = {100: {POWER: 65534}, 200: {HEART: 0}, 201: {HEART: 0}, 300: {ALTITUDE: 0}, 400: {ENHANCED_SPEED: 600_000}}
    usual = lambda at: {POWER: 190 + at % 40, HEART: 120 + at % 28 // 3, ALTITUDE: 2700 + at // 10, ENHANCED_SPEED: 8000 + at}
    samples = [(at, usual(at) | wrong.get(at, {})) for at in range(600)]
    right = [(at, {key: value for key, value in usual(at).items() if key not in wrong.get(at, {})}) for at in range(600)]
    captions = {}
    for name, field, factor, more, decimals, unit in (
            ("Power", POWER, 1, 0, 0, "W"), ("Heart rate", HEART, 1, 0, 0, "bpm"), ("Altitude", ALTITUDE, 0.2, -500, 0, "m"),
            ("Speed", ENHANCED_SPEED, 0.0036, 0, 1, "km/h")):
        pairs = series(right, field, factor, more)
        captions[name] = line([it for _, it in pairs], over_time(pairs), unit, decimals)
    one = "1 value cannot be right, and is not shown here."
    visit("values that cannot be", ride(samples, [(0, 599, None)]), captions, [one, "2 values cannot be right, and are not shown here.", one, one])

    # An altitude that a fault wrote leaps from its neighbours.
    samples = [(at, {ALTITUDE: 50000 if at == 300 else 2700 + at // 10}) for at in range(600)]
    right = series([it for it in samples if it[0] != 300], ALTITUDE, 0.2, -500)
    visit("an altitude that leaps", ride(samples, [(0, 599, None)]), {"Altitude": line([it for _, it in right], over_time(right), "m")}, [one],
          {"Ascent": "12 m"})

    # So does a heart rate in which a bit has changed. In an hour of samples ten minutes apart it may be so.
    beat = lambda at: 130 + at % 20 // 2
    samples = [(at, {HEART: beat(at) | 64 if at == 300 else beat(at)}) for at in range(600)]
    right = series([it for it in samples if it[0] != 300], HEART)
    visit("a heart rate that leaps", ride(samples, [(0, 599, None)]), {"Heart rate": line([it for _, it in right], over_time(right), "bpm")}, [one])
    samples = [(600 * at, {HEART: 200 if at == 3 else 110}) for at in range(7)]
    visit("a heart rate of a sprint", ride(samples, [(0, 3600, None)]), {"Heart rate": line([110, 200], over_time(series(samples, HEART)), "bpm")})

    # Seconds in which nobody pedals count once, and once they do not.
    samples = [(at, {CADENCE: 90 if at % 300 < 200 else 0, POWER: 200}) for at in range(1200)]
    turns = series(samples, CADENCE)
    pedalled = sum(value * seconds for _, value, seconds in weighted(turns, [])) / sum(seconds for _, value, seconds in weighted(turns, []) if value)
    own = {MEAN_CADENCE: 75, MEAN_POWER: 200}
    line_of = "lowest 0 · average %s · highest 90 rpm · average without coasting %s rpm"
    known = line_of % (rounded(over_time(turns), 0), rounded(pedalled, 0))
    visit("cadence with coasting", ride(samples, [(0, 1199, None)]), {"Cadence": known})
    # What the device says of a ride is shown where it is something else.
    visit("numbers of the device", ride(samples, [(0, 1199, None, own)]),
          {"Cadence": known + " · the device says 75 rpm", "Power": line([200], 200, "W")})
    samples = [(at, {HEART: 120, DISTANCE: 800 * at, ALTITUDE: 2700 + 5 * (at // 10)}) for at in range(600)]
    visit("totals of the device", ride(samples, [(0, 599, 900_000, {ASCENT: 70})]), {},
          numbers={"Distance": "9.00 km its samples say 4.79 km", "Ascent": "59 m the device says 70 m", "Duration": "0:09:59"})

    # A distance that a fault wrote, in a ride without a session.
    samples = [(at, {HEART: 120, DISTANCE: 10**8 if at == 300 else 800 * at}) for at in range(600)]
    visit("a distance that cannot be", ride(samples), {}, numbers={"Distance": "4.79 km"})

    # Positions of bytes that were never written are on no map and in no track. The scale of the map is under it.
    place = lambda at: {LAT: int((47 + at / 20000) * SEMICIRCLE), LONG: int(8.5 * SEMICIRCLE)} if at % 100 else {LAT: 0, LONG: 0}
    samples = [(at, {HEART: 120, **place(at)}) for at in range(600)]
    (folder / "zeros.fit").write_bytes(ride(samples))

    def of_zeros(shown, made):
        yield "it says so", differs(shown[0]["notes"], ["6 values cannot be right, and are not shown here."])
        track = pathlib.Path(made[1]).read_text()
        yield "the track", differs((track.count("<trkpt"), 'lat="0.0' in track), (594, False))
        yield "the scale", differs(made[2], True)

    under = "document.querySelector('.scale').getBoundingClientRect().top >= document.querySelector('.map').getBoundingClientRect().bottom"
    for width, window in WIDTHS.items():
        steps = [{"files": [folder / "zeros.fit"]}, {"download": "#asGpx"}, {"evaluate": under}]
        browser.visit("positions of zeros at %s" % width, steps, of_zeros, **window)

    # Two sessions.
    samples = [(at, {HEART: 120, SPEED: 8000 if at < 600 else 3000, DISTANCE: 800 * at if at < 600 else 300 * (at - 600)})
               for at in range(1200)]
    parts = [(0, 600, 480_000), (600, 1199, 180_000)]
    average = 660_000 / 1_199_000 * 36
    visit("two sessions", ride(samples, parts, parts), {"Speed": line([28.8, 10.8], average, "km/h", 1)},
          numbers={"Duration": "0:19:59", "Without pauses": "0:19:59", "Distance": "6.60 km", "Sessions": "2", "Samples": "1,200",
                   "Average speed": rounded(average, 1) + " km/h"})

    # Samples none of which has a time.
    beats = [100 + at % 40 for at in range(300)]
    (folder / "untimed.fit").write_bytes(framed(message(0, {(0, ENUM): 4, (4, UINT32): START})
                                                + b"".join(message(20, {HEART: beat, POWER: 200}) for beat in beats)))

    def of_untimed(shown, made):
        first, read = shown[0], shown[1]
        yield "it says so", differs("Nothing in this file has a time" in first["reason"], True)
        yield "captions", differs(first["captions"], {"Heart rate": line(beats, sum(beats) / len(beats), "bpm"), "Power": line([200], 200, "W")})
        yield "its numbers", differs(first["numbers"], {"Samples": "300"})
        yield "a sample by its number", differs(read["values"][0], "Sample 300")
        yield "the axis counts", differs({*made[2]} - {"50", "150", "250"}, {"100", "200"})

    axis = {"evaluate": "[...document.querySelector('.times').children].map(it => it.innerText)"}
    for width, window in WIDTHS.items():
        point = {"touchAt" if window.get("touch") else "point": [".plot", 100]}
        steps = [{"files": [folder / "untimed.fit"]}, point, axis]
        browser.visit("samples without times at %s" % width, steps, of_untimed, **window)
    yield from browser.outcomes()
