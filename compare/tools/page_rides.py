"""The page in a browser: the numbers and pictures of rides, by the second reader."""

import itertools
import pathlib
import re
import shutil
import zipfile

from tools.checks import differs, unless
from tools.pages import (RIDE, START, ascent_of, average_of, both, by_device, columns_of, drawn_of, facts_of, pauses_of, recorded, rounded, rows,
                         series_of, tour, weighted)
from tools.program import bytes_of, run
from tools.visits import FINE, RESCUED, WINDOWS


def of_numbers(fitrec, folder, browser):
    """Numbers and lines of every series, from all samples."""
    places = {"a tour": tour(), "a tour over 180 degrees": tour(1500, longitude=179.995)}
    outline = {"evaluate": "document.querySelector('.map .casing').getAttribute('d')"}

    def judged(data, breaks):
        found = rows(data)

        def judge(shown, made):
            last = shown[0]
            yield "facts", differs(last["captions"], {name: facts_of(data, name) for name in last["captions"]})
            yield "ascent", differs(last["numbers"]["Ascent"], rounded(ascent_of(found), 0) + " m")
            for name, curve in last["curves"].items():
                pairs = series_of(found, name)
                wanted, drawn = columns_of(pairs), drawn_of(curve)
                room = (float(curve["high"]) - float(curve["low"])) / 500
                far = [k for k in wanted if k not in drawn or max(abs(a - b) for a, b in zip(drawn[k], wanted[k])) > room]
                yield name + ": each column draws its least and its greatest", differs((far, sorted(drawn)), ([], sorted(wanted)))
                yield name + ": breaks", differs(curve["line"].count("M"), breaks)
            most = float(last["curves"]["Power"]["high"])
            yield "a wrong value does not flatten the rest", unless(most <= 400, most, "at most 400")
            yield "a note on it", differs([it for it in last["notes"]], ["1 value cannot be right, and is not shown here."])
            xs = [float(it) for it in re.findall(r"[ML]([\d.-]+) ", made[1])]
            ys = [float(it) for it in re.findall(r"[ML][\d.-]+ ([\d.-]+)", made[1])]
            steps = [abs(a - b) for a, b in itertools.pairwise(xs)]
            sides = min(xs), max(xs), min(ys), max(ys)
            is_one = 0 <= min(xs) and max(xs) <= 1000 and max(steps) < 300
            yield "one track", unless(is_one, (sides, max(steps)), "0 to 1000 in small steps")
            yield "it fills its picture", unless(max(xs) - min(xs) > 890 or max(ys) - min(ys) > 650, sides, "two edges")
        return judge

    for (name, lines), window in itertools.product(places.items(), WINDOWS):
        where = folder / name.replace(" ", "-")
        if not where.exists():
            run(fitrec, "save", recorded(fitrec, where, lines), where.with_suffix(".fit"))
        data = where.with_suffix(".fit").read_bytes()
        browser.visit("%s, %s" % (name, window), [{"files": both(where)}, outline], judged(data, 4), **WINDOWS[window])
    yield from browser.outcomes()


def of_looking(fitrec, folder, browser):
    """What people look for: laps, the values at a time, colours, the summary of a salvage, and several rides at once."""
    where = recorded(fitrec, folder / "tour", tour())
    run(fitrec, "save", where, folder / "tour.fit")
    data = (folder / "tour.fit").read_bytes()
    found, laps, pauses = rows(data), rows(data, 19), pauses_of(data)
    heart, power = (weighted(series_of(found, name), pauses) for name in ("Heart rate", "Power"))

    def at(share):
        """The values of the sample whose time is nearest."""
        begin, end = found[0]["timestamp"], found[-1]["timestamp"]
        return min(found, key=lambda it: abs(it["timestamp"] - begin - share * (end - begin)))

    def values_of(sample, zone, named=True):
        """The values of a sample. A narrow window has room for the values alone."""
        hour, rest = divmod(sample["timestamp"] - START + 8 * 3600, 3600)
        clock = "%d:%02d:%02d AM %s" % (hour + (zone == "GMT+1"), *divmod(rest, 60), zone)
        values = {"Speed": rounded(sample["speed"] * 0.0036, 1) + " km/h", "Heart rate": "%d bpm" % sample["heart_rate"],
                  "Altitude": rounded(sample["altitude"] / 5 - 500, 0) + " m", "Power": rounded(sample["power"], 0) + " W",
                  "Cadence": "%d rpm" % sample["cadence"], "Temperature": "%d °C" % sample["temperature"]}
        shown = ["%s %s" % it if named else it[1] for it in values.items()]
        return [clock, rounded(sample["distance"] / 1e5, 2) + " km", *shown]

    def near(sample, values, zone, named):
        """Whether values are those of a sample that is at most two columns of a window from it."""
        k, room = found.index(sample), 12
        return values in [values_of(it, zone, named) for it in found[max(0, k - room):k + room]]

    def judged(zone, touch):
        named = not touch

        def judge(shown, made):
            first, pointed, moved, begun, _, slid = shown[:6]
            count, spoken, begins, colours, marks = made[6:11]
            yield "its name", differs(first["download"], "2024-11-08-ride.fit")
            start, hour = first["numbers"]["Start"], 8 + (zone == "GMT+1")
            yield "the start", unless(start.endswith("%d:00 AM %s" % (hour, zone)), start, zone)
            yield "a hint", differs(first["values"][0].split(" ")[0], "Tap" if touch else "Point")
            for what, step, sample in (("the values under the pointer", pointed, at(0.6)), ("in another picture", moved, at(0.1)),
                                       ("at the start of the track", begun, found[0])):
                yield what, unless(near(sample, step["values"], zone, named), step["values"], values_of(sample, zone, named))
            yield "the cursors", differs(count, [len(first["curves"]), False])
            yield "by keys", differs(slid["values"], values_of(found[-1], zone, named))
            yield "for a reader", differs(spoken, ", ".join(values_of(found[-1], zone)))
            wanted = [["Lap", "Begins", "Without pauses", "Distance", "Average speed", "Average heart rate", "Highest heart rate",
                       "Average power"]]
            for i, lap in enumerate(laps):
                begin, end = lap["start_time"], lap["timestamp"] + (i == len(laps) - 1)
                own = lambda triples: [it for it in triples if begin <= it[0] < end]
                wanted.append([str(i + 1), begins[i], "0:%02d:%02d" % divmod(lap["total_timer_time"] // 1000, 60),
                               rounded(lap["total_distance"] / 1e5, 2) + " km",
                               rounded(lap["total_distance"] / 100 / (lap["total_timer_time"] / 1000) * 3.6, 1) + " km/h",
                               rounded(average_of(own(heart)), 0) + " bpm", "%d bpm" % max(it[1] for it in own(heart)),
                               rounded(average_of(own(power)), 0) + " W"])
            yield "laps", differs(first["laps"], wanted)
            yield "colours", differs(colours, [8, 8, 1])
            yield "marks of the axis", differs(marks, [True, zone])
        return judge

    cursors = "[document.querySelectorAll('.cursor:not([hidden])').length, document.querySelector('.here').hidden]"
    begins = "[%s].map(t => new Date((t + 631065600) * 1000).toLocaleTimeString('en-US'))" % ", ".join(str(it["start_time"]) for it in laps)
    colours = """['speed', 'heart', 'plain'].map(it => {
        const choice = document.getElementById('colour');
        choice.value = it;
        choice.dispatchEvent(new Event('change'));
        return document.querySelectorAll('.map path').length - 1;
      })"""
    marks = """[[...document.querySelectorAll('.chart')].every(it => [...it.querySelectorAll('.time')].length >= 3
      && /^\\d+:\\d[05] AM$/.test(it.querySelector('.time').innerText)), document.querySelector('.zone').innerText]"""
    for window, (zone, shown) in itertools.product(WINDOWS, (("UTC", "UTC"), ("Europe/Berlin", "GMT+1"))):
        touch = "touchAt" if WINDOWS[window].get("touch") else "point"
        steps = [{"files": both(where)}, {touch: [".plot", 60]}, {touch: [".chart:last-child .plot", 10]}, {touch: [".map .begin"]},
                 {"evaluate": "document.getElementById('moment').focus()"}, {"keys": ["End"]}, *({"evaluate": it} for it in (
                     cursors, "document.getElementById('moment').ariaValueText", begins, colours, marks))]
        browser.visit("looking, %s, %s" % (window, shown), steps, judged(shown, touch == "touchAt"), zone=zone, **WINDOWS[window])

    # A key goes over the first pause, to the sample after it and back.
    def of_pause(shown, made):
        begin = found[0]["timestamp"]
        wanted = [str(it["timestamp"] - begin) for it in (found[750], found[749])]
        yield "a key goes to the next sample", differs(made[3::2], wanted)

    to_the_pause = """(it => {
        it.value = 749;
        it.dispatchEvent(new Event('input'));
        it.focus();
      })(document.getElementById('moment'))"""
    place = {"evaluate": "document.getElementById('moment').value"}
    steps = [{"files": both(where)}, {"evaluate": to_the_pause}, {"keys": ["ArrowRight"]}, place, {"keys": ["ArrowLeft"]}, place]
    browser.visit("over a pause by keys", steps, of_pause)

    # A ride that was cut off in its third lap: its summary is of its samples.
    (folder / "cut.fit").write_bytes(data[:len(data) * 3 // 4])
    run(fitrec, "salvage", "--plain", folder / "cut.fit", folder / "kept.fit")
    kept = rows((folder / "kept.fit").read_bytes())

    def of_cut(shown, made):
        seconds = kept[-1]["timestamp"] - kept[0]["timestamp"]
        clock = lambda n: "%d:%02d:%02d" % (n // 3600, n // 60 % 60, n % 60)
        numbers = {"Duration": clock(seconds), "Without pauses": clock(seconds - 605),
                   "Distance": rounded(kept[-1]["distance"] / 1e5, 2) + " km", "Samples": f"{len(kept):,}", "Laps": "3",
                   "Ascent": rounded(ascent_of(kept), 0) + " m"}
        yield "numbers", differs({it: shown[0]["numbers"].get(it) for it in numbers}, numbers)
        yield "laps", differs([it[0] for it in shown[0]["laps"]], ["Lap", "1", "2", "3"])
        yield "a lap that was not ended", differs([it[0] for it in shown[1]["laps"]], ["Lap", "1", "2", "3*"])

    for window in WINDOWS:
        browser.visit("a salvage, %s" % window, [{"files": [folder / "cut.fit"]}, {"click": "#rarely button"}], of_cut, **WINDOWS[window])

    # Several rides in the order of folders and names, two of them whole, and a note.
    rides = folder / "rides"
    rides.mkdir()
    for name, lines in (("a", tour(600)), ("b", RIDE), ("c", by_device(8, tour(900))), ("whole2", by_device(8, RIDE)), ("whole10", by_device(9, RIDE))):
        run(fitrec, "save", recorded(fitrec, rides / name, lines), folder / (name + ".fit"))
        (rides / name).with_suffix(".script").unlink()
    for name in ("whole10", "whole2"):
        shutil.rmtree(rides / name)
        shutil.copy(folder / (name + ".fit"), rides)
    (rides / "notes.txt").write_text("notes")

    def of_several(shown, made):
        yield "the list", differs(shown[0]["listHeading"], "5 activities: 3 rescued and 2 fine")
        yield "its rides", differs([(it[0], it[4]) for it in shown[0]["list"]], [
            *(("rides/whole%d.fit" % it, FINE) for it in (2, 10)),
            *(("rides/%s/activity.fit" % it, RESCUED) for it in "abc")])
        with zipfile.ZipFile(made[1]) as them:
            wanted = {name: (folder / it).read_bytes() for name, it in (
                ("2024-11-08-ride.fit", "a.fit"), ("2021-09-08-ride.fit", "b.fit"), ("2024-11-08-ride-2.fit", "c.fit"))}
            yield "all in one file", differs({it: them.read(it) for it in them.namelist()}, wanted)
        last = shown[2]
        yield "one of them", differs((last["heading"], last["download"]), (RESCUED, "2021-09-08-ride.fit"))
        yield "which of them", unless(last["reason"].startswith("rides/b/activity.fit"), last["reason"], "rides/b/activity.fit")

    for window in WINDOWS:
        steps = [{"files": [rides], "drop": True}, {"download": "#saveAll"}, {"click": "#rides tbody tr:nth-child(4) button"}]
        browser.visit("several rides, %s" % window, steps, of_several, **WINDOWS[window])

    def of_one(shown, made):
        yield "what is downloaded", differs(made[1], "Download 2021-09-08-ride.fit")
        yield "its file", differs(bytes_of(pathlib.Path(made[2])), (folder / "b.fit").read_bytes())

    steps = [{"files": [*both(rides / "b"), rides / "whole2.fit"]}, {"evaluate": "document.getElementById('saveAll').innerText"},
             {"download": "#saveAll"}]
    browser.visit("one saved ride of two", steps, of_one)
    yield from browser.outcomes()
