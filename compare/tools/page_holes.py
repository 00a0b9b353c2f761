"""The page in a browser: files with holes, without a header or without a summary, and several that are chained in one."""

import itertools
import pathlib
import re
import shutil
import zipfile

from tools.checks import differs, unless
from tools.fit_files import framed
from tools.page_people import takes
from tools.page_values import (BEGIN, DISTANCE, ELAPSED, ENUM, HEART, LAT, LENGTH, LONG, MOST_HEART, TIME, TIMER, UINT16, UINT32, message)
from tools.pages import RIDE, START, ascent_of, pauses_of, recorded, rows, series_of, tour
from tools.program import NAMES, bytes_of, run
from tools.visits import DATED, FINE, LAST_LAP, MOSTLY, NOTHING, PARTLY, RESCUED, TOTALS, WIDTHS, WINDOWS

MAY_BE_WRONG = "Some values may be wrong."
# How the page tells in each language where no samples are.
SPOKEN = {"de": "Das Gerät schrieb keine Messpunkte: %s bis %s, 8", "es": "El dispositivo no escribió muestras: de %s a %s, 8",
          "fr": "L’appareil n’a écrit aucune mesure : de %s à %s, 8", "it": "Il dispositivo non ha scritto campioni: dalle %s alle %s, 8"}


def said_by(printed):
    """What the page says of bytes that are kept and left out, to whoever repairs the device, by the lines that the program prints."""
    kept, looked, parts = re.search(r"kept (\d+) of (\d+), parts (\d+)", printed).groups()
    left = re.findall(r"left out (\d+) at (\d+)", printed)
    number = lambda it: f"{int(it):,}"
    count = "in one part" if parts == "1" else "in %s parts" % parts
    places = ["%s bytes at byte %s" % (number(size), number(at)) for size, at in left[:5]]
    more = ["%d more places" % (len(left) - 5) if len(left) > 6 else "one more place"] * (len(left) > 5)
    return ["%s of %s bytes are readable, %s" % (number(kept), number(looked), count), *places, *more]


def missing_by(data, kept):
    """What the page says of samples that are missing in what is kept of a ride: from when to when, where it is more than some seconds."""
    there, found, run_of = {it["timestamp"] for it in rows(kept)}, [], []
    for it in [*rows(data), None]:
        if it is not None and it["timestamp"] not in there:
            run_of.append(it["timestamp"])
        elif run_of:
            before, after = max(t for t in there if t < run_of[0]), min((t for t in there if t > run_of[-1]), default=None)
            found += [(before, after)] if after and after - before > 10 else []
            run_of = []
    return found


def clock_of(time):
    hours, rest = divmod(time % 86400, 3600)
    return "%d:%02d:%02d %s" % (hours % 12 or 12, *divmod(rest, 60), "PM" if hours > 11 else "AM")


def length_of(seconds):
    minutes, rest = divmod(seconds, 60)
    return " ".join(["%d min" % minutes] * (minutes > 0) + ["%d sec" % rest] * (rest > 0))


def heard_by(printed):
    count = int(re.search(r"heard (\d+)", printed)[1])
    return f"{count:,} samples, laps and pauses"


def with_holes(data, places):
    """Bytes that no message fits, in place of what was there."""
    data = bytearray(data)
    for at in places:
        data[at:at + 60] = bytes(60 * [0x0F])
    return bytes(data)


def of_holes(fitrec, folder, browser):
    """What is saved around holes, without a header, and with laps and totals that were missing."""
    where = recorded(fitrec, folder / "tour", tour(900))
    run(fitrec, "save", where, folder / "whole.fit")
    whole = (folder / "whole.fit").read_bytes()
    made = lambda name, content: [(folder / name, (folder / name).write_bytes(content))[0]][0]

    def by(file, *words):
        """The file that the program makes, and what it prints."""
        to = folder / ("-".join((file.stem, "made", *words)) + ".fit")
        printed = run(fitrec, "salvage", *words, "--plain", file, to)[1]
        return bytes_of(to), printed

    def judged(heading, words, details, content, is_bare=False):
        def judge(shown, made):
            last = shown[-1]
            absent = [it for it in words if it not in last["reason"] + " " + last["next"]] + [it for it in details if it not in last["details"]]
            is_right = last["heading"] == heading and not absent
            yield "what it says", unless(is_right, (last["heading"], last["reason"], last["next"], last["details"]), (heading, absent))
            yield "the file", differs(bytes_of(pathlib.Path(made[-1])) if content else last["download"] or None, content)
            if content:
                yield "samples", differs(last["numbers"].get("Samples", "0"), f"{len(rows(content)):,}")
                # A lap that was not ended is shown too.
                yield "laps", differs(last["numbers"].get("Laps", "0"), str(len(rows(content, 19)) + is_bare))
        return judge

    hole, holes = made("hole.fit", with_holes(whole, [9000])), made("holes.fit", with_holes(whole, (3000, 9000, 10500, 12000, 13500, 16000, 19000, 20500)))
    large = made("large.fit", whole[:5000] + bytes(4000) + whole[9000:15000] + bytes(3000) + whole[18000:])
    two = made("two.fit", with_holes(whole[:9000] + bytes(4000) + whole[13000:], [16500, 20000]))
    # A checksum that begins as no message does would hide the last one.
    bare = made("bare.fit", whole[14:-2] + bytes(2))
    torn = made("torn.fit", bytes(14) + whole[14:-400])
    cut = made("cut.fit", by(made("short.fit", whole[:len(whole) // 2]))[0])
    parts = [(made("most.fit", whole[:len(whole) * 3 // 5]), MOSTLY), (made("part.fit", whole[:len(whole) * 2 // 5]), PARTLY)]
    # The laps of the rider are there up to the last one.
    take = {"download": "#save"}
    for window in WINDOWS:
        def visit(name, file, *wanted, steps=()):
            taken = [take] if wanted[3] else []
            browser.visit("%s, %s" % (name, window), [{"files": [file]}, *steps, *taken], judged(*wanted, bool(steps)), **WINDOWS[window])

        little = "A few seconds of it are missing at most."
        kept, printed = by(hole, "--skip")
        visit("a hole", hole, RESCUED, [little, MAY_BE_WRONG], said_by(printed), kept)
        kept, printed = by(holes, "--skip")
        visit("many holes", holes, RESCUED, ["A few seconds of it are missing in %d places." % printed.count("left out"), MAY_BE_WRONG], said_by(printed), kept)
        kept, printed = by(two, "--skip")
        visit("a large hole and a small one", two, MOSTLY, ["; a little in %d more places." % (printed.count("left out") - 1)], said_by(printed), kept)
        kept, printed = by(large, "--skip")
        lost = lambda a, b: b - a - sum(to - since for since, to in pauses_of(whole) if a <= since and to <= b)
        missing = [(a, b, b - a - lost(a, b)) for a, b in missing_by(whole, kept)]
        gaps = ["%s to %s, %s (" % (clock_of(a), clock_of(b), length_of(b - a)) for a, b, _ in missing]
        gaps += ["km), of which %s were a pause" % length_of(paused) for *_, paused in missing if paused]
        visit("two large holes", large, MOSTLY, [*gaps, MAY_BE_WRONG], said_by(printed), kept)
        yield "two large holes: what is missing", differs((len(missing), len(gaps)), (2, 3))
        kept, printed = by(bare, "--skip")
        visit("no header", bare, RESCUED, ["The file is damaged, but all of it could be read."], ["begins with no FIT header.", *said_by(printed)],
              kept)
        kept, printed = by(torn, "--skip", "--finish")
        visit("a damaged header and no end", torn, RESCUED, [LAST_LAP], [*said_by(printed), heard_by(printed)], kept)
        kept, printed = by(torn, "--skip")
        visit("that without laps and totals", torn, RESCUED, ["The file is damaged, but all of it could be read."], said_by(printed), kept, steps=[{"click": "#rarely button"}])
        kept, printed = by(cut, "--finish")
        visit("a summary is added", cut, RESCUED, [LAST_LAP], [heard_by(printed)], kept)
        for file, heading in parts:
            kept, printed = by(file, "--finish")
            goes = "It goes to %s." % clock_of(rows(kept)[-1]["timestamp"])
            visit(file.name, file, heading, ["The file was cut off. " + goes], [], kept)
    empty = by(recorded(fitrec, folder / "empty", [RIDE[0], "commit"]) / NAMES[0])[0]
    browser.visit("no sample for a summary", [{"files": [made("unheard.fit", empty)]}],
                  judged("Nothing was recorded", ["had not recorded anything yet"], ["No record has a time that fits"], None))
    for name, content, says in (("picture", b"\x89PNG\r\n\x1a\n" + bytes(range(256)) * 40, ["is not a FIT file", "Copy it from the device once more. If it is the same there"]),
                                ("noise", bytes(range(256)) * 40, ["does not begin as a FIT file", "it may tell how the rest is to be read"])):
        browser.visit("no ride at all, " + name, [{"files": [made(name + ".fit", content)]}], judged(NOTHING, says, [], None))
    yield from browser.outcomes()


def of_no_messages(fitrec, folder, browser):
    """Zeros and FF in a finished ride and behind a recording, whose bytes can be read as messages: no sample is shown that nobody recorded."""
    where = recorded(fitrec, folder / "tour", tour(900))
    run(fitrec, "save", where, folder / "whole.fit")
    whole, recording = (folder / "whole.fit").read_bytes(), (where / NAMES[0]).read_bytes()
    real = rows(whole)

    def judged(size, kept, printed):
        def judge(shown, made):
            last, content = shown[-1], bytes_of(pathlib.Path(made[-1]))
            absent = [it for it in said_by(printed) if it not in last["details"]]
            is_right = last["heading"] in (RESCUED, MOSTLY) and not absent
            yield "what it says", unless(is_right, (last["heading"], last["details"]), said_by(printed))
            yield "no other word", unless("made up" not in last["reason"], last["reason"], "nothing on what was made up")
            yield "the file", differs(content, kept)
            foreign, lost = [it for it in rows(content) if it not in real], len(real) - len(rows(content))
            # A record that a hole only touches may stay. A record of this ride has 26 bytes.
            yield "its samples", unless(len(foreign) <= 2 and lost <= size // 26 + 3, (foreign[:3], lost), "samples of the ride")
            yield "their number", differs(last["numbers"]["Samples"], f"{len(rows(content)):,}")
            metres = int(last["numbers"]["Ascent"].replace(",", "")[:-2])
            yield "the ascent", unless(metres <= ascent_of(real) + 1, metres, "at most %d" % ascent_of(real))
            for name, caption in last["captions"].items():
                numbers = [float(it.replace(",", "")) for it in re.findall(r"-?[\d,.]*\d", caption.partition(" · the device")[0])]
                values = [value for _, value in series_of(real, name)]
                is_in = min(values) - 1 <= numbers[0] and numbers[-1] <= max(values) + 1
                yield name + ": the lowest and the highest", unless(is_in, caption, (min(values), max(values)))
            speeds = [float(it[4].split(" ")[0].replace(",", "")) for it in last["laps"][1:]]
            yield "the speeds of laps", unless(max(speeds) < 100, speeds, "below 100 km/h")
        return judge

    cases = [("%d of %s in a ride" % (size, name), whole[:9000] + size * byte + whole[9000 + size:], size)
             for size in (512, 4096) for name, byte in (("zeros", b"\0"), ("FF", b"\xFF"))]
    cases += [("4096 %s after a recording" % name, recording + 4096 * byte, 0) for name, byte in (("zeros", b"\0"), ("FF", b"\xFF"))]
    for (name, content, size), window in itertools.product(cases, ("wide", "narrow and dark")):
        file, kept = folder / (name.replace(" ", "-") + ".fit"), folder / "kept.fit"
        file.write_bytes(content)
        printed = run(fitrec, "salvage", "--skip", *(["--finish"] if "recording" in name else []), "--plain", file, kept)[1]
        browser.visit("%s, %s" % (name, window), [{"files": [file]}, {"download": "#save"}], judged(size, kept.read_bytes(), printed),
                      **WINDOWS[window])

    # A beginning that was erased is lost, and a file that is cut off in its beginning is no empty recording.
    def begun(said, next_):
        def judge(shown, made):
            yield "its heading", differs(shown[0]["heading"], NOTHING)
            yield "what it says", unless(said in shown[0]["reason"], shown[0]["reason"], said)
            yield "what is next", unless(shown[0]["next"].startswith(next_), shown[0]["next"], next_)
        return judge

    cases = [("erased", 512 * b"\xFF" + recording[512:], "erased.fit does not begin as a FIT file", "Choose another activity")]
    cases += [("cut-at-%d" % at, whole[:at], "cut-at-%d.fit was cut off at its very beginning" % at, "Copy it from the device once more.")
              for at in (1, 10, 14, 100)]
    for (name, content, *said), (width, window) in itertools.product(cases, WIDTHS.items()):
        file = folder / (name + ".fit")
        file.write_bytes(content)
        browser.visit("a beginning that is %s, at %s" % (name, width), [{"files": [file]}], begun(*said), **window)
    yield from browser.outcomes()


def of_chains(fitrec, folder, browser):
    """Files that are chained in one are rides of their own, alone and among others."""
    files, kept = [], folder / "split"
    for name, lines in (("a", tour(600)), ("b", RIDE)):
        run(fitrec, "save", recorded(fitrec, folder / name, lines), folder / (name + ".fit"))
        files.append((folder / (name + ".fit")).read_bytes())
    chain = folder / "chain.fit"
    chain.write_bytes(b"".join(files) + files[1][:3000])
    kept.mkdir()
    run(fitrec, "split", chain, kept)
    end = folder / "end.fit"
    run(fitrec, "salvage", "--finish", "--plain", kept / "3.fit", end)
    wanted = {"2024-11-08-ride.fit": (kept / "1.fit").read_bytes(), "2021-09-08-ride.fit": (kept / "2.fit").read_bytes(),
              "2021-09-08-ride-2.fit": end.read_bytes()}
    states = [("chain.fit (%d of 3)" % at, it) for at, it in enumerate((FINE, FINE, PARTLY), 1)]

    def of_one(shown, made):
        yield "the list", differs(shown[0]["listHeading"], "3 activities: 1 rescued and 2 fine")
        yield "its rides", differs([(it[0], it[4]) for it in shown[0]["list"]], states)
        with zipfile.ZipFile(made[1]) as them:
            yield "all in one file", differs({it: them.read(it) for it in them.namelist()}, wanted)
        last = shown[-1]
        yield "one of them", differs((last["heading"], last["download"], last["numbers"]["Samples"]),
                                     (FINE, "2021-09-08-ride.fit", f"{len(rows(files[1])):,}"))
        yield "why", unless("part of a larger file" in last["reason"], last["reason"], "part of a larger file")
        yield "its file", differs(bytes_of(pathlib.Path(made[-1])), (kept / "2.fit").read_bytes())

    for window in WINDOWS:
        steps = [{"files": [chain]}, {"download": "#saveAll"}, {"click": "#rides tbody tr:nth-child(2) button"}, {"download": "#save"}]
        browser.visit("a chain, %s" % window, steps, of_one, **WINDOWS[window])
    shutil.copy(folder / "a.fit", folder / "other.fit")

    def of_others(shown, made):
        yield "its rides", differs([(it[0], it[4]) for it in shown[0]["list"]], [*states, ("other.fit", FINE)])

    browser.visit("a chain and another file", [{"files": [chain, folder / "other.fit"]}], of_others)
    yield from browser.outcomes()


def of_ends_and_pauses(fitrec, folder, browser):
    """What is missing: after a hole whose length short times do not tell, at an end that is lost or blank, without pauses; what follows an end, and
    what a damaged file had."""
    where = recorded(fitrec, folder / "tour", tour(900))
    run(fitrec, "save", where, folder / "whole.fit")
    whole, data = (folder / "whole.fit").read_bytes(), (where / NAMES[0]).read_bytes()
    path = folder / "damaged.fit"

    def kept(content):
        """The samples that the program keeps."""
        path.write_bytes(content)
        run(fitrec, "salvage", "--skip", "--plain", path, folder / "kept.fit")
        return rows((folder / "kept.fit").read_bytes())

    def visit(name, content, heading, lead, *more, absent="made up", offers=(), file="ride.fit"):
        def judge(shown, made):
            it, said = shown[-1], shown[-1]["reason"] + " " + shown[-1]["next"]
            yield "its heading", differs(it["heading"], heading)
            yield "what is read first", unless(re.match(lead, said), said, lead)
            yield "what else is said", differs([own for own in more if own not in said], [])
            yield "what is not said", unless(absent not in said, said, "not " + absent)
            yield "offers", differs(it["offers"], list(offers))

        here = folder / re.sub(r"\W+", "-", name)
        here.mkdir()
        (here / file).write_bytes(content)
        browser.visit(name, [{"files": [here / file]}], judge)

    # So many samples are lost, and the times after them begin anew within 32 seconds: a later one that is stated in full tells them.
    holed = data[:9000] + bytes(4096) + data[13096:]
    lost, last = len(rows(whole)) - len(kept(holed)), rows(whole)[len(kept(data[:9000])) - 1]["timestamp"]
    following = rows(whole)[len(kept(data[:9000])) + lost]["timestamp"]
    exact = r"Missing: %s to %s, %s \(\d\.\d\d km\)\." % (clock_of(last), clock_of(following), length_of(following - last))
    visit("a hole before short times", holed, MOSTLY, exact, "choose it too", absent="too early")
    small = data[:9000] + bytes(100) + data[9100:]
    visit("a small hole before short times", small, RESCUED, "A few seconds of it are missing at most", absent="too early")
    # Zeros and FF up to the full length, also where they complete a sample.
    for at, byte in itertools.product(range(9000, 9030, 5), (0, 255)):
        content = whole[:at] + bytes([byte]) * (len(whole) - at)
        # A sample of which the time alone is left is lost too.
        after = "Missing: what came after %s\\." % clock_of([it for it in kept(content) if "distance" in it][-1]["timestamp"])
        visit("%d at the end from %d on" % (byte, at), content, PARTLY, after, "The file is damaged.", absent="all of it could be read")
    hole_and_end = whole[:9000] + bytes(3000) + whole[12000:18000]
    end = "Missing: .*; what came after %s\\." % clock_of(kept(hole_and_end)[-1]["timestamp"])
    visit("a hole and a cut end", hole_and_end, MOSTLY, end)
    # A pause of ten minutes just before a hole, and just after it.
    samples = lambda *of: b"".join(message(20, {TIME: START + at, HEART: 120}) for at in range(*of))
    event = lambda at, kind: message(21, {TIME: START + at, (0, ENUM): 0, (1, ENUM): kind})
    begin, stopped = message(0, {(0, ENUM): 4, (4, UINT32): START}), event(299, 4) + event(900, 0)
    # The hole begins within a sample, of which the header and a part of the time are left.
    cut = samples(1)[:-4] + bytes([15]) * 2000
    front, between, rest = begin + samples(300), cut, samples(1000, 1400)
    visit("a pause before a hole", framed(front + stopped + between + rest), "Most of your activity is rescued",
          "Missing: %s to %s, 1 min 40 sec\\." % (clock_of(START + 900), clock_of(START + 1000)))
    visit("a pause after a hole", framed(begin + samples(200) + between + stopped + samples(900, 1400)), "Most of your activity is rescued",
          "Missing: %s to %s, 1 min 40 sec\\." % (clock_of(START + 199), clock_of(START + 299)))
    # What follows goes on with the ride, or is a file of its own.
    lengthened = whole[:4] + (len(whole) - 4016).to_bytes(4, "little") + whole[8:]
    visit("a length that is too short", lengthened, RESCUED, "The file is damaged, but all of it could be read", absent="After its end")
    run(fitrec, "save", recorded(fitrec, folder / "other", RIDE), folder / "other.fit")
    both = folder / "both.fit"
    both.write_bytes(whole[:9000] + (folder / "other.fit").read_bytes())

    def of_both(shown, made):
        yield "its rides", differs([(it[0], it[4]) for it in shown[0]["list"]], [("both.fit (1 of 2)", PARTLY), ("both.fit (2 of 2)", FINE)])

    browser.visit("a whole file behind one that was cut off", [{"files": [both]}], of_both)
    # The definition of the samples is one of events.
    visit("no samples", whole.replace(b"\0\0\x14\0", b"\0\0\x15\0"), TOTALS % "ride", "It has only totals", absent="all of it could be read")
    # What it lacks, and whose it is.
    lap = message(19, {TIME: START + 299, (2, UINT32): START, (7, UINT32): 299000, (8, UINT32): 299000})
    visit("laps and no totals", framed(front + lap), "Your activity is rescued", ".*The totals were missing\\.", absent="lap")
    unfinished = bytes([14, 16, 100, 0, 0, 0, 0, 0]) + b".FIT\0\0" + front
    visit("another maker's recording", unfinished, "Your activity is rescued", "The device stopped", absent="activity.frj")
    visit("another maker's activity.fit", unfinished, "Your activity is rescued", "The device stopped", "If activity.frj is in", file="activity.fit")
    visit("our recording under another name", data, RESCUED, "The device stopped", "If activity.frj is in")
    yield from browser.outcomes()


def of_silences(fitrec, folder, browser):
    """Where no sample came though the timer ran is told, of a file in which nothing else is missing. A pause is none, nor is what is usual."""
    begin = message(0, {(0, ENUM): 4, (4, UINT32): START})
    sample = lambda at: message(20, {TIME: START + at, HEART: 120 + at % 9})
    event = lambda at, kind: message(21, {TIME: START + at, (0, ENUM): 0, (1, ENUM): kind})
    close = lambda at, kind: message(kind, {TIME: START + at, BEGIN: START, ELAPSED: 1000 * at, TIMER: 1000 * at})
    of = lambda parts: begin + b"".join(it if isinstance(it, bytes) else b"".join(map(sample, it)) for it in parts)

    def whole(*parts):
        last = parts[-1][-1]
        return framed(of(parts) + close(last, 19) + close(last, 18) + message(34, {TIME: START + last, (1, UINT16): 1}))

    def says(*gaps, more=""):
        """What is said of gaps, each from one second of the ride to another."""
        named = ["%s to %s, %s" % (clock_of(START + a), clock_of(START + b), length_of(b - a)) for a, b in gaps]
        return "The device wrote no samples: %s." % "; ".join([*named, *[more] * bool(more)])

    smart = lambda begin, end: range(begin, end, 7)
    places = [(299, 390), (699, 830), (1099, 1180), (1599, 1730)]
    several = lambda count: [range(a, b + 1) for a, b in zip([0, *(to for _, to in places[:count])], [*(since for since, _ in places[:count]), 2200])]
    cases = {
        "eight minutes": (whole(range(600), range(1080, 1800)), says((599, 1080))),
        "a minute": (whole(range(600), range(659, 1800)), says((599, 659))),
        "less than a minute": (whole(range(600), range(658, 1800)), None),
        "a minute of a sample each seven seconds": (whole(smart(0, 602), smart(665, 1800)), None),
        "two minutes of a sample each seven seconds": (whole(smart(0, 602), smart(728, 1800)), says((595, 728))),
        "a pause": (whole(range(600), event(599, 4), event(1080, 0), range(1080, 1800)), None),
        "a pause that no start ends": (whole(range(600), event(599, 4), range(1080, 1800)), None),
        "a pause, and some minutes": (whole(range(600), event(599, 4), event(700, 0), range(700, 900), range(1080, 1800)), says((899, 1080))),
        "three places": (whole(*several(3)), says(*places[:3])),
        "four places": (whole(*several(4)), says(places[0], places[1], places[3], more="one more place")),
        "cut off": (framed(of([range(600), range(1080, 1800)]))[:-100], says((599, 1080))),
        "a hole": (framed(of([range(600), bytes([15]) * 2000, range(1080, 1800)])), None)}

    def judged(said):
        def judge(shown, made):
            reason = shown[0]["reason"]
            yield "what it says", unless(said is None or said in reason, reason, said)
            yield "nothing else of it", differs(reason.count("no samples"), int(said is not None))
        return judge

    for (name, (content, said)), (width, window) in itertools.product(cases.items(), WIDTHS.items()):
        file = folder / (name.replace(" ", "-").replace(",", "") + ".fit")
        file.write_bytes(content)
        browser.visit("%s, at %s" % (name, width), [{"files": [file]}], judged(said), **window)
    # By days, where it is more than one.
    file = folder / "days.fit"
    file.write_bytes(whole(range(600), range(2 * 86400, 2 * 86400 + 600)))
    days = "The device wrote no samples: November 8, 2024 at 8:09 AM UTC to November 10, 2024 at 8:00 AM UTC, 47 hr 50 min."
    for width, window in WIDTHS.items():
        browser.visit("two days, at %s" % width, [{"files": [file]}], judged(days), **window)
    # In each language.
    of_language = lambda says: lambda shown, made: [("what it says", unless(says in made[2], made[2], says))]
    said = {"evaluate": "document.getElementById('reason').innerText"}
    for (language, spoken), (width, window) in itertools.product(SPOKEN.items(), WIDTHS.items()):
        browser.visit("%s, at %s" % (language, width), [{"files": [folder / "eight-minutes.fit"]}, takes("language", language), said,
                                                        takes("language", "en")],
                      of_language(spoken % ("08:09:59", "08:18:00")), **window)
    # A recording of both files: a pause, and four minutes without a sample.
    torn = recorded(fitrec, folder / "torn", tour(900))
    run(fitrec, "save", torn, folder / "torn.fit")
    times, pauses = [it["timestamp"] for it in rows(bytes_of(folder / "torn.fit"))], pauses_of(bytes_of(folder / "torn.fit"))
    gaps = [(a - START, b - START) for a, b in itertools.pairwise(times) if b - a >= 60 and not any(a < to and b > since for since, to in pauses)]
    yield "the places of a recording", differs(len(gaps), 1)
    for width, window in WIDTHS.items():
        browser.visit("a recording, at %s" % width, [{"files": [torn / it for it in NAMES]}], judged(says(*gaps)), **window)
    yield from browser.outcomes()


def of_unread_ends(fitrec, folder, browser):
    """Where a layout that changes on the way is lost, the ride does not end there: how much of the file follows and cannot be read is told."""
    begin, number = message(0, {(0, ENUM): 4, (4, UINT32): START}), lambda n: n.to_bytes(4, "little")
    layout = lambda *fields: b"\x40\0\0\x14\0" + bytes([len(fields)]) + b"".join(map(bytes, fields))
    time, heart, way, watts = (253, 4, 0x86), (3, 1, 2), (5, 4, 0x86), (7, 2, 0x84)
    first = lambda at: b"\0" + number(START + at) + bytes([120 + at % 9]) + number(700 * at)
    then = lambda at: b"\0" + number(560000000 + 500 * at) + number(100000000 + 500 * at) + (400 + at % 100).to_bytes(2, "little") + first(at)[1:]
    change = layout((0, 4, 0x85), (1, 4, 0x85), watts, time, heart, way)
    closing = lambda kind: message(kind, {TIME: START + 3600, BEGIN: START, ELAPSED: 3_600_000, TIMER: 3_600_000, LENGTH: 700 * 3600})
    end = closing(19) + closing(18) + message(34, {TIME: START + 3600, (1, UINT16): 1})
    opened = lambda records: bytes([14, 0x10, 100, 0, 0, 0, 0, 0]) + b".FIT\0\0" + records
    stopped, was_damaged = "The device stopped before it could close the recording.", "The file is damaged."

    def visit(name, files, lead, *more, absent="It goes to"):
        here = folder / re.sub(r"\W+", "-", name)
        here.mkdir()
        for file, content in files.items():
            (here / file).write_bytes(content)

        def judge(shown, made):
            said = shown[0]["reason"] + " " + shown[0]["next"]
            yield "what is read first", unless(said.startswith(lead), said, lead)
            yield "what else is said", differs([own for own in more if own not in said], [])
            yield "what is not said", unless(absent not in said, said, "not " + absent)

        for width, window in WIDTHS.items():
            browser.visit("%s, at %s" % (name, width), [{"files": [here / it for it in files]}], judge, **window)

    for name, count in (("half", 1800), ("late", 3000)):
        front = begin + layout(time, heart, way) + b"".join(map(first, range(count)))
        rest = b"".join(map(then, range(count, 3600)))
        # The last sample before it is left out too, since a hole may begin in it.
        lost = lambda file, left: "Missing: what follows after %s and cannot be read (%d%% of the file)." % (
            clock_of(START + count - 2), -(-100 * left // len(file)))
        hole, at = bytes([15]) * len(change), 14 + len(front)
        whole = framed(front + change + rest + end)
        damaged, left = whole[:at] + hole + whole[at + len(hole):], len(hole + rest)
        visit(name, {"ride.fit": damaged}, lost(damaged, left), was_damaged)
        visit(name + ", cut off", {"ride.fit": damaged[:-9000]}, lost(damaged[:-9000], left + len(end) + 2 - 9000), was_damaged)
        gone = whole[:at] + whole[at + len(hole):]
        visit(name + ", gone", {"ride.fit": gone}, lost(gone, len(rest)), was_damaged)
        recording = opened(front + hole + rest)
        visit(name + ", not closed", {"ride.fit": recording}, lost(recording, left), stopped)
        visit(name + ", with a journal of zeros", {"activity.fit": recording, "activity.frj": bytes(64)}, lost(recording, left),
              "activity.frj is damaged.")
        # Room that was never written is no part of the ride.
        roomy = recording + bytes(30000)
        visit(name + ", not closed, with room", {"ride.fit": roomy}, lost(roomy, left), stopped)
        visit(name + ", with room", {"ride.fit": opened(front + first(count)[:6] + bytes(len(rest)))},
              stopped + " It goes to %s." % clock_of(START + count - 1), absent="cannot be read")
    # Nor is room that was erased, which the length may be too.
    erased = opened(begin + layout(time, heart, way) + b"".join(map(first, range(900))))
    visit("erased room", {"ride.fit": erased[:4] + b"\xFF" * 4 + erased[8:] + b"\xFF" * 4096}, stopped + " It goes to %s." % clock_of(START + 899),
          absent="Missing")
    yield from browser.outcomes()


def of_what_is_lost(fitrec, folder, browser):
    """What comes after a clock that went back, a beginning that another file tells how to read, totals alone, and laps, values and pauses in a
    hole."""
    begin = message(0, {(0, ENUM): 4, (4, UINT32): START})
    layout = b"\x40\0\0\x14\0\3" + bytes([253, 4, 0x86, 3, 1, 2, 5, 4, 0x86])
    number = lambda n: n.to_bytes(4, "little")

    def samples(*of, back=0):
        return layout + b"".join(b"\0" + number(START + at - back) + bytes([120 + at % 9]) + number(700 * at) for at in range(*of))

    def lap(number, first, last, kind=19, **more):
        own = {(254, UINT16): number, TIME: START + last, BEGIN: START + first, ELAPSED: 1000 * (last - first), LENGTH: 700 * (last - first)}
        return message(kind, own | {TIMER: 1000 * (last - first - more.pop("paused", 0))} | more.pop("fields", {}))

    ending = lambda end, **more: lap(0, 0, end, 18, **more) + message(34, {TIME: START + end, (1, UINT16): 1})
    wrong = lambda content: content[:-1] + bytes([content[-1] ^ 0x55])
    opened = lambda records: bytes([14, 0x10, 100, 0, 0, 0, 0, 0]) + b".FIT\0\0" + records

    def visit(name, files, steps, *wanted):
        """Files by their names, and for each answer its heading, the beginning of what is read first, what else is said, and samples."""
        here = folder / re.sub(r"\W+", "-", name)
        here.mkdir()
        for file, content in files.items():
            (here / file).write_bytes(content)

        def judge(shown, made):
            for it, (heading, lead, more, absent, count) in zip([it for it in shown if it], wanted, strict=True):
                said = it["reason"] + " " + it["next"]
                yield "its heading", None if heading is ... else differs(it["heading"], heading)
                yield "what is read first", unless(said.startswith(lead), said, lead)
                yield "what else is said", differs([own for own in more if own not in said], [])
                yield "what is not said", differs([own for own in absent if own in said], [])
                if count is not ...:
                    yield "its samples", differs(it["numbers"].get("Samples"), None if count is None else f"{count:,}")

        browser.visit(name, [{"files": [here / it for it in step]} if isinstance(step, tuple) else {"click": step} for step in steps], judge)

    # The clock goes back by an hour, three days and seven minutes, and the distance goes on: it was set there.
    one, whole, mostly, partly = ("ride.fit",), *(it % "activity is rescued" for it in ("Your %s", "Most of your %s", "Part of your %s"))
    left_of = lambda content: len(rows(_skipped(fitrec, folder, content)))
    says_of = lambda back: ("The clock of the device was wrong for 16 min 40 sec from %s on. Those times are moved to fit the others."
                            % clock_of(START - back))
    for name, back in (("an hour", 3600), ("three days", 3 * 86400), ("minutes", 400)):
        part, says = begin + samples(1000) + samples(1000, 1800, back=back), says_of(back)
        for kind, content, lead in (("a wrong checksum", wrong(framed(part + lap(0, 0, 1800) + ending(1800))), "The file is damaged, but all of it"),
                                    ("no end", framed(part)[:-2], says),
                                    ("not closed", opened(part), "The device stopped before it could close the recording.")):
            visit("a clock that goes back by %s, %s" % (name, kind), {"ride.fit": content}, [one], (whole, lead, [says], ["left out"], 1800))
    both_times = bytearray(opened(begin + samples(1000) + samples(1000, 1800, back=400)))
    both_times[2000:2030] = bytes([15]) * 30
    visit("a clock that goes back, and a small hole", {"ride.fit": both_times}, [one], (whole, "A few seconds", ["to fit the others"], [], ...))
    says = says_of(3600)
    finished = lambda more: framed(begin + samples(1000) + more + lap(0, 0, 1800) + ending(1800))
    visit("a whole file whose times go back", {"ride.fit": finished(samples(1000, 1800, back=3600))}, [one],
          ("The times of your activity are corrected", says, [], ["It is complete and undamaged"], 1800))
    visit("a whole file of two rides", {"ride.fit": finished(samples(5000, 5800, back=90000))}, [one],
          (DATED, "After %s its times go back" % clock_of(START + 999), [], ["nothing needs"], 1800))
    # A clock that may have been set by two days is not moved unasked.
    visit("two days later", {"ride.fit": finished(samples(1000, 1800, back=-2 * 86400))}, [one],
          (FINE, "It is complete", ["leaps ahead by about 48 hr"], ["to fit the others"], 1800))
    older = begin + samples(1000) + samples(5000, 5800, back=90000)
    says = "What follows after %s has earlier times, and is left out" % clock_of(START + 999)
    visit("older samples after the end", {"ride.fit": opened(older)}, [one, "#offers button", "#offers button"],
          (mostly, says, [], ["wrong for"], 1000), (partly, "This is the part that was left out.", ["Its totals are those of the part"], [], 800),
          (mostly, says, [], [], 1000))

    # Bytes of a ride of days later, which were there before.
    later = begin + samples(1000) + bytes([15]) * 40 + samples(5000, 5800, back=-2 * 86400)
    says = "What follows after %s begins days later, and is left out" % clock_of(START + 998)
    visit("samples of days later after the end", {"ride.fit": opened(later)}, [one, "#offers button", "#offers button"],
          (mostly, says, [], ["What comes from"], 999), (partly, "This is the part that was left out.", [], [], 800),
          (mostly, says, [], [], 999))

    def of_part(shown, made):
        yield "its distance", differs([it["numbers"]["Distance"] for it in shown], ["6.99 km", "5.59 km"])
        yield "in its file", differs([it["distance"] for it in rows(bytes_of(pathlib.Path(made[2])))], [700 * at for at in range(800)])

    steps = [{"files": [folder / "older-samples-after-the-end/ride.fit"]}, {"click": "#offers button"}]
    browser.visit("the distance of a part", [*steps, {"download": "#save"}], lambda shown, made: of_part(shown[:2], made))

    # A beginning that is lost, with another file of the device, of another one, and in one choice.
    files = {}
    for name, lines in (("whole.fit", tour(900)), ("like.fit", tour(600, START + 40 * 86400, 8.9))):
        run(fitrec, "save", recorded(fitrec, folder / name.replace(".", "-"), lines), folder / name)
        files[name] = (folder / name).read_bytes()
    front = files["whole.fit"][4096:]
    (folder / "front.fit").write_bytes(front)
    run(fitrec, "salvage", "--skip", "--like", folder / "like.fit", "--finish", "--plain", folder / "front.fit", folder / "kept.fit")
    left = rows((folder / "kept.fit").read_bytes())
    (folder / "middle.fit").write_bytes(front[:-4000])
    run(fitrec, "salvage", "--skip", "--like", folder / "like.fit", folder / "middle.fit", folder / "middle-kept.fit")
    first = "Missing: %s to %s, %s (" % (clock_of(START), clock_of(left[0]["timestamp"]), length_of(left[0]["timestamp"] - START))
    asks = "Choose another activity of the same device too"
    lost = TOTALS % "ride", "It has only totals", [asks, "2 laps are missing."], ["all of it could be read"], 0
    read = MOSTLY, first, ["It could be read with the help of like.fit."], [asks], len(left)
    other = framed(begin + samples(300) + lap(0, 0, 300) + ending(300))
    visit("no beginning, and another file", {"ride.fit": front, "like.fit": files["like.fit"]}, [one, ("like.fit",)], lost, read)
    visit("no beginning, and a file that does not help", {"ride.fit": front, "other.fit": other}, [one, ("other.fit",)], lost,
          (FINE, "It is complete", ["other.fit did not help to read ride.fit."], [], 300))
    card = {"activity.fit": bytes(4096) + (folder / "like-fit" / NAMES[0]).read_bytes()[4096:],
            "activity.frj": (folder / "like-fit" / NAMES[1]).read_bytes()}
    visit("no beginning, with its journal", card, [("activity.fit", "activity.frj")], (mostly, "Missing: what came before ", [], [asks], ...))
    visit("neither beginning nor end", {"ride.fit": front[:-4000], "like.fit": files["like.fit"]}, [one, ("like.fit",)],
          (NOTHING, "ride.fit does not begin as a FIT file, and nothing in it can be read.", [asks], [], None),
          (mostly, "Missing: what came before", ["with the help of like.fit"], [], len(rows((folder / "middle-kept.fit").read_bytes()))))

    def of_list(shown, made):
        yield "its rides", differs([(it[0], it[4]) for it in shown[0]["list"]], [("front.fit", MOSTLY), ("like.fit", FINE)])

    browser.visit("no beginning, among others", [{"files": [folder / "front.fit", folder / "like.fit"]}], of_list)
    # The other file has the same layouts under other local numbers, and laps and totals are there without any.
    under = lambda local, number, fields: bytes([0x40 | local, 0, 0, number, 0, len(fields)]) + b"".join(bytes([field, 4, 0x86]) for field in fields)

    def numbered(record, event, first, count):
        row = lambda at: bytes([record]) + number(first + at) + number(700 * at)
        stop = bytes([event]) + number(first + count // 2) + number(0) + number(4)
        rest = [row(at) for at in range(count)]
        body = begin + under(record, 20, [253, 5]) + under(event, 21, [253, 3, 2]) + b"".join([*rest[:count // 2], stop, *rest[count // 2:]])
        return body + message(19, {(254, UINT16): 0, TIME: first + count, BEGIN: first, ELAPSED: 1000 * count, LENGTH: 700 * count}) \
            + message(18, {TIME: first + count, BEGIN: first, ELAPSED: 1000 * count, LENGTH: 700 * count}) + message(34, {TIME: first + count})

    # From sample 27 on they are whole. The one before the stop, whose layout is sought anew, is left out.
    torn, like = framed(numbered(3, 4, START, 1800))[300:], framed(numbered(6, 3, START - 86400, 900))
    visit("no beginning, and other local numbers", {"ride.fit": torn, "like.fit": like}, [one, ("like.fit",)],
          (TOTALS % "activity", "It has only totals", [asks], [], 0), (mostly, "Missing: ", ["with the help of like.fit"], [asks], 1772))
    # It has layouts of which nothing is in what is left.
    unused = under(7, 140, [253, 5, 6, 7, 8]) + b"\7" + b"".join(number(n) for n in (START - 86000, 1, 2, 3, 4))
    more = framed(numbered(6, 3, START - 86400, 900) + unused)
    visit("no beginning, and layouts that are not used", {"ride.fit": torn, "like.fit": more},
          [one, ("like.fit",)], (TOTALS % "activity", "It has only totals", [asks], [], 0),
          (mostly, "Missing: %s to %s, 27 sec (" % (clock_of(START), clock_of(START + 27)), ["with the help of like.fit"], ["after"], 1772))
    # Totals behind a hole that is larger than what is searched for more. The last sample ends in a zero, and is left out with the zeros.
    hidden = wrong(framed(begin + samples(20) + bytes(70000) + lap(0, 0, 1800) + ending(1800)))
    visit("totals behind a large hole", {"ride.fit": hidden}, [one],
          (partly, "Missing: what came after %s" % clock_of(START + 18), ["The file is damaged."], ["have been added"], 19))
    # The layout of the samples is damaged: laps and totals are there.
    content = framed(begin + samples(1800) + lap(0, 0, 900) + lap(1, 900, 1800) + ending(1800))
    for name, at, byte in (("its size", 7, 9), ("its fields", 5, 9), ("its kind", 3, 23)):
        damaged = bytearray(content)
        damaged[content.index(layout) + at] = byte
        totals = TOTALS % "activity", "It has only totals", [], [], 0
        visit("a layout that is damaged in %s" % name, {"ride.fit": damaged}, [one], totals)
        if at != 3:
            visit("another file with a layout that is damaged in %s" % name, {"ride.fit": damaged, "other.fit": other}, [one, ("other.fit",)],
                  totals, (whole, "A few seconds of it are missing at most.", ["with the help of other.fit"], [asks], 1800))

    # Laps, and positions, that a hole takes, by what the session counted.
    laps = [lap(k, 300 * k, 300 * k + 300) for k in range(6)]
    body = begin + b"".join(samples(300 * k, 300 * k + 300) + it for k, it in enumerate(laps))
    counted = framed(body + ending(1800, fields={(26, UINT16): 6, MOST_HEART: 128}))
    for many, said in ((1, "One lap is missing."), (3, "3 laps are missing.")):
        start, end = counted.index(laps[1]) - 40, counted.index(laps[many]) + 40
        hole = counted[:start] + bytes([15]) * (end - start) + counted[end:]
        visit("a hole with %d laps" % many, {"ride.fit": hole}, [one], (mostly if many > 1 else whole, "", [said], ["Nothing is left"], left_of(hole)))
    # Where the session is lost too, the numbers of the other laps tell, also of a device that counts from 1.
    def of_laps(first, since, to):
        own = [lap(k + first, 300 * k, 300 * k + 300) for k in range(6)]
        content = framed(begin + b"".join(samples(300 * k, 300 * k + 300) + it for k, it in enumerate(own)))
        start, end = content.index(own[since]) - 40, content.index(own[to]) - 40 if to < 6 else len(content) - 40
        return content[:start] + bytes([15]) * (end - start) + content[end:]

    between = framed(begin + b"".join(samples(300 * k, 300 * k + 300) + lap(k + 1, 300 * k, 300 * k + 300) for k in range(6)))
    at = between.index(number(START + 450)) - 1
    for name, hole, more, absent in (("the first lap", of_laps(0, 0, 1), ["One lap is missing."], []),
                                     ("three laps", of_laps(0, 1, 4), ["3 laps are missing."], []),
                                     ("the last lap", of_laps(0, 5, 6), [], ["laps are missing", "lap is missing"]),
                                     ("a lap of those from 1 on", of_laps(1, 2, 3), ["One lap is missing."], []),
                                     ("no lap of those from 1 on", between[:at] + bytes([15]) * 900 + between[at + 900:], [],
                                      ["laps are missing", "lap is missing"])):
        visit("a hole with %s and no session" % name, {"ride.fit": hole}, [one], (..., "", more, absent, left_of(hole)))
    places = b"".join(message(20, {TIME: START + at, LAT: 500000000 + 50 * at, LONG: 100000000 + 50 * at}) for at in range(0, 60, 2))
    content = framed(begin + samples(200) + places + samples(200, 1800) + lap(0, 0, 1800) + ending(1800, fields={(3, LAT[1]): 500000000, MOST_HEART: 128}))
    at = content.index(places)
    hole = content[:at] + bytes([15]) * len(places) + content[at + len(places):]
    visit("a hole with all positions", {"ride.fit": hole}, [one],
          (whole, "A few seconds of it are missing at most.", ["Nothing is left of: Track."], ["Heart"], left_of(hole)))
    # A pause of ten minutes in a hole, which the session counts, or nothing does. And a sample of which a hole leaves the time alone.
    closing = lap(0, 0, 3000, paused=600) + ending(3000, paused=600)
    for name, end, says in (("that was counted", closing, "13 min 23 sec (1.42 km), of which 10 min were a pause."), ("that nothing counts", b"", "perhaps with a pause")):
        content = framed(begin + samples(800) + samples(800, 2400, back=-600) + end)
        start, end = content.index(number(START + 700)) - 1, content.index(number(START + 1501)) - 1
        hole = content[:start] + bytes([15]) * (end - start) + content[end:]
        lead = "Missing: %s to %s, %s" % (clock_of(START + 698), clock_of(START + 1501), says)
        visit("a pause in a hole %s" % name, {"ride.fit": hole}, [one], (mostly, lead, [], [], left_of(hole)))
    # Bytes that are gone altogether tell nothing, but the way does.
    content = framed(begin + samples(1800))
    start, end = content.index(number(START + 700)) + 20, content.index(number(START + 900)) + 6
    gone = content[:start] + content[end:]
    lead = "Missing: %s to %s, 3 min 21 sec (1.41 km)" % (clock_of(START + 700), clock_of(START + 901))
    visit("a part that is gone", {"ride.fit": gone}, [one], (mostly, lead, [], ["perhaps"], left_of(gone)))
    content = framed(begin + samples(1800) + ending(1800))
    at = content.index(number(START + 500)) + 4
    torn = content[:at] + b"\xFF" * 200 + content[at + 200:]
    lead = "Missing: %s to %s, 22 sec" % (clock_of(START + 499), clock_of(START + 521))
    visit("a sample whose time alone is left", {"ride.fit": torn}, [one], (mostly, lead, [], [], left_of(torn)))
    yield from browser.outcomes()


def of_leaps(fitrec, folder, browser):
    """Values that leap are no faults: a ride that was cut off is kept whole where its first places are those of another day and none are there in
    a tunnel, or where its distance begins anew. A hole in such a ride, which may be read as samples, is none."""
    layout = b"\x40\0\0\x14\0\5" + b"".join(bytes([field, size, base]) for field, size, base in (
        (253, 4, 0x86), (0, 4, 0x85), (1, 4, 0x85), (5, 4, 0x86), (3, 1, 2)))

    def samples(count, place, way):
        number = lambda n: n.to_bytes(4, "little")
        return b"".join(b"\0" + number(START + at) + b"".join(map(number, (*place(at), way(at)))) + bytes([120 + at % 9]) for at in range(count))

    def framed_open(content):
        """A recording that was not closed: its length is not stated."""
        return bytes([14, 0x20, 100, 0, 0, 0, 0, 0]) + b".FIT" + bytes(2) + content

    moving, none, way = lambda at: (560000000 + 500 * at, 100000000 + 500 * at), (0x7FFFFFFF, 0x7FFFFFFF), lambda at: 700 * at
    stale = lambda at: (574000000, 138000000) if at < 20 else none if 1500 <= at < 1510 else moving(at)
    zeros = lambda at: (0, 0) if at < 90 else none if 1500 <= at < 2100 else moving(at)
    legs = lambda at: 700 * (at % 1200)
    begin = message(0, {(0, ENUM): 4, (4, UINT32): START})
    for name, place, of in (("a place of another day", stale, way), ("no place, and a tunnel", zeros, way), ("legs", moving, legs)):
        body = begin + layout + samples(3600, place, of)

        def judge(shown, made):
            last, kept = shown[-1], bytes_of(pathlib.Path(made[1]))
            is_right = last["heading"] == "Your activity is rescued" and "Missing" not in last["reason"]
            yield "what it says", unless(is_right, (last["heading"], last["reason"]), "all of it")
            yield "its samples", differs([(it["timestamp"], it.get("distance")) for it in rows(kept)], [(START + at, of(at)) for at in range(3599)])

        def of_a_hole(shown, made):
            times = [it["timestamp"] for it in rows(bytes_of(pathlib.Path(made[1])))]
            yield "no sample is made up", differs([it for it in times if not START <= it < START + 3600], [])
            yield "what is missing", unless("Missing" in shown[-1]["reason"], shown[-1]["reason"], "Missing")

        torn, start = framed_open(body[:-7]), len(begin) + len(layout) + 14 + 22 * 2400
        hole = torn[:start] + bytes(22 * 200) + torn[start + 22 * 200:]
        for kind, content, judged in (("cut off", torn, judge), ("with a hole", hole, of_a_hole)):
            file = folder / ("%s-%s.fit" % (name.replace(" ", "-"), kind.replace(" ", "-")))
            file.write_bytes(content)
            for window in ("wide", "narrow"):
                browser.visit("%s, %s, %s" % (name, kind, window), [{"files": [file]}, {"download": "#save"}], judged, **WINDOWS[window])
        # Each visit is judged by what stands here now.
        yield from browser.outcomes()
    totals = message(18, {TIME: START + 1200, (2, UINT32): START, (5, ENUM): 5, (7, UINT32): 1200000, (8, UINT32): 1200000, (9, UINT32): 840000})
    both = samples(2100, moving, legs)
    first, second = both[:18 * 1200], both[18 * 1200:]

    def judge_legs(shown, made):
        reason = shown[-1]["reason"]
        yield "what it says", unless("leave out 89" in reason and "very end" not in reason, reason, "the samples that are not counted")
        yield "its samples", differs([it["timestamp"] for it in rows(bytes_of(pathlib.Path(made[1])))], [START + at for at in range(2099)])

    file = folder / "leg-without-totals.fit"
    file.write_bytes(framed_open(begin + layout + first + totals + layout + second[:-7]))
    for window in ("wide", "narrow"):
        browser.visit("a leg without totals, %s" % window, [{"files": [file]}, {"download": "#save"}], judge_legs, **WINDOWS[window])
    yield from browser.outcomes()


def _skipped(fitrec, folder, content):
    """What the program keeps of a damaged file."""
    (folder / "skipped").write_bytes(content)
    run(fitrec, "salvage", "--skip", "--plain", folder / "skipped", folder / "skipped.fit")
    return (folder / "skipped.fit").read_bytes()
