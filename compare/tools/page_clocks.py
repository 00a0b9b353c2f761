"""The page in a browser: rides whose clock was wrong, and the answer when they began."""

import datetime
import itertools
import pathlib
import re
import zipfile

from tools.checks import differs, unless
from tools.fit_files import framed
from tools.page_forms import MAY_LEAVE
from tools.page_holes import clock_of, length_of
from tools.page_people import FAINT, FOCUSED, takes
from tools.page_values import BEGIN, ELAPSED, ENUM, HEART, LAT, LONG, TIME, TIMER, UINT16, UINT32, message
from tools.pages import START, both, recorded, rows, tour
from tools.program import bytes_of, run
from tools.reader import EPOCH
from tools.visits import DATED, FINE, MOSTLY, RESCUED, WIDTHS, WINDOWS

DAY = 86400
NOW = int((datetime.datetime.now(datetime.timezone.utc).replace(tzinfo=None) - EPOCH).total_seconds())
# At ten in the morning.
AHEAD = NOW - NOW % DAY + 45 * DAY + 10 * 3600
# What the page asks, and why, as it describes the field and the result; the fold with the same question; what is in the field; and whether
# there is a way back.
ASKED = """(() => {
  const field = document.getElementById('began'), seen = it => it && it.checkVisibility();
  const [own, all] = [field, document.getElementById('result')].map(it => it && it.getAttribute('aria-describedby'));
  const why = own && all.split(' ').includes(own) ? document.getElementById(own) : null;
  return { asked: seen(field) ? field.labels[0].innerText : null, why: why && why.innerText, value: field && field.value,
    fold: seen(document.getElementById('clock')) ? document.querySelector('#clock summary').innerText : null,
    back: Boolean(seen(document.getElementById('keepTimes'))) };
})()"""
MOVE, KEEP, OPEN = {"click": "#moveTimes"}, {"click": "#keepTimes"}, {"click": "#clock summary"}
SEEN, SAVE = {"evaluate": ASKED}, {"download": "#save"}
QUESTION, FOLD, CORRECTED = "When did your ride begin?", "Are the times wrong?", "The times of your ride are corrected"
# The question in each language, and what answers it.
SPOKEN = {"de": ("Wann war der Start deiner Fahrt?", "Alle Zeiten verschieben"), "en": (QUESTION, "Move all times"),
          "es": ("¿Cuándo fue el inicio de tu salida?", "Desplazar todas las horas"),
          "fr": ("À quand remonte le début de votre sortie ?", "Décaler toutes les heures"),
          "it": ("Quando è stato l’inizio della tua uscita?", "Sposta tutti gli orari")}
# The answer in what follows.
MORNING, SHOWN = "2026-05-01T08:00", "May 1, 2026 at 8:00 AM UTC"


def answered(value):
    return [{"evaluate": "document.getElementById('began').value = '%s'" % value}, MOVE]


def moved(fitrec, file, to, *words):
    """What the program makes of a file."""
    to.unlink(missing_ok=True)
    run(fitrec, "shift", *words, file, to)
    return bytes_of(to)


def contents(path):
    """The files in a ZIP file; nothing of another one."""
    if not zipfile.is_zipfile(path):
        return None
    with zipfile.ZipFile(path) as them:
        return {it: them.read(it) for it in them.namelist()}


def parts(shown, *keys):
    return [shown[key] for key in keys]


def without_start(numbers):
    return {key: it for key, it in numbers.items() if key != "Start"}


def of_clocks(fitrec, folder, browser):
    """Where a ride began before 2000, on the first of January of an early year, or after today, the page asks when it began, and moves all its
    times as the program does."""
    torn, own = recorded(fitrec, folder / "torn", tour(900, AHEAD)), recorded(fitrec, folder / "own", tour(900))
    run(fitrec, "save", torn, folder / "ahead.fit")
    run(fitrec, "save", own, folder / "ride.fit")

    moved(fitrec, folder / "ride.fit", folder / "1989.fit", "--start", "1989-12-31T00:05:00Z")
    by_answer = lambda name: moved(fitrec, folder / name, folder / "moved.fit", "--start", MORNING + ":00Z")

    def judged(heading, after, value, day, before, content):
        def judge(shown, made):
            first, then, last = shown[1], shown[4], shown[7]
            yield "what it asks", differs(made[1] | {"why": None}, {"asked": QUESTION, "why": None, "value": value, "fold": None, "back": False})
            yield "what it knows", differs((first["heading"], first["numbers"]["Start"], "nothing needs to be rescued" in first["reason"]),
                                           (heading, "unknown", False))
            yield "why it asks", differs(made[1]["why"], "The clock of the device was wrong: at the start it showed %s." % day)
            yield "the answer is drawn", differs((then["heading"], then["numbers"]["Start"], then["focus"]), (after, SHOWN, "result"))
            yield "it can be given again", differs(parts(made[4], "asked", "value", "back"), [QUESTION, MORNING, True])
            yield "it says so", unless("Every time in the file is moved" in then["reason"], then["reason"], "it says so")
            yield "where no sample came, by right times", differs(["no samples" in it["reason"] for it in (first, then)], [heading != DATED, True])
            yield "no other number changes", differs(without_start(then["numbers"]), without_start(first["numbers"]))
            yield "no curve changes", differs(parts(then, "captions", "pictures"), parts(first, "captions", "pictures"))
            yield "the file is what the program makes", differs(bytes_of(pathlib.Path(made[6])), content)
            yield "its name", differs(then["download"], "2026-05-01-ride.fit")
            yield "it warns before it is left", differs(made[5], False)
            keys = "heading", "reason", "numbers", "captions", "laps", "download"
            yield "the way back", differs((parts(last, *keys), made[8]), (parts(first, *keys), made[1]))
            yield "the first file again", differs(before and bytes_of(pathlib.Path(made[9])), before)
        return judge

    ahead = (EPOCH + datetime.timedelta(seconds=AHEAD)).strftime("%Y-%m-%dT%H:%M"), \
        (EPOCH + datetime.timedelta(seconds=AHEAD)).strftime("%B %-d, %Y at 10:00 AM UTC")
    # Many clocks begin anew in 2010.
    moved(fitrec, folder / "ride.fit", folder / "2010.fit", "--start", "2010-01-01T00:03:10Z")
    cases = [("1989", [folder / "1989.fit"], DATED, CORRECTED, "", "December 31, 1989 at 12:05 AM UTC", None, by_answer("1989.fit")),
             ("2010", [folder / "2010.fit"], DATED, CORRECTED, "", "January 1, 2010 at 12:03 AM UTC", None, by_answer("2010.fit")),
             ("45 days ahead", [folder / "ahead.fit"], DATED, CORRECTED, *ahead, None, by_answer("ahead.fit")),
             ("a recording 45 days ahead", both(torn), RESCUED, RESCUED, *ahead, bytes_of(folder / "ahead.fit"), by_answer("ahead.fit"))]
    for (name, files, *more), (width, window) in itertools.product(cases, WIDTHS.items()):
        steps = [{"files": files}, SEEN, *answered(MORNING), SEEN, {"evaluate": MAY_LEAVE}, SAVE, KEEP, SEEN, *([SAVE] if more[-2] else [])]
        browser.visit("%s, at %s" % (name, width), steps, judged(*more), **window)

    # By keys: to the field, a year less, and Enter.
    def of_keys(shown, made):
        yield "a visible focus", differs(made[4], ["began", "solid"])
        yield "the answer", differs(shown[6]["numbers"]["Start"], SHOWN.replace("2026", "2025"))

    steps = [{"files": [folder / "1989.fit"]}, {"evaluate": "document.getElementById('began').value = '%s'" % MORNING},
             {"evaluate": "document.getElementById('result').focus()"}, {"keys": ["Tab"]}, {"evaluate": FOCUSED},
             {"keys": ["ArrowRight", "ArrowRight", "ArrowDown", "Enter"]}, {"click": "h1"}]
    for width, window in WIDTHS.items():
        browser.visit("keys at %s" % width, steps, of_keys, **window)
    yield from browser.outcomes()


WAY, YEARS = (5, UINT32), 730 * DAY


def ridden(count, clock, has_way=True, counted=lambda last, first: last - first):
    """A ride of so many samples, a second apart, whose device shows by a clock which time it is at each of them. It has two laps, whose seconds
    are counted from one sample to another."""
    way = lambda at: {WAY: 700 * at, LAT: 560000000 + 500 * at, LONG: 100000000 + 500 * at} if has_way else {}
    sample = lambda at: message(20, {TIME: clock(at), HEART: 120 + at % 9} | way(at))
    lap = lambda kind, first, last: message(kind, {TIME: clock(last), BEGIN: clock(first), ELAPSED: 1000 * counted(last, first),
                                                   TIMER: 1000 * counted(last, first)})
    body = [sample(at) + (lap(19, 0, 600) if at == 600 else b"") for at in range(count)]
    return framed(message(0, {(0, ENUM): 4, (4, UINT32): clock(0)}) + b"".join(body) + lap(19, 600, count - 1) + lap(18, 0, count - 1)
                  + message(34, {TIME: clock(count - 1), (1, UINT16): 1}))


def of_set_clocks(fitrec, folder, browser):
    """A clock that was wrong for a part of a ride, such as before the first position: the times of that part are moved to the others. A clock
    that is set on the way is set right, if its times can be, whichever part is longer."""
    at_2010, at_2005 = (int((it - EPOCH).total_seconds()) for it in (datetime.datetime(2010, 1, 1), datetime.datetime(2005, 3, 25)))
    usual = lambda at: START + at
    clocks = {"a first minute in 1989": (lambda at: 300 + at if at < 60 else usual(at), 0, 60),
              "a first minute in 2010": (lambda at: at_2010 + at if at < 60 else usual(at), 0, 60),
              "five seconds in 1989": (lambda at: 300 + at if at < 5 else usual(at), 0, 5),
              "a first quarter of a minute two years ahead": (lambda at: usual(at) + YEARS * (at < 14), 0, 14),
              "a last minute ahead of today": (lambda at: AHEAD + at if at >= 1140 else usual(at), 1140, 60),
              "two thirds before it was set, two years ahead": (lambda at: usual(at) + YEARS * (at < 800), 0, 800),
              "two thirds before it was set, minutes ahead": (lambda at: usual(at) + 300 * (at < 800), 0, 800),
              "two thirds before it was set, ahead of today": (lambda at: AHEAD + at if at < 800 else usual(at), 0, 800),
              "two last thirds ahead of today": (lambda at: AHEAD + at if at >= 400 else usual(at), 400, 800),
              "two last thirds in 2005": (lambda at: at_2005 + at if at >= 400 else usual(at), 400, 800),
              "a minute on the way": (lambda at: usual(at) + YEARS * (700 <= at < 760), 700, 60),
              "a first third that goes back": (lambda at: usual(at) + 3600 * (at < 400), 0, 400),
              "a first lap that goes back by minutes": (lambda at: usual(at) + 300 * (at < 500), 0, 500)}
    rides = [(name, ridden(1200, clock), *of) for name, (clock, *of) in clocks.items()]
    rides.append(("a first minute without a way", ridden(1200, clocks["a first minute in 1989"][0], False), 0, 60))

    def judged(content, first, count, is_whole):
        def judge(shown, made):
            it, kept = shown[0], bytes_of(pathlib.Path(made[1]))
            last = rows(kept)[-1]["timestamp"]
            length = length_of(min(count, last - START + 1 - first))
            says = "The clock of the device was wrong for %s from %s on. Those times are moved to fit the others." % (length, clock_of(START + first))
            yield "its heading", differs(it["heading"], "The times of your activity are corrected" if is_whole else "Your activity is rescued")
            yield "what is read first", unless(it["reason"].startswith(says), it["reason"], says)
            yield "its numbers", differs(parts(it["numbers"], "Start", "Duration", "Samples"),
                                         ["November 8, 2024 at 8:00 AM UTC", "0:%02d:%02d" % divmod(last - START, 60), "%s" % f"{last - START + 1:,}"])
            yield "when it was made", differs(rows(kept, 0)[0].get("time_created"), START)
            yield "its samples", differs(rows(kept), [own | {"timestamp": START + at} for at, own in enumerate(rows(content)[:last - START + 1])])
            yield "its laps", differs([(lap["start_time"], lap["timestamp"]) for lap in rows(kept, 19)],
                                      [(START, START + 600), (START + 600, last)])
            yield "its start", differs([own["start_time"] for own in rows(kept, 18)], [START])
            (folder / "kept.fit").write_bytes(kept)
            yield "it is an activity", differs(run(fitrec, "check", folder / "kept.fit")[0], 0)
            own, again = shown[2], shown[3]
            yield "the way back", differs(("wrong for" in own["reason"], own["offers"][-1:]), (False, ["Go back"]))
            yield "nothing is made of a whole file", unless(not is_whole or not own["download"], own["download"], "no file")
            yield "once more", differs(parts(again, "heading", "reason", "numbers", "offers"), parts(it, "heading", "reason", "numbers", "offers"))
        return judge

    keep, again = {"click": "#offers button"}, {"click": "#offers button:last-child"}
    for (name, content, *of), (width, window) in itertools.product(rides, WIDTHS.items()):
        for kind, given in (("whole", content), ("cut off", content[:-100])):
            file = folder / ("%s-%s.fit" % (name.replace(" ", "-"), kind.replace(" ", "-")))
            file.write_bytes(given)
            browser.visit("%s, %s, at %s" % (name, kind, width), [{"files": [file]}, SAVE, keep, again],
                          judged(content, *of, kind == "whole"), **window)

    # Times in the short form.
    place = lambda at: (560000000 + 500 * at).to_bytes(4, "little") * 2
    short = lambda first, begin, count: b"\1" + (begin + first).to_bytes(4, "little") + place(first) + b"".join(
        bytes([0xC0 | (begin + at) % 32]) + place(at) for at in range(first + 1, first + count))
    layouts = b"\x41\0\0\x14\0\3\xFD\4\x86\0\4\x85\1\4\x85" + b"\x42\0\0\x14\0\2\0\4\x85\1\4\x85"
    content = framed(message(0, {(0, ENUM): 4, (4, UINT32): 300}) + layouts + short(0, 300, 60) + short(60, START, 600))
    (folder / "short.fit").write_bytes(content)

    def of_short(shown, made):
        yield "its times", differs([it["timestamp"] for it in rows(bytes_of(pathlib.Path(made[1])))], [START + at for at in range(660)])

    browser.visit("times in the short form", [{"files": [folder / "short.fit"]}, SAVE], of_short)
    yield from browser.outcomes()


def of_clocks_ahead(fitrec, folder, browser):
    """A clock that was set ahead in full motion is told, and one click moves the times of one part to those of the other. Where the ride stood, or
    went on in the meantime, no sample came."""
    set_at, by = 700, 7200
    clock = lambda at: START + at + by * (at >= set_at)
    says = "At %s, in full motion, the clock leaps ahead by about 2 hr: it may have been set." % clock_of(START + set_at - 1)
    wrong = "The clock of the device was wrong for %s from %s on. Those times are moved to fit the others."
    correct, other, back = "Correct the times", "Move the other times instead", "Go back"

    def judged(heading, is_whole):
        def judge(shown, made):
            first, then, last, again = shown[0], shown[1], shown[3], shown[6]
            yield "what is said first", differs((first["heading"], says in first["reason"], "no samples" in first["reason"]), (heading, True, False))
            yield "its offer", differs([it for it in first["offers"] if "journal" not in it], [correct])
            end = "0:19:%02d" % (59 if is_whole else int(then["numbers"]["Duration"][-2:]))
            for name, it, start, content, offers, of in (("corrected", then, START + by, made[2], [other, back], (set_at, START + by)),
                                                         ("the other part", last, START, made[4], [back], (1200 - set_at, START + set_at))):
                yield name + ": its offers", differs(it["offers"], offers)
                if is_whole:
                    yield name + ": what it says", unless(wrong % (length_of(of[0]), clock_of(of[1])) in it["reason"], it["reason"], of)
                yield name + ": its numbers", differs(parts(it["numbers"], "Duration", "Average speed"), [end, "25.2 km/h"])
                kept = bytes_of(pathlib.Path(content))
                yield name + ": its samples", differs([it["timestamp"] for it in rows(kept)], [start + at for at in range(len(rows(kept)))])
                laps = [(it["start_time"], it["timestamp"], it["total_elapsed_time"], it["total_timer_time"]) for it in rows(kept, 19)]
                last_at = start + len(rows(kept)) - 1
                two = [(start, start + 600, 600_000, 600_000), (start + 600, last_at, 1000 * (last_at - start - 600), 1000 * (last_at - start - 600))]
                yield name + ": its laps", differs(laps, two if len(laps) > 1 else [(start, last_at, 1000 * (last_at - start), 1000 * (last_at - start))])
                of_all = [(it["start_time"], it["total_elapsed_time"], it["total_timer_time"]) for it in rows(kept, 18)]
                yield name + ": its totals", differs(of_all, [(start, 1000 * (last_at - start), 1000 * (last_at - start))])
                (folder / "kept.fit").write_bytes(kept)
                yield name + ": it is an activity", differs(run(fitrec, "check", folder / "kept.fit")[0], 0)
            yield "the way back", differs(parts(again, "heading", "reason", "numbers", "offers"), parts(first, "heading", "reason", "numbers", "offers"))
        return judge

    whole, by_clock = ridden(1200, clock), ridden(1200, clock, counted=lambda last, first: clock(last) - clock(first))
    lines = ["start %d 7 cycling" % START, *("sample %d dist=%d hr=%d" % (clock(at), 700 * at, 120 + at % 9) for at in range(1200)), "commit"]
    cases = {"seconds that the device counts": ({"ride.fit": whole}, FINE, True), "seconds by its clock": ({"ride.fit": by_clock}, FINE, True),
             "cut off": ({"ride.fit": whole[:-100]}, "Your activity is rescued", False),
             "a wrong checksum": ({"ride.fit": by_clock[:-1] + bytes([by_clock[-1] ^ 1])}, "Your activity is rescued", True),
             "a recording": ({it.name: it.read_bytes() for it in both(recorded(fitrec, folder / "own", lines))}, RESCUED, True)}
    steps = [{"click": "#offers button"}, SAVE, {"click": "#offers button"}, SAVE, {"click": "#offers button"}, {"click": "#offers button:last-child"}]
    for (name, (files, *of)), (width, window) in itertools.product(cases.items(), WIDTHS.items()):
        here = folder / ("%s-%s" % (name.replace(" ", "-"), width))
        here.mkdir()
        given = [(here / file, (here / file).write_bytes(content))[0] for file, content in files.items()]
        browser.visit("%s, at %s" % (name, width), [{"files": given}, *steps], judged(*of), **window)

    # What stood, was stopped, or went on: no sample came, and nothing is offered.
    def rest(way, more=lambda at: {}, between=b""):
        samples = [message(20, {TIME: clock(at), WAY: way(at), HEART: 120 + at % 9} | more(at)) for at in range(1200)]
        closing = [message(kind, {TIME: clock(1199), BEGIN: clock(0), ELAPSED: 1000 * (clock(1199) - START), TIMER: 1000 * (clock(1199) - START)})
                   for kind in (19, 18)]
        return framed(message(0, {(0, ENUM): 4, (4, UINT32): START}) + b"".join([*samples[:set_at], between, *samples[set_at:], *closing])
                      + message(34, {TIME: clock(1199), (1, UINT16): 1}))

    moving, event = lambda at: 700 * at, lambda at, kind: message(21, {TIME: at, (0, ENUM): 0, (1, ENUM): kind})
    still = lambda at: 700 * min(at, 690) + 700 * max(0, at - 710)
    stays = {"it stood": (rest(still), True), "it slowed down": (rest(lambda at: 700 * at - 600 * (at >= set_at - 1)), True),
             "its way went on": (rest(lambda at: 700 * (clock(at) - START)), True),
             "it was elsewhere": (rest(moving, lambda at: {LAT: 560000000 + 500 * at + 900000 * (at >= set_at), LONG: 100000000}), True),
             "its speed was none": (rest(moving, lambda at: {(6, UINT16): 7000 * (abs(at - set_at) > 2)}), True),
             "its timer was stopped": (rest(moving, between=event(clock(set_at - 1), 4) + event(clock(set_at), 0)), False),
             "nothing tells its way": (ridden(1200, clock, False), True)}

    def of_rest(is_told):
        def judge(shown, made):
            reason = shown[0]["reason"]
            yield "what it says", differs(("no samples" in reason, "may have been set" in reason, shown[0]["offers"]), (is_told, False, []))
        return judge

    for name, (content, is_told) in stays.items():
        file = folder / (name.replace(" ", "-") + ".fit")
        file.write_bytes(content)
        browser.visit(name, [{"files": [file]}], of_rest(is_told))
    yield from browser.outcomes()


def of_other_clocks(fitrec, folder, browser):
    """Where the times can be right the question is in a fold; keys, languages and several rides; and what cannot be moved."""
    own, more = recorded(fitrec, folder / "own", tour(900)), recorded(fitrec, folder / "more", [
        *tour(400, AHEAD), *("sample %d hr=120" % (AHEAD + 9000 + at) for at in range(300))])
    run(fitrec, "save", own, folder / "ride.fit")
    run(fitrec, "save", more, folder / "ahead.fit")
    at = lambda name, *words: moved(fitrec, folder / "ride.fit", folder / name, *words)
    samples = lambda *times: b"".join(message(20, {HEART: 120} | ({} if it is None else {TIME: it})) for it in times)
    begin = lambda kind, created: message(0, {(0, ENUM): kind, (4, UINT32): created})
    # The clock was set after 20 seconds.
    closing = {TIME: START + 600, BEGIN: 300, ELAPSED: 620_000, TIMER: 620_000}
    made = {"1989.fit": at("1989.fit", "--start", "1989-12-31T00:05:00Z"),
            "today.fit": at("today.fit", "--start", str(NOW - 3600)), "tomorrow.fit": at("tomorrow.fit", "--start", str(NOW + DAY)),
            # On the first of January of an early year clocks begin anew.
            "2000.fit": at("2000.fit", "--start", "2000-01-02T00:00:00Z"), "2000-begun.fit": at("2000-begun.fit", "--start", "2000-01-01T00:00:00Z"),
            "2011.fit": at("2011.fit", "--start", "2011-01-01T12:00:00Z"), "2012.fit": at("2012.fit", "--start", "2012-01-01T12:00:00Z"),
            "1999.fit": at("1999.fit", "--start", "1999-12-31T23:00:00Z"),
            "set.fit": framed(begin(4, 300) + samples(*range(300, 320), *range(START, START + 600)) + message(19, closing) + message(18, closing)
                              + message(34, {TIME: START + 600, (1, UINT16): 1})),
            "untimed.fit": framed(begin(4, START) + samples(*600 * [None])), "course.fit": framed(begin(6, 300) + samples(*range(300, 600))),
            "early.fit": framed(begin(4, 5) + samples(*range(AHEAD, AHEAD + 600)))}
    for name, content in made.items():
        (folder / name).write_bytes(content)

    # Whether it asks, and where.
    def of_place(asked, fold):
        return lambda shown, made: [("what it asks", differs((made[1]["asked"], made[1]["fold"]), (asked, fold)))]

    places = {"today": (None, FOLD), "tomorrow": (QUESTION, None), "2000": (None, FOLD), "2000-begun": (QUESTION, None),
              "2011": (QUESTION, None), "2012": (None, FOLD), "1999": (QUESTION, None), "set": (None, FOLD),
              "untimed": (None, None), "course": (None, None), "early": ("When did your activity begin?", None)}
    for (name, place), (width, window) in itertools.product(places.items(), WIDTHS.items()):
        browser.visit("%s at %s" % (name, width), [{"files": [folder / (name + ".fit")]}, SEEN], of_place(*place), **window)

    # In the fold, in another zone: the time of the file is there, to be changed.
    def of_fold(shown, made):
        yield "the question", differs(made[2], {"asked": QUESTION, "why": None, "value": "2024-11-08T03:00", "fold": FOLD, "back": False})
        yield "the answer", differs((shown[4]["heading"], shown[4]["numbers"]["Start"]), (CORRECTED, "November 8, 2024 at 4:00 AM EST"))
        yield "the file", differs(bytes_of(pathlib.Path(made[6])), hour_later)
        yield "it stays open", differs(made[5], {"asked": QUESTION, "why": None, "value": "2024-11-08T04:00", "fold": FOLD, "back": True})
        yield "the way back", differs(shown[7]["heading"], FINE)

    hour_later = at("later.fit", "--by", "3600")
    zone = {} if browser.name == "webkit" else {"zone": "America/New_York"}
    for width, window in WIDTHS.items():
        steps = [{"files": [folder / "ride.fit"]}, OPEN, SEEN, *answered("2024-11-08T04:00"), SEEN, SAVE, KEEP]
        if zone:
            browser.visit("in the fold at %s" % width, steps, of_fold, **zone, **window)

    # What was cut off before it had totals gets them, also before its times are moved.
    (folder / "cut.fit").write_bytes(made["1989.fit"][:-9000])
    run(fitrec, "salvage", folder / "cut.fit", folder / "kept.fit")
    moved(fitrec, folder / "kept.fit", folder / "moved.fit", "--start", MORNING + ":00Z")
    run(fitrec, "salvage", "--finish", "--plain", folder / "moved.fit", folder / "whole.fit")
    whole = bytes_of(folder / "whole.fit")

    def of_cut(shown, made):
        first = shown[0]
        # No website takes it before it has its date.
        yield "its totals at once", differs((first["heading"], "have been added" in first["reason"], first["where"]), (MOSTLY, True, ""))
        yield "where it is taken then", unless("Strava" in shown[2]["where"], shown[2]["where"], "where FIT files are taken")
        yield "its totals", differs((shown[2]["heading"], "have been added" in shown[2]["reason"]), (MOSTLY, True))
        yield "the file", differs(bytes_of(pathlib.Path(made[3])), whole)

    # The end that was not confirmed begins with the same times.
    def of_end(shown, made):
        first, end, back = shown[2], shown[3], shown[4]
        yield "up to when", differs(re.findall(r"It goes to ([^.]*)\.", first["reason"]), ["8:20:44 AM"])
        yield "the start", differs([it["numbers"]["Start"] for it in (first, end, back)], 3 * [SHOWN])
        yield "the end is added", unless(end["numbers"]["Duration"] > first["numbers"]["Duration"], end["numbers"], "longer")
        yield "the file", differs(bytes_of(pathlib.Path(made[5])), confirmed)

    confirmed = moved(fitrec, folder / "ahead.fit", folder / "moved.fit", "--start", MORNING + ":00Z")

    # One of its times would be below 0.
    def of_too_far(shown, made):
        reason, details = shown[2]["reason"], shown[2]["details"]
        yield "it is refused", unless(reason.startswith("The times of this file cannot be moved."), reason, "a refusal")
        yield "its place", unless("At byte 26 is a time" in details, details, "at byte 26")
        yield "the file is as it was", differs((shown[2]["heading"], shown[2]["numbers"], made[3]["back"]),
                                               (shown[0]["heading"], shown[0]["numbers"], False))

    # A time that no ride began at is refused by the field.
    def of_no_start(shown, made):
        yield "it stays", differs((shown[3]["numbers"], made[3]["back"]), (shown[0]["numbers"], False))

    # One of several rides.
    def of_several(shown, made):
        first = shown[3]["list"][0]
        yield "its row", differs([first[1], first[4]], [SHOWN, CORRECTED])
        yield "the ZIP file", differs(contents(made[5]), {"2026-05-01-ride.fit": by_answer, "2024-11-08-ride.fit": bytes_of(folder / "ride.fit")})
        yield "shown again", differs((shown[4]["heading"], shown[4]["numbers"]["Start"]), (CORRECTED, SHOWN))

    # The first of two that are chained; and a ride whose journal is chosen after the answer.
    def of_file(heading, content):
        def judge(shown, made):
            yield "the start", differs((shown[-1]["heading"], shown[-1]["numbers"]["Start"]), (heading, SHOWN))
            yield "the file", differs(bytes_of(pathlib.Path(made[-1])), content)
        return judge

    (folder / "chain.fit").write_bytes(bytes_of(folder / "ahead.fit") + bytes_of(folder / "ride.fit"))
    data, journal = both(more)
    by_answer = moved(fitrec, folder / "1989.fit", folder / "answered.fit", "--start", MORNING + ":00Z")
    show = {"click": "#rides tbody button"}
    for width, window in WIDTHS.items():
        for name, steps, judge in (
                ("cut off", [{"files": [folder / "cut.fit"]}, *answered(MORNING), SAVE], of_cut),
                ("an end", [{"files": both(more)}, *answered(MORNING), {"click": "#offers button"}, {"click": "#offers button:last-child"}, SAVE], of_end),
                ("too far", [{"files": [folder / "early.fit"]}, *answered(MORNING), SEEN], of_too_far),
                ("no start", [{"files": [folder / "1989.fit"]}, *answered("1995-05-01T08:00"), SEEN], of_no_start),
                ("chained files", [{"files": [folder / "chain.fit"]}, show, *answered(MORNING), SAVE], of_file(CORRECTED, confirmed)),
                ("a journal later", [{"files": [data]}, *answered(MORNING), {"files": [journal]}, SAVE], of_file(RESCUED, confirmed)),
                ("several rides", [{"files": [folder / "1989.fit", *both(own)]}, show, *answered(MORNING), show, {"download": "#saveAll"}], of_several)):
            browser.visit("%s at %s" % (name, width), steps, judge, **window)

    # In each language, with contrast.
    def of_language(question, button):
        return lambda shown, made: [("the question", differs([made[2]["asked"], made[3]], [question, button]))]

    words = {"evaluate": "document.getElementById('moveTimes').innerText"}
    for (language, spoken), (width, window) in itertools.product(SPOKEN.items(), WIDTHS.items()):
        steps = [{"files": [folder / "1989.fit"]}, takes("language", language), SEEN, words, takes("language", "en")]
        browser.visit("%s at %s" % (language, width), steps, of_language(*spoken), **window)
    faint = {"evaluate": FAINT}
    for name, window in WINDOWS.items():
        browser.visit("contrast, %s" % name, [{"files": [folder / "1989.fit"]}, faint, *answered(MORNING), faint],
                      lambda shown, made: [("contrast", differs([made[1], made[4]], [[], []]))], **window)
    yield from browser.outcomes()
