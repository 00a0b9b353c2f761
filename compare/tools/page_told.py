"""The page in a browser: pieces of one file, copies of one activity, and what else it tells of files."""

import itertools
import pathlib

from tools.checks import differs, unless
from tools.fit_files import framed, short
from tools.page_holes import clock_of, length_of
from tools.page_people import takes
from tools.page_values import BEGIN, DISTANCE, ELAPSED, ENUM, HEART, LAT, LENGTH, LONG, TIME, TIMER, UINT16, UINT32, message, ride
from tools.pages import SEMICIRCLE, START, by_device, recorded, rows, tour
from tools.program import NAMES, bytes_of, run
from tools.visits import DATED, FINE, MOSTLY, NOTHING, RESCUED, WIDTHS

ONE_FILE, SAVE = "Your ride is in one file", {"download": "#save"}
LANGUAGES = "en", "de", "fr", "es", "it"


def spoken(browser, name, files, part, words):
    """What is said of files in each language: the element by this selector has these words."""
    def judged(wanted):
        def judge(shown, made):
            yield "its words", unless(wanted in made[2], made[2], wanted)
        return judge

    shown = {"evaluate": "document.querySelector('%s').innerText" % part}
    for language, wanted in zip(LANGUAGES, words, strict=True):
        # The language is kept for the next visit.
        steps = [{"files": files}, takes("language", language), shown, takes("language", "en")]
        browser.visit("%s, in %s, narrow" % (name, language), steps, judged(wanted), **WIDTHS["320"])


def of_pieces(fitrec, folder, browser):
    """A file that a tool or a copy cut into pieces is put together, and what helps to read a file whose layout is lost."""
    where = recorded(fitrec, folder / "own", tour(900))
    run(fitrec, "save", where, folder / "whole.fit")
    run(fitrec, "save", recorded(fitrec, folder / "later", tour(900, START + 86400, 8.9)), folder / "later.fit")
    whole, later, data = (folder / "whole.fit").read_bytes(), (folder / "later.fit").read_bytes(), (where / NAMES[0]).read_bytes()

    def by(content, *words):
        """What the program makes of bytes."""
        (folder / "given.fit").write_bytes(content)
        run(fitrec, "salvage", *words, "--plain", folder / "given.fit", folder / "made.fit")
        return (folder / "made.fit").read_bytes()

    def put(name, files):
        here = folder / name.replace(" ", "-")
        here.mkdir()
        return [(here / file, (here / file).write_bytes(content))[0] for file, content in files.items()]

    def visit(name, files, heading, said, content, steps=None):
        def judge(shown, made):
            last = shown[-1]
            yield "its heading", differs(last["heading"], heading)
            yield "what it says", unless(said in last["reason"], last["reason"], said)
            yield "the file", differs(bytes_of(pathlib.Path(made[-1])), content)

        chosen = put(name, files)
        for width, window in WIDTHS.items() if steps is None else [("1280", {})]:
            given = [{"files": chosen}] if steps is None else [{"files": [chosen[k] for k in step]} for step in steps]
            browser.visit("%s, at %s" % (name, width), [*given, SAVE], judge, **window)

    # In the midst of a sample, in either order of their names, and under the names that tools give.
    told = "%s are pieces of one file, and are put together."
    front, rest = whole[:9007], whole[9007:]
    visit("two pieces", {"a.fit": front, "b.fit": rest}, ONE_FILE, told % "a.fit, b.fit", whole)
    visit("two pieces in another order", {"a.fit": rest, "b.fit": front}, ONE_FILE, told % "b.fit, a.fit", whole)
    visit("two numbered pieces", {"ride.fit.001": front, "ride.fit.002": rest}, ONE_FILE, told % "ride.fit.001, ride.fit.002", whole)
    parts = {"c.fit": whole[:8192], "a.fit": whole[16384:], "b.fit": whole[8192:16384]}
    visit("three pieces", parts, ONE_FILE, told % "c.fit, b.fit, a.fit", whole)
    visit("the last bytes alone", {"a.fit": whole[:-1], "b.fit": whole[-1:]}, ONE_FILE, told % "a.fit, b.fit", whole)
    visit("one piece after the other", {"a.fit": front, "b.fit": rest}, ONE_FILE, told % "a.fit, b.fit", whole, [[0], [1]])
    visit("the second piece first", {"a.fit": front, "b.fit": rest}, ONE_FILE, told % "a.fit, b.fit", whole, [[1], [0]])
    # A recording that was not closed, and a file of which a piece is damaged too.
    visit("pieces of what was not closed", {"a.fit": data[:9007], "b.fit": data[9007:]}, RESCUED, told % "a.fit, b.fit", by(data, "--finish"))
    holed = whole[:14000] + bytes(4096) + whole[18096:]
    visit("a damaged piece", {"a.fit": holed[:9007], "b.fit": holed[9007:]}, MOSTLY, told % "a.fit, b.fit", by(holed, "--skip"))

    # The second piece alone asks for the first one, and for another ride.
    second = put("second", {"b.fit": rest})

    def of_second(shown, made):
        for wanted in ("It has no beginning: if it is a piece of a larger file, choose the first piece too.", "Choose another activity"):
            yield "what it asks for", unless(wanted in shown[0]["next"], shown[0]["next"], wanted)

    for width, window in WIDTHS.items():
        browser.visit("the second piece alone, at %s" % width, [{"files": second}], of_second, **window)
    spoken(browser, "the second piece alone", second, "#next", (
        "It has no beginning", "Ihr fehlt der Anfang", "Il n’a pas de début", "No tiene principio", "Non ha inizio"))

    def none(shown, made):
        yield "a list", differs([it[0] for it in shown[0]["list"]], ["a.fit", "b.fit"])
        yield "nothing is put together", unless("pieces" not in shown[0]["listNote"], shown[0]["listNote"], "no pieces")

    for name, files in {"the rest of another ride": {"a.fit": front, "b.fit": later[9007:]},
                        "a whole file and a rest": {"a.fit": whole, "b.fit": rest},
                        "a text": {"a.fit": front, "b.fit": b"Notes of my ride.\n" * 200}}.items():
        browser.visit(name, [{"files": put(name, files)}], none)

    # A damaged ride, or one that was cut off, tells how to read another one.
    helpers = {"that was cut off": later[:-4000], "with a hole": later[:9000] + bytes([15]) * 3000 + later[12000:]}
    for name, helper in helpers.items():
        files = put("helper " + name, {"a.fit": whole[4096:], "b.fit": helper})
        (folder / "like.fit").write_bytes(later)
        left = rows(by(whole[4096:], "--skip", "--like", folder / "like.fit", "--finish"))

        def of_helped(shown, made, count=len(left)):
            yield "its list", differs([it[4] for it in shown[0]["list"]], [MOSTLY, MOSTLY])
            yield "what it says", unless("It could be read with the help of b.fit." in shown[1]["reason"], shown[1]["reason"], "the help of b.fit")
            yield "its samples", differs(shown[1]["numbers"]["Samples"], f"{count:,}")

        browser.visit("a helper " + name, [{"files": files}, {"click": "#rides tbody tr:nth-child(1) button"}], of_helped)

    # Our own recording whose layouts are lost, with and without its journal.
    torn = data[:60] + bytes([15]) * 4036 + data[4096:]
    behind = len(rows(by(data))) - len(rows(by(data[:4096])))

    def of_own(shown, made):
        yield "its heading", differs(shown[0]["heading"], "Most of your activity is rescued")
        # Some at the edge of the hole cannot be told from it.
        count = int(shown[0]["numbers"].get("Samples", "0"))
        yield "its samples", unless(behind - 15 <= count <= behind, count, "about %d" % behind)
        yield "nothing is asked for", unless("Choose another activity" not in shown[0]["next"], shown[0]["next"], "nothing")
        yield "nothing is said of a helper", unless("with the help" not in shown[0]["reason"], shown[0]["reason"], "nothing")

    for name, files in {"its layout is lost": {"activity.fit": torn}, "its layout is lost, beside its journal":
                        {"activity.fit": torn, "activity.frj": (where / NAMES[1]).read_bytes()}}.items():
        for width, window in WIDTHS.items():
            browser.visit("%s, at %s" % (name, width), [{"files": put(name + width, files)}], of_own, **window)
    spoken(browser, "pieces", put("spoken", {"a.fit": front, "b.fit": rest}), ".lead", (
        told % "a.fit, b.fit", "a.fit, b.fit sind Stücke einer Datei und sind zusammengesetzt.",
        "a.fit, b.fit sont des morceaux d’un même fichier, et sont rassemblés.", "a.fit, b.fit son trozos de un mismo archivo, y se han unido.",
        "a.fit, b.fit sono pezzi di uno stesso file, e sono stati uniti."))
    yield from browser.outcomes()


def of_copies(fitrec, folder, browser):
    """The same activity twice is one: the file that has more of it is shown, and the other one is named. Damaged copies are put together."""
    run(fitrec, "save", recorded(fitrec, folder / "own", tour(900)), folder / "whole.fit")
    run(fitrec, "save", recorded(fitrec, folder / "two", by_device(8, tour(900))), folder / "device.fit")
    run(fitrec, "save", recorded(fitrec, folder / "day", tour(900, START + 86400)), folder / "day.fit")
    whole, device, day = ((folder / name).read_bytes() for name in ("whole.fit", "device.fit", "day.fit"))
    hole = lambda at, size: whole[:at] + bytes([15]) * size + whole[at + size:]

    def put(name, files):
        here = folder / name.replace(" ", "-")
        here.mkdir()
        return [(here / file, (here / file).write_bytes(content))[0] for file, content in files.items()]

    def visit(name, files, heading, said, samples):
        def judge(shown, made):
            last = shown[0]
            yield "no list", differs(last["list"], [])
            yield "its heading", differs(last["heading"], heading)
            yield "what it says", unless(said in last["next"], last["next"], said)
            yield "its samples", differs(last["numbers"]["Samples"], f"{samples:,}")

        chosen = put(name, files)
        for width, window in WIDTHS.items():
            browser.visit("%s, at %s" % (name, width), [{"files": chosen}], judge, **window)

    def made_of(content):
        (folder / "given.fit").write_bytes(content)
        run(fitrec, "salvage", "--skip", "--plain", folder / "given.fit", folder / "made.fit")
        return (folder / "made.fit").read_bytes()

    kept = lambda content: [it["timestamp"] for it in rows(made_of(content))]

    def together(name, files, heading, content, steps=None):
        """Copies that are put together, chosen at once or in steps, and the file that is saved."""
        def judge(shown, made):
            last, says = shown[-2], "%s are damaged copies of one file, and are put together." % ", ".join(files)
            yield "its heading", differs(last["heading"], heading)
            yield "what it says", unless(says in last["reason"], last["reason"], says)
            yield "whether it is whole", differs("Nothing is missing any more." in last["reason"], content is not None)
            yield "nothing else of copies", unless("same activity" not in last["next"], last["next"], "no other copy")
            if content is not None:
                yield "the file", differs(bytes_of(pathlib.Path(made[-1])), content)
            else:
                # Some at the edges of the holes may be gone too.
                there, left, real = rows(bytes_of(pathlib.Path(made[-1]))), len(kept(hole(8000, 1000))), rows(whole)
                yield "its samples", unless(left - 6 <= len(there) <= left, len(there), "about %d" % left)
                yield "they are of the ride", differs([it for it in there if it not in real][2:], [])

        chosen = put(name, files)
        for width, window in WIDTHS.items():
            given = [{"files": [chosen[k] for k in step]} for step in steps or [range(len(chosen))]]
            browser.visit("%s, at %s" % (name, width), [*given, SAVE], judge, **window)

    same = "%s is the same activity as %s, which has as much of it or more."
    visit("a whole one and a damaged one", {"a.fit": hole(9000, 3000), "b.fit": whole}, FINE, same % ("a.fit", "b.fit"), len(rows(whole)))
    little, large = hole(10000, 1500), hole(3000, 6000)
    both = {"a.fit": large, "b.fit": little}
    together("two damaged ones", both, RESCUED, whole)
    together("one after the other", both, RESCUED, whole, [[0], [1]])
    together("three damaged ones", {"a.fit": hole(3000, 9000), "b.fit": hole(9000, 6000), "c.fit": hole(2000, 900)}, RESCUED, whole)
    together("a hole and an end", {"a.fit": large, "b.fit": whole[:15000]}, RESCUED, whole)
    together("two ends of which one is cut off", {"a.fit": whole[:-2000] + bytes(2000), "b.fit": hole(3000, 900)}, RESCUED, whole)
    together("a beginning that is lost", {"a.fit": bytes(200) + whole[200:], "b.fit": large}, RESCUED, whole)
    # What both have lost stays away.
    together("holes of which a part is one", {"a.fit": large, "b.fit": hole(8000, 3000)}, MOSTLY, None)
    # The one with more samples is shown, and lacks some of the other one, which has other bytes.
    ours, there = kept(little), kept(large)
    more = sum(min(10, t - before) for before, t in itertools.pairwise(there) if t not in ours)
    has = "%s is the same activity as %s, and has %s that are missing there: open it alone to see them."
    other = short(whole)
    two = {"a.fit": other[:2998] + bytes([15]) * 6000 + other[8998:], "b.fit": little}
    visit("two damaged ones of other bytes", two, MOSTLY, has % ("a.fit", "b.fit", length_of(more)), len(ours))
    less = {"a.fit": hole(10000, 3000), "b.fit": little}
    visit("two damaged ones of which one has all", less, MOSTLY, same % ("a.fit", "b.fit"), len(ours))
    visit("one that was cut off", {"a.fit": whole, "b.fit": whole[:15000]}, FINE, same % ("b.fit", "a.fit"), len(rows(whole)))
    visit("identical ones", {"a.fit": whole, "b.fit": whole}, FINE, "b.fit is the same as a.fit.", len(rows(whole)))
    visit("three", {"a.fit": whole, "b.fit": little, "c.fit": large}, FINE, "2 files are copies of others, and are left out.", len(rows(whole)))

    def listed(files, note):
        def judge(shown, made):
            yield "the list", differs([it[0] for it in shown[0]["list"]], files)
            heading = shown[0]["listHeading"]
            yield "how many there are", unless(heading.startswith("%d activities" % len(files)), heading, len(files))
            yield "what is said of it", differs(shown[0]["listNote"], note)
        return judge

    files = put("listed", {"a.fit": little, "b.fit": whole, "c.fit": day})
    browser.visit("among others", [{"files": files}], listed(["b.fit", "c.fit"], same % ("a.fit", "b.fit")))
    # Another device at the same time, and another day.
    browser.visit("two devices", [{"files": put("devices", {"a.fit": whole, "b.fit": device})}], listed(["a.fit", "b.fit"], ""))
    yield "two files of one size", differs(len(day), len(whole))
    damaged = put("days", {"a.fit": large, "b.fit": day[:12000] + bytes([15]) * 2000 + day[14000:]})
    browser.visit("two damaged days", [{"files": damaged}], listed(["a.fit", "b.fit"], ""))
    spoken(browser, "damaged copies", put("spoken-both", both), "#reason", (
        "a.fit, b.fit are damaged copies of one file, and are put together.", "a.fit, b.fit sind beschädigte Kopien einer Datei und sind zusammengesetzt.",
        "a.fit, b.fit sont des copies endommagées d’un même fichier, et sont rassemblées.",
        "a.fit, b.fit son copias dañadas de un mismo archivo, y se han unido.",
        "a.fit, b.fit sono copie danneggiate di uno stesso file, e sono state unite."))
    spoken(browser, "copies", put("spoken", {"a.fit": little, "b.fit": whole}), "#next", (
        same % ("a.fit", "b.fit"), "a.fit ist dieselbe Aktivität wie b.fit, wo ebenso viel oder mehr von ihr ist.",
        "a.fit est la même activité que b.fit, qui en a autant ou plus.",
        "a.fit es la misma actividad que b.fit, que tiene lo mismo o más de ella.",
        "a.fit è la stessa attività di b.fit, che ne ha altrettanto o di più."))
    spoken(browser, "copies of which each has more", put("spoken-more", two), "#next", (
        "that are missing there: open it alone", "die dort fehlen: Öffne sie allein", "qui y manquent : ouvrez-le seul",
        "que faltan allí: ábrelo solo", "che lì mancano: aprilo da solo"))
    yield from browser.outcomes()


# The types of files by the Profile's enum `file`, as the page names them.
KINDS = {1: "a description of the device", 2: "settings", 3: "settings", 5: "a workout", 6: "a course", 7: "a schedule of workouts", 9: "weights",
         10: "totals of all activities", 11: "goals", 14: "blood pressures", 15: "everyday values, such as steps", 20: "a summary of an activity",
         28: "everyday values, such as steps", 32: "everyday values, such as steps", 34: "a segment", 35: "a list of segments", 40: "settings",
         99: "one that this page does not know"}


def of_kinds(fitrec, folder, browser):
    """What a file is that is no activity, and an activity of several sports."""
    made = lambda name, content: [(folder / name, (folder / name).write_bytes(content))[0]]
    wrong = lambda content: content[:-1] + bytes([content[-1] ^ 1])
    of_type = lambda kind: framed(message(0, {(0, ENUM): kind, (4, UINT32): START}))

    def visit(name, file, said, heading="This file is no activity", download="", **window):
        def judge(shown, made):
            yield "its heading", differs(shown[0]["heading"], heading)
            yield "what it says", unless(said in shown[0]["reason"], shown[0]["reason"], said)
            yield "the file", differs(shown[0]["download"], download)
            yield "no file where there is none", unless("new file" not in shown[0]["details"], shown[0]["details"], "no new file")

        browser.visit(name, [{"files": file}], judge, **window)

    for kind, words in KINDS.items():
        visit("type %d" % kind, made("%d.fit" % kind, of_type(kind)), "It is a FIT file of another kind: %s. It can be read." % words)
    for width, window in WIDTHS.items():
        visit("a damaged course, at %s" % width, made("damaged.fit", wrong(of_type(6))), "of another kind: a course.",
              download="damaged-rescued.fit", **window)
        track = b"".join(message(20, {TIME: START + at, HEART: 120}) for at in range(300))
        cut = framed(message(0, {(0, ENUM): 6, (4, UINT32): START}) + track)[:-2]
        visit("a course that was cut off, at %s" % width, made("cut-course.fit", cut), "of another kind: a course.",
              download="cut-course-rescued.fit", **window)
    spoken(browser, "a course", made("course.fit", of_type(6)), ".lead", (
        "another kind: a course.", "FIT-Datei anderer Art: eine Strecke.", "d’un autre type : un parcours.", "de otro tipo: un recorrido.",
        "di un altro tipo: un percorso."))
    spoken(browser, "monitoring", made("monitoring.fit", of_type(32)), ".lead", (
        "everyday values, such as steps.", "Alltagswerte, etwa Schritte.", "des valeurs du quotidien, comme les pas.",
        "valores diarios, como los pasos.",
        "valori quotidiani, come i passi."))

    # Sessions of several sports, by the Profile's enum `sport`: 1 running, 2 cycling, 3 transition, 5 swimming.
    def of_sports(*sports):
        sessions = [(100 * k, 100 * k + 100, 50000, {(5, ENUM): sport}) for k, sport in enumerate(sports)]
        return ride([(at, {HEART: 120 + at % 9, DISTANCE: 500 * (at % 100)}) for at in range(100 * len(sports))], sessions)

    names = {"a triathlon": ((5, 3, 2, 3, 1), "Your triathlon"), "a duathlon": ((1, 2, 1), "Your multisport activity"),
             "a swim of two parts": ((5, 5), "Your swim"), "a ride alone": ((2,), "Your ride")}
    for name, (sports, yours) in names.items():
        file = made(name.replace(" ", "-") + ".fit", wrong(of_sports(*sports)))
        word = yours.split(" ")[1]
        for width, window in WIDTHS.items():
            visit("%s, at %s" % (name, width), file, "The file is damaged, but all of it could be read.", yours + " is rescued",
                  "2024-11-08-%s.fit" % word, **window)
    # A leg whose session is lost, at the end and between others: it has samples, and perhaps a lap.
    def of_legs(name, legs, lap, yours, said):
        sessions = [(100 * k, 100 * k + 100, 50000, {(5, ENUM): sport}) for k, sport in enumerate(legs) if sport]
        content = ride([(at, {HEART: 120 + at % 9, DISTANCE: 500 * at}) for at in range(100 * len(legs))], sessions, [lap] if lap else [])
        file = made(name.replace(" ", "-") + ".fit", wrong(content))
        word = yours.split(" ")[1]
        for width, window in WIDTHS.items():
            visit("%s, at %s" % (name, width), file, said, yours + " is rescued", "2024-11-08-%s.fit" % word, **window)

    left = "The totals leave out 1 min %d sec (0.%d km) after %s: those of that part are missing."
    lap = 200, 300, 50000, {(25, ENUM): 1}
    of_legs("no session for the last leg", (5, 2, None), lap, "Your triathlon", left % (39, 49, clock_of(START + 200)))
    of_legs("no session for a leg between", (5, None, 1), None, "Your multisport activity", left % (39, 49, clock_of(START + 100)))
    of_legs("no session after a transition", (5, 3, None), None, "Your multisport activity", left % (39, 49, clock_of(START + 200)))
    # A triathlon that was cut off in its last leg, as a device writes it: laps and sessions stand between the legs.
    for name, far in ("cut off in its last leg", 0), ("cut off in its last leg, with distances that go on", 400):
        parts = [message(0, {(0, ENUM): 4, (4, UINT32): START})]
        for k, sport in enumerate((5, 2, 1)):
            first, last = 400 * k, 400 * k + 399
            parts += [message(12, {(0, ENUM): sport})]
            parts += [message(20, {TIME: START + at, HEART: 120 + at % 9, DISTANCE: 500 * (at - first + far * k)}) for at in range(first, last + 1)]
            known = {TIME: START + last, BEGIN: START + first, ELAPSED: 399000, TIMER: 399000, LENGTH: 199500}
            parts += [message(19, known | {(25, ENUM): sport}), message(18, known | {(5, ENUM): sport})] if k < 2 else []
        file = made(name.replace(" ", "-") + ".fit", framed(b"".join(parts))[:-2])

        def judge_leg(shown, saved):
            path = pathlib.Path(saved[-1])
            said = [dict(it.split("=") for it in line.split(" ")[2:]) for line in run(fitrec, "show", path)[1].splitlines() if " session " in line]
            known = [(it["sport"], int(it["start_time"]) - START, it["total_elapsed_time"]) for it in said]
            yield "its sessions", differs(known, [("5", 0, "399000"), ("2", 400, "399000"), ("1", 800, "399000")])
            yield "the numbers of the last one", differs([said[2][it] for it in ("message_index", "first_lap_index", "num_laps", "total_distance")],
                                                         ["2", "2", "1", "199500"])
            added = "The totals of a part were missing."
            yield "its heading", differs(shown[-1]["heading"], "Your triathlon is rescued")
            yield "what it says", unless(added in shown[-1]["reason"], shown[-1]["reason"], added)

        for width, window in WIDTHS.items():
            browser.visit("a triathlon %s, at %s" % (name, width), [{"files": file}, SAVE], judge_leg, **window)
    # A hole takes the totals of one leg: the numbers of the others tell which. After a hole a distance that begins anew is a fault.
    for gone, far in ((0, 400), (1, 400), (2, 0), (2, 400)):
        parts, holes = [message(0, {(0, ENUM): 4, (4, UINT32): START})], []
        for k, sport in enumerate((5, 2, 1)):
            first, last = 400 * k, 400 * k + 399
            parts += [message(12, {(0, ENUM): sport})]
            parts += [message(20, {TIME: START + at, HEART: 120 + at % 9, DISTANCE: 500 * (at - first + far * k)}) for at in range(first, last + 1)]
            own = {TIME: START + last, BEGIN: START + first, ELAPSED: 399000, TIMER: 399000, LENGTH: 199500, (254, UINT16): k}
            parts += [message(19, own | {(25, ENUM): sport}), message(18, own | {(5, ENUM): sport})]
            if k == gone:
                holes = sum(map(len, parts[:-2])), sum(map(len, parts))
        content = b"".join(parts) + message(34, {TIME: START + 1199, (1, UINT16): 3})
        file = made("totals-of-leg-%d-%d.fit" % (gone, far), framed(content[:holes[0]] + b"\x0F" * (holes[1] - holes[0]) + content[holes[1]:])[:-1] + b"\0")

        def judge_lost(shown, saved, gone=gone):
            said = [dict(it.split("=") for it in line.split(" ")[2:]) for line in run(fitrec, "show", pathlib.Path(saved[-1]))[1].splitlines()
                    if " session " in line]
            known = [(it["sport"], int(it["start_time"]) - START, it["message_index"], it["total_distance"]) for it in said]
            lengths = ["199500" if int(it["message_index"]) != gone else it["total_distance"] for it in said]
            yield "its sessions", differs(known, [(sport, 400 * k, str(k), length) for k, (sport, length) in enumerate(zip("521", lengths))])
            yield "its heading", unless(shown[-1]["heading"].endswith("our triathlon is rescued"), shown[-1]["heading"], "is rescued")
            yield "what it says", unless("The totals of a part were missing." in shown[-1]["reason"], shown[-1]["reason"], "totals")

        browser.visit("a triathlon without the totals of leg %d, %d" % (gone + 1, far), [{"files": file}, SAVE], judge_lost)
    # A bit has changed in what says that a file is an activity, and a copy as text has put a byte before others.
    sound = ride([(at, {HEART: 120 + at % 9, DISTANCE: 500 * at}) for at in range(300)], [(0, 299, 149500, {(5, ENUM): 2})])
    changed = made("changed-type.fit", sound[:27] + b"\6" + sound[28:])[0]
    as_text = made("as-text.fit", sound.replace(b"\n", b"\r\n"))[0]
    beside = made("changed-header.fit", sound[:8] + b"/" + sound[9:27] + b"\5" + sound[28:])[0]

    def judge_whole(said, content):
        def judge(shown, saved):
            yield "its heading", differs(shown[-1]["heading"], RESCUED)
            yield "what it says", unless(said in shown[-1]["reason"], shown[-1]["reason"], said)
            yield "its samples", differs(rows(bytes_of(pathlib.Path(saved[-1]))), rows(sound))
            yield "it is an activity", differs(run(fitrec, "check", pathlib.Path(saved[-1]))[0], 0)
            yield "the file", unless(content in (None, bytes_of(pathlib.Path(saved[-1]))), "another one", "as it was before")
        return judge

    for width, window in WIDTHS.items():
        browser.visit("another type, at %s" % width, [{"files": [changed]}, SAVE], judge_whole("all of it could be read.", None), **window)
        browser.visit("a copy as text, at %s" % width, [{"files": [as_text]}, SAVE], judge_whole("It was copied as text", sound), **window)
        browser.visit("another type, and another header, at %s" % width, [{"files": [beside]}, SAVE], judge_whole("all of it could be read.", None), **window)
    # What was done to a file that is undone: one bit of the layout of samples, a cluster twice, and two clusters in each other's place.
    run(fitrec, "save", recorded(fitrec, folder / "undone", tour(900)), folder / "undone.fit")
    long = bytes_of(folder / "undone.fit")
    with_bit = lambda at, bit: long[:at] + bytes([long[at] ^ bit]) + long[at + 1:]
    exchanged = bytearray(long)
    exchanged[8192:12288], exchanged[16384:20480] = long[16384:20480], long[8192:12288]
    beside = bytearray(long)
    beside[8192:12288], beside[12288:16384] = long[12288:16384], long[8192:12288]
    # The definition by which nearly all samples are read.
    changed_bit, at = "A tiny part of it had changed", long.index(b"\0\0\x14\0\x0a")
    done = {"a bit of a layout": (with_bit(at + 8, 4), changed_bit),
            "a bit of a time": (with_bit(long.index((START + 200).to_bytes(4, "little")) + 2, 8), changed_bit),
            "a cluster twice": (long[:12288] + long[8192:], "in a wrong order or there twice"),
            "clusters exchanged": (bytes(exchanged), "in a wrong order or there twice"),
            "clusters side by side exchanged": (bytes(beside), "in a wrong order or there twice"),
            "another type of a field": (with_bit(at + 10, 1), changed_bit)}

    def judge_undone(said):
        def judge(shown, saved):
            first, _, second = shown[-1]["reason"].partition("\n")
            yield "its heading", differs(shown[-1]["heading"], RESCUED)
            yield "what it says", unless(said in first and "Nothing is missing any more" in second, shown[-1]["reason"], said)
            yield "the file is as it was", differs(bytes_of(pathlib.Path(saved[-1])), long)
        return judge

    for (name, (content, said)), (width, window) in itertools.product(done.items(), WIDTHS.items()):
        file = made(name.replace(" ", "-") + ".fit", content)
        browser.visit("%s, at %s" % (name, width), [{"files": file}, SAVE], judge_undone(said), **window)
    # Of a ride with its journal that confirms all of it then.
    stopped = recorded(fitrec, folder / "stopped", [*tour(600)[:-1], "stop %d" % (START + 1500)], "--checked")
    content = bytes_of(stopped / NAMES[0])
    at = content.index(b"\x70\x21", len(content) // 2) + 1
    (stopped / NAMES[0]).write_bytes(content[:at] + bytes([content[at] ^ 64]) + content[at + 1:])

    def judge_confirmed(shown, saved):
        it = shown[-1]
        yield "its heading", differs(it["heading"], RESCUED)
        yield "what it says", unless(changed_bit in it["reason"] and "Everything that the device had confirmed" in it["reason"], it["reason"], changed_bit)
        yield "no doubt", unless("fit together" not in it["reason"] and not it["next"], (it["reason"], it["next"]), "no next step")
        yield "its samples", differs(len(rows(bytes_of(pathlib.Path(saved[-1])))), 600)

    # The end is wiped, with some samples: less than a new copy may have.
    def judge_wiped(shown, saved):
        it = shown[-1]
        yield "what it says", unless("A few seconds of it are missing at most." in it["reason"], it["reason"], "some are missing")
        yield "what is next", unless("Copy it from the device once more" in it["next"], it["next"], "a copy")

    wiped = made("wiped.fit", sound[:-200] + bytes(200))[0]
    for width, window in WIDTHS.items():
        browser.visit("a bit beside a journal, at %s" % width, [{"files": [stopped / it for it in NAMES]}, SAVE], judge_confirmed, **window)
        browser.visit("a wiped end, at %s" % width, [{"files": [wiped]}], judge_wiped, **window)
    spoken(browser, "a bit of a layout", [folder / "a-bit-of-a-layout.fit"], ".lead", (
        "A tiny part of it had changed", "Eine winzige Stelle hatte sich verändert", "Un endroit minuscule avait changé", "Un punto diminuto había cambiado",
        "Un punto minuscolo era cambiato"))
    spoken(browser, "a cluster twice", [folder / "a-cluster-twice.fit"], ".lead", (
        "in a wrong order or there twice", "standen falsch oder doppelt", "mal placées ou en double", "mal colocadas o repetidas", "fuori posto o doppie"))
    spoken(browser, "a copy as text", [as_text], ".lead", (
        "It was copied as text, which changes such files", "Sie wurde als Text kopiert", "Il a été copié comme texte", "Se copió como texto",
        "È stato copiato come testo"))
    spoken(browser, "a triathlon cut off", [folder / "cut-off-in-its-last-leg.fit"], ".lead", (
        "The totals of a part were missing.", "Die Summen eines Teils fehlten.", "Les totaux d’une partie manquaient.",
        "los totales de una parte", "i totali di una parte"))
    spoken(browser, "a leg without a session", [folder / "no-session-for-the-last-leg.fit"], ".lead", (
        "The totals leave out 1 min 39 sec", "Die Summen zählen ", "Les totaux ne comptent pas ", "Los totales no cuentan ",
        "I totali non contano "))
    spoken(browser, "a triathlon", [folder / "a-triathlon.fit"], "#heading", (
        "Your triathlon is rescued", "Dein Triathlon ist gerettet", "Votre séance de triathlon est récupérée",
        "Tu sesión de triatlón está recuperada",
        "La tua gara di triathlon è stata recuperata"))
    spoken(browser, "a duathlon", [folder / "a-duathlon.fit"], "#heading", (
        "Your multisport activity is rescued", "Deine Multisport-Aktivität ist gerettet", "Votre activité multisport est récupérée",
        "Tu actividad multideporte está recuperada", "La tua attività multisport è stata recuperata"))
    yield from browser.outcomes()


def of_other_words(fitrec, folder, browser):
    """A pause in what is missing, a place of another day, a clock that is set, and what follows a ride."""
    begin, number = message(0, {(0, ENUM): 4, (4, UINT32): START}), lambda n: n.to_bytes(4, "little")
    layout = b"\x40\0\0\x14\0\3" + bytes([253, 4, 0x86, 3, 1, 2, 5, 4, 0x86])

    def samples(*of, back=0):
        return layout + b"".join(b"\0" + number(START + at - back) + bytes([120 + at % 9]) + number(700 * at) for at in range(*of))

    def ending(end, paused=0):
        own = {TIME: START + end, BEGIN: START, ELAPSED: 1000 * end, TIMER: 1000 * (end - paused), LENGTH: 700 * (end - paused)}
        return message(19, own) + message(18, own) + message(34, {TIME: START + end, (1, UINT16): 1})

    put = lambda name, content: [(folder / name, (folder / name).write_bytes(content))[0]]

    def visit(name, content, says, absent=(), numbers=None, heading=None, offers=None, click=None):
        def judge(shown, made):
            last = shown[-1]
            said = last["reason"]
            yield "what it says", differs([it for it in says if it not in said], [])
            yield "what it does not say", differs([it for it in absent if it in said], [])
            yield "numbers", differs({it: last["numbers"].get(it) for it in numbers or {}}, numbers or {})
            yield "its heading", differs(last["heading"] if heading else None, heading)
            yield "its offers", differs(last["offers"] if offers is not None else None, offers)

        file = put(name.replace(" ", "-") + ".fit", content)
        for width, window in WIDTHS.items():
            browser.visit("%s, at %s" % (name, width), [{"files": file}, *([{"click": click}] if click else [])], judge, **window)
        return file

    # A pause of ten minutes that a hole takes: the session counts it, or nothing does.
    def holed(end):
        content = framed(begin + samples(800) + samples(800, 2400, back=-600) + end)
        first, last = content.index(number(START + 700)) - 1, content.index(number(START + 1501)) - 1
        return content[:first] + bytes([15]) * (last - first) + content[last:]

    gap = "%s to %s, " % (clock_of(START + 698), clock_of(START + 1501))
    counted = visit("a pause that was counted", holed(ending(3000, 600)),
                    ["Missing: " + gap + "13 min 23 sec (1.42 km), of which 10 min were a pause."],
                    numbers={"Without pauses": "0:40:00"})
    # Where the session is lost, the laps that the device wrote count it, if they have all that is missing.
    lap = lambda first, end, paused=0: message(19, {TIME: START + end, BEGIN: START + first, ELAPSED: 1000 * (end - first),
                                                    TIMER: 1000 * (end - first - paused), LENGTH: 700 * (end - first - paused)})
    for name, laps in (("a lap", lap(0, 2999, 600)), ("two laps", lap(0, 650) + lap(650, 2999, 600))):
        visit("a pause that %s counted" % name, holed(laps), ["Missing: " + gap + "13 min 23 sec (1.42 km), of which 10 min were a pause."],
              numbers={"Duration": "0:49:59", "Without pauses": "0:39:59", "Average speed": "25.2 km/h"})
    visit("a pause of which a lap counted no second", holed(lap(0, 650)), [gap + "perhaps with a pause."])
    visit("a hole in a lap without a pause", holed(lap(0, 2999)), [gap + "13 min 23 sec (1.42 km)."], absent=["pause"])
    # 49 min 59 sec of the clock, with a pause of which nothing says how long it was.
    visit("a pause that nothing counts", holed(b""), [gap + "perhaps with a pause."],
          numbers={"Duration": "0:49:59", "Without pauses": "at most 0:49:59", "Average speed": None})

    # A clock that leaps five years ahead for some samples is set right in a damaged file too, and one that was cut off.
    leapt = framed(begin + samples(600) + samples(600, 640, back=-157680000) + samples(640, 1800) + ending(1799))
    for name, content in (("a changed checksum", leapt[:-1] + bytes([leapt[-1] ^ 90])), ("without its last bytes", leapt[:-2])):
        visit("a clock that leapt for a moment, and %s" % name, content, ["The clock of the device was wrong for"], absent=["Missing"],
              numbers={"Duration": "0:29:59"})
    # What follows a whole activity is none of it, such as the rest of an older one.
    known = {TIME: START - 6301, BEGIN: START - 7200, ELAPSED: 899000, TIMER: 899000, LENGTH: 700 * 899}
    older = samples(900, back=7200) + message(19, known) + message(18, known) + message(34, {TIME: START - 6301, (1, UINT16): 1})
    visit("an older one after the end", framed(begin + samples(900) + ending(899)) + older, ["What follows after its end is of another activity"], absent=["Missing"],
          numbers={"Duration": "0:14:59", "Distance": "6.29 km"})
    # Laps alone are lost.
    total = {TIME: START + 899, BEGIN: START, ELAPSED: 899000, TIMER: 899000, LENGTH: 700 * 899}
    visit("laps that are lost", framed(begin + samples(900) + message(18, total) + message(34, {TIME: START + 899, (1, UINT16): 1})),
          ["The laps were missing. They have been added"])

    # The timer starts before the first sample, as the saved session has it: 1232 m in 176 s.
    started = begin + message(21, {TIME: START, (0, ENUM): 0, (1, ENUM): 0}) + samples(46, 177)
    visit("a start before the first sample", framed(started)[:-2], ["They have been added"],
          numbers={"Duration": "0:02:56", "Without pauses": "0:02:56", "Distance": "1.23 km", "Average speed": "25.2 km/h"})

    # The first place is 1.00001 degrees further north than all others, of 111.195 km each, by a sphere of 6,371 km.
    def places(stray):
        lat = lambda at: 49.01 + at / 1000 if at < stray else 48 + at / 1e5
        return [(at, {LAT: int(lat(at) * SEMICIRCLE), LONG: int(8.5 * SEMICIRCLE), HEART: 120 + at % 9}) for at in range(1000)]

    stray = ride(places(1), [(0, 999, None, {})])
    visit("a stray place", stray, ["One place, 111.20 km from the others, is left out of the picture, not of the files."], heading=FINE)
    visit("some stray places", ride(places(5), [(0, 999, None, {})]), ["5 places, up to 111.64 km from the others, are left out"], heading=FINE)
    # A click leaves them out of the file too, also as the start of a lap and a ride, and another one goes back.
    begins = {(3, LAT[1]): int(49.01 * SEMICIRCLE), (4, LAT[1]): int(8.5 * SEMICIRCLE)}
    moving = ride(places(5), [(0, 999, None, begins)], [(0, 999, None, begins)])
    for name, content, heading in (("whole", moving, FINE), ("with a wrong checksum", moving[:-1] + bytes([moving[-1] ^ 1]), "Your activity is rescued")):
        file = put("stray-%s.fit" % name.replace(" ", "-"), content)

        def judge_out(shown, made, heading=heading):
            first, then, last = shown[0], shown[1], shown[3]
            yield "its offer", differs((first["heading"], first["offers"]), (heading, ["Leave these places out of the files too"]))
            yield "what is left", differs((then["heading"], then["offers"]),
                                          ("The places of your activity are corrected" if heading == FINE else heading, ["Go back"]))
            yield "what it says", differs(("left out of the new file" in then["reason"], "not of the files" in then["reason"]), (True, False))
            kept = bytes_of(pathlib.Path(made[2]))
            away = {"position_lat", "position_long"}
            # What leaps may be left out of a damaged file.
            wanted, left = [{key: it for key, it in own.items() if at > 4 or key not in away} for at, own in enumerate(rows(moving))], rows(kept)
            yield "the samples", differs([it for it in left if it not in wanted], [])
            yield "their number", unless(len(wanted) - len(left) <= (0 if heading == FINE else 5), len(left), len(wanted))
            yield "laps and sessions", differs([[key for key in it if "position" in key] for it in rows(kept, 19) + rows(kept, 18)], [[], []])
            (folder / "kept.fit").write_bytes(kept)
            yield "it is an activity", differs(run(fitrec, "check", folder / "kept.fit")[0], 0)
            yield "the way back", differs([last[key] for key in ("heading", "reason", "offers")], [first[key] for key in ("heading", "reason", "offers")])

        for width, window in WIDTHS.items():
            browser.visit("places %s that are left out, at %s" % (name, width), [{"files": file}, {"click": "#offers button"}, SAVE,
                                                                                {"click": "#offers button:last-child"}], judge_out, **window)
    visit("no stray place", ride(places(0), [(0, 999, None, {})]), ["It is complete"], absent=["left out of the picture"], heading=FINE)

    # A clock that is set back or ahead by an hour, in the midst of the way. One click moves the other part.
    back = framed(begin + samples(1000) + samples(1000, 1800, back=3600) + ending(1800))
    wrong = "The clock of the device was wrong for %s from %s on."
    other, keep = "Move the other times instead", "Keep the times as they were"
    file = visit("a clock set back", back, [wrong % ("16 min 40 sec", clock_of(START - 3600))], offers=[keep, other],
                 heading="The times of your activity are corrected")
    visit("a clock set back and the other part", back, [wrong % ("13 min 20 sec", clock_of(START + 1000))], offers=[keep, "Go back"],
          heading="The times of your activity are corrected", click="#offers button:nth-child(2)")
    cut = begin + samples(1000) + samples(1000, 1800, back=3600)
    visit("a clock set back and cut off", framed(cut)[:-2], [wrong % ("16 min 40 sec", clock_of(START - 3600))], offers=[keep, other])
    visit("a clock set back and cut off and the other part", framed(cut)[:-2], [wrong % ("13 min 20 sec", clock_of(START + 1000))],
          offers=[keep, "Go back"], click="#offers button:nth-child(2)")
    ahead = framed(begin + samples(1000) + samples(1000, 1800, back=-3600) + ending(5400))
    leap = [(folder / "ahead.fit", (folder / "ahead.fit").write_bytes(ahead))[0]]

    # What follows a ride that is closed is none of it: noise, and the midst of another file, where the header states no length or one of all.
    whole = begin + samples(1800) + ending(1800)
    noise = bytes(15 + (at * 7919 % 13) * 16 for at in range(9000))
    opened = lambda size, content: bytes([14, 0x10, 100, 0]) + size.to_bytes(4, "little") + b".FIT\0\0" + content
    follows = "What follows after its end is of another activity or cannot be read, and was not added."
    for name, size in (("no length", 0), ("a length of all", len(whole) + len(noise))):
        visit("noise after a ride of " + name, opened(size, whole + noise), [follows], absent=["Missing", "cannot be read (", "could close"],
              heading="Your activity is rescued", numbers={"Samples": "1,800", "Duration": "0:30:00"})

    days = put("days.fit", framed(begin + samples(1000) + bytes([15]) * 40 + samples(5000, 5800, back=-2 * 86400))[:-2])
    spoken(browser, "samples of days later", days, ".lead", (
        "begins days later, and is left out", "beginnt Tage später und ist weggelassen", "commence des jours plus tard et est laissé",
        "empieza días después y se ha omitido", "comincia giorni dopo ed è escluso"))
    # What a website answers instead of the file.
    page = b"<!DOCTYPE html><html><head><title>Sign in</title></head><body>login</body></html>"
    visit("a web page", page, ["a-web-page.fit is a web page, not a ride: download it again."], heading=NOTHING)
    spoken(browser, "a web page", [folder / "a-web-page.fit"], ".lead", (
        "is a web page, not a ride", "ist eine Webseite, keine Fahrt", "est une page web, pas une sortie",
        "es una página web, no una salida", "è una pagina web, non un’uscita"))
    # A whole file whose clock was wrong is not fine, in a list too.
    early = b"".join(message(20, {TIME: 100 + at, HEART: 120}) for at in range(300))
    own = {TIME: 400, BEGIN: 100, ELAPSED: 300000, TIMER: 300000}
    closing = message(19, own) + message(18, own) + message(34, {TIME: 400, (1, UINT16): 1})
    files = [*put("early.fit", framed(message(0, {(0, ENUM): 4, (4, UINT32): 100}) + early + closing)), *put("whole.fit", framed(whole))]

    def of_list(shown, made):
        yield "its rides", differs([(it[0], it[4]) for it in shown[0]["list"]], [("early.fit", DATED), ("whole.fit", FINE)])
        yield "what counts", differs(shown[0]["listHeading"], "2 activities: 1 fine and 1 with wrong times")

    for width, window in WIDTHS.items():
        browser.visit("a wrong clock in a list, at %s" % width, [{"files": files}], of_list, **window)
    spoken(browser, "a wrong clock in a list", files, "#listHeading", (
        "1 with wrong times", "1 mit falschen Zeiten", "aux heures fausses : 1", "con horas erróneas: 1", "con orari sbagliati: 1"))
    spoken(browser, "a pause", counted, ".lead", (
        "of which 10 min were a pause.", "davon 10 Min. Pause.", "dont 10\u00a0min de pause.",
        "de los que 10 min fueron una pausa.", "di cui 10 min di pausa."))
    spoken(browser, "at most", [folder / "a-pause-that-nothing-counts.fit"], "#numbers", (
        "at most 0:49:59", "höchstens 0:49:59", "au plus 0:49:59", "como mucho 0:49:59", "al massimo 0:49:59"))
    spoken(browser, "a stray place", [folder / "a-stray-place.fit"], "#reason", (
        "One place, 111.20 km from the others", "Ein Ort, 111,20 km von den anderen entfernt, fehlt im Bild, nicht in den Dateien.",
        "Un lieu, à 111,20 km des autres, n’est pas dans l’image, mais reste dans les fichiers.",
        "Un lugar, a 111,20 km de los demás, no está en la imagen, pero sí en los archivos.",
        "Un luogo, a 111,20 km dagli altri, non è nell’immagine, ma resta nei file."))
    spoken(browser, "a stray place, with its offer", [folder / "a-stray-place.fit"], "#offers", (
        "Leave these places out of the files too", "Diese Orte auch in den Dateien weglassen", "Retirer ces lieux aussi des fichiers",
        "Quitar estos lugares también de los archivos", "Togli questi luoghi anche dai file"))
    spoken(browser, "a clock set ahead", leap, "#reason", (
        "the clock leaps ahead by about 1 hr", "springt die Uhr mitten in der Bewegung um etwa 1 Std. vor",
        "l’horloge avance d’un coup d’environ 1", "el reloj se adelanta de golpe cerca de 1",
        "l’orologio avanza di colpo di circa 1"))
    spoken(browser, "a clock set ahead, with its offer", leap, "#offers", (
        "Correct the times", "Die Zeiten berichtigen", "Corriger les heures", "Corregir las horas", "Correggi gli orari"))
    spoken(browser, "a clock set back", file, "#offers", (
        other, "Stattdessen die anderen Zeiten verschieben", "Décaler plutôt les autres heures", "Desplazar en su lugar las otras horas",
        "Sposta invece gli altri orari"))
    yield from browser.outcomes()


def of_lost_fronts(fitrec, folder, browser):
    """Our own recordings whose layouts are lost are read: how they write samples is known, with the time of the first that is stated in full,
    or of their beginning. Samples of an older ride in them, of which no time goes back, are left out."""
    fields = {"lat": 566012345, "long": 102345678, "alt": 2700, "hr": 120, "cad": 80, "dist": 1000, "speed": 7000, "power": 200, "temp": 15}

    def lines(names, begin=START, far=0, pace=700):
        """A ride of 25 minutes with these fields of a sample, with a pause and a lap."""
        yield "start %d 7 cycling" % begin
        for at in range(1500):
            if at == 700:
                yield from ("pause %d" % (begin + at), "resume %d" % (begin + at + 200))
            if at == 1000:
                yield "lap %d" % (begin + at + 200)
            own = {**fields, "lat": fields["lat"] + 600 * at + far, "hr": 120 + at % 9, "dist": pace * at + 1000, "power": 200 + at % 50}
            yield "sample %d %s" % (begin + at + 200 * (at >= 700), " ".join("%s=%d" % (it, own[it]) for it in names))
        yield "commit"

    def saved_of(where):
        run(fitrec, "save", where, where / "saved.fit")
        return bytes_of(where / "saved.fit")

    def judged(data, least, keys, heading="Most of your", said=""):
        of = lambda it: [it.get(key) for key in keys]

        def judge(shown, saved):
            there, kept = [of(it) for it in rows(data)], [of(it) for it in rows(bytes_of(pathlib.Path(saved[-1])))]
            yield "its heading", unless(shown[-1]["heading"].startswith(heading), shown[-1]["heading"], heading)
            yield "what it says", unless(said in shown[-1]["reason"], shown[-1]["reason"], said)
            yield "its samples are those of the ride", differs([it for it in kept if it not in there], [])
            yield "its samples", unless(len(kept) >= least, len(kept), least)
            if "distance" not in keys:
                copied = "opy it from the device once more" in shown[-1]["next"] or "opy both files from the device" in shown[-1]["next"]
                yield "what is next", unless(copied or "choose it too" in shown[-1]["next"], shown[-1]["next"], "a copy")
                yield "what is missing", unless("Missing: what came before " in shown[-1]["reason"], shown[-1]["reason"], "what came before")
        return judge

    some = [("all", list(fields)), ("a watch", ["lat", "long", "alt", "hr", "dist", "speed"]), ("a heart rate", ["hr", "dist"]),
            ("a trainer", ["hr", "cad", "dist", "speed", "power"])]
    for (name, names), (begin, end) in itertools.product(some, ((0, 512), (60, 512), (0, 4096))):
        where = recorded(fitrec, folder / ("%s %d %d" % (name, begin, end)).replace(" ", "-"), list(lines(names)))
        data, whole = bytes_of(where / NAMES[0]), saved_of(where)
        (where / NAMES[0]).write_bytes(data[:begin] + bytes(end - begin) + data[end:])
        least = 1500 - 4 - (end - begin) * 1500 // (len(data) - 200)
        for files, (width, window) in itertools.product(([NAMES[0]], NAMES), WIDTHS.items()):
            browser.visit("%s, without bytes %d to %d, %d files, %s" % (name, begin, end, len(files), width),
                          [{"files": [where / it for it in files]}, SAVE], judged(whole, least, ("timestamp", "heart_rate", "power")), **window)
    # A cluster of a ride of the day before, by the same device.
    names = [it for it in fields if it != "temp"]
    own = recorded(fitrec, folder / "own", list(lines(names)))
    data, whole = bytes_of(own / NAMES[0]), saved_of(own)
    old = bytes_of(recorded(fitrec, folder / "old", list(lines(names, START - 86400, 9000000, 900))) / NAMES[0])
    # After the first one comes a lap with its time, after the other none.
    for at, time in (8192, ["timestamp"]), (24576, []):
        (folder / str(at)).mkdir()
        (folder / str(at) / NAMES[0]).write_bytes(data[:at] + old[at - 4096:at] + data[at + 4096:])
        for width, window in WIDTHS.items():
            browser.visit("a cluster of an older ride at %d, %s" % (at, width), [{"files": [folder / str(at) / NAMES[0]]}, SAVE],
                          judged(whole, 1500 - 4096 // 21 - 8, [*time, "distance", "heart_rate", "power"]), **window)
    # The layout of laps is in a hole, with the first lap: the others are there, by their numbers.
    (folder / "laps").mkdir()
    three = recorded(fitrec, folder / "three", [*lines(names)][:-1] + ["lap %d" % (START + 1700), "sample %d hr=120" % (START + 1701), "commit"])
    content, of_three = bytes_of(three / NAMES[0]), saved_of(three)
    at = content.index(bytes.fromhex("47000013"))
    (folder / "laps" / NAMES[0]).write_bytes(content[:at - 300] + bytes(600) + content[at + 300:])

    def judge_laps(shown, saved):
        numbers = [it[0] for it in shown[-1]["laps"][1:]]
        kept = rows(bytes_of(pathlib.Path(saved[-1])), 19)
        yield "its laps", differs(numbers, ["2", "3"])
        yield "they are those of the ride", differs(kept[0], rows(of_three, 19)[1])
        yield "what it says", unless("One lap is missing." in shown[-1]["reason"], shown[-1]["reason"], "one is missing")

    for width, window in WIDTHS.items():
        browser.visit("the layout of laps in a hole, %s" % width, [{"files": [folder / "laps" / NAMES[0]]}, SAVE], judge_laps, **window)
    # The first lap, which is there, counts what came before the first sample.
    late = folder / "all 0 4096".replace(" ", "-") / NAMES[0]
    spoken(browser, "a first lap that counts what is missing", [late], ".more", (
        "The first lap counts what is missing too.", "Die erste Runde zählt auch, was fehlt.", "Le premier tour compte aussi ce qui manque.",
        "La primera vuelta cuenta también lo que falta.", "Il primo giro conta anche ciò che manca."))
    # What a card had where the recording ends: the rest of that ride, or nothing, where the journal tells that there was more.
    (folder / "tail").mkdir()
    (folder / "tail" / NAMES[0]).write_bytes(data[:16384] + old[16384:])
    for width, window in WIDTHS.items():
        browser.visit("the end of an older ride, %s" % width, [{"files": [folder / "tail" / NAMES[0]]}, SAVE],
                      judged(whole, (16384 - 300) // 21 - 4, ("timestamp", "distance", "power"), "Your ", "is elsewhere, so it is of another activity"),
                      **window)
    for byte in (0, 255):
        half = recorded(fitrec, folder / ("half %d" % byte), list(lines(names)), "--checked")
        content = bytes_of(half / NAMES[0])
        (half / NAMES[0]).write_bytes(content[:16384] + bytes([byte]) * (len(content) - 16384))
        for width, window in WIDTHS.items():
            browser.visit("a half that was never written, %d, %s" % (byte, width), [{"files": [half / it for it in NAMES]}, SAVE],
                          judged(whole, (16384 - 300) // 21 - 4, ("timestamp", "distance", "power"), "Most of your",
                                 "it was cut off, or activity.frj is of another"), **window)
    # A journal of another ride, with samples of one size: it confirms each ten samples, and not nine tenths of this one.
    commits = [it for k, it in enumerate(lines(names)) for it in ([it, "commit"] if k in (20, 30, 40) else [it])][:44]
    foreign = recorded(fitrec, folder / "foreign", commits)
    for width, window in WIDTHS.items():
        browser.visit("a journal of another ride, %s" % width, [{"files": [own / NAMES[0], foreign / NAMES[1]]}, SAVE],
                      judged(whole, 1500, ("timestamp", "distance", "power"), "Your ride is rescued", "The two files do not fit together"), **window)
    # Without a pause no time is stated in full after the beginning.
    alone = recorded(fitrec, folder / "alone", [it for it in lines(names) if it.split(" ")[0] not in ("pause", "resume", "lap")])
    content = bytes_of(alone / NAMES[0])
    (alone / NAMES[0]).write_bytes(bytes(512) + content[512:700 * 21])
    spoken(browser, "a recording whose date is lost", [alone / NAMES[0]], "#beganWhy", (
        "The date and the time were in the part that is lost.", "Datum und Uhrzeit standen in dem Teil, der fehlt.",
        "La date et l’heure étaient dans la partie perdue.", "La fecha y la hora estaban en la parte perdida.", "La data e l’ora erano nella parte perduta."))
    spoken(browser, "a recording whose beginning is lost", [alone / NAMES[0]], ".lead", (
        "Missing: about 1 min at its beginning.", "etwa 1 Min. am Anfang", "environ 1\xa0min au début", "unos 1 min al comienzo", "circa 1 min all’inizio"))
    spoken(browser, "the question of one whose beginning is lost", [alone / NAMES[0]], "[for=began]", (
        "When did the rescued part begin?", "Wann begann der gerettete Teil?", "Quand la partie récupérée a-t-elle commencé",
        "¿Cuándo empezó la parte recuperada?", "Quando è iniziata la parte recuperata?"))
    yield from browser.outcomes()
