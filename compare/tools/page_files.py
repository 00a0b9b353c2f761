"""The page in a browser: each kind of file that is chosen or dropped, and what it offers."""

import pathlib
import random
import re
import shutil
import zipfile

from tools.checks import differs, unless
from tools.fit_files import framed
from tools.page_values import ENUM, UINT32, message
from tools.pages import RIDE, START, both, by_device, copy, recorded, rounded, rows, tour
from tools.program import NAMES, bytes_of, run
from tools.rides import uncommitted
from tools.visits import COMPLETED, FINE, MOSTLY, NOTHING, PARTLY, RESCUED, WINDOWS

# Samples after the last commit, more than a recorder keeps back.
NOT_COMMITTED = ["sample %d hr=100 power=200 dist=%d" % (1000000300 + at, 240000 + at) for at in range(120)]
DRAWN = ["Track", "Speed", "Heart rate", "Altitude", "Power"]


def inputs(fitrec, folder):
    """Chosen files of each kind, each with what the page has to show: its heading, words of its reason, words for whoever repairs the device,
    the file that it offers, and the buttons; and, if activity.fit cannot be read to its end, the first byte that cannot."""
    torn = recorded(fitrec, folder / "torn", RIDE)
    longer = recorded(fitrec, folder / "longer", [*RIDE, "sample 1000000300 hr=100", "commit"])
    ride, journal = both(torn)
    run(fitrec, "repair", shutil.copytree(torn, folder / "mended"))
    run(fitrec, "save", torn, folder / "ride.fit")
    whole = (folder / "mended/activity.fit").read_bytes()
    made = lambda name, content: [(folder / name, (folder / name).write_bytes(content))[0]]
    by = lambda name, *words: (run(fitrec, "salvage", *words, "--plain", folder / name, folder / "made.fit"),
                               (folder / "made.fit").read_bytes())[1]
    finished = by("torn/activity.fit", "--finish")
    more = recorded(fitrec, folder / "more", [*RIDE, *NOT_COMMITTED])
    changed = recorded(fitrec, folder / "changed", [*RIDE, "sample 1000000300 hr=100", "commit"], "--checked")
    bytes_there = bytearray((changed / "activity.fit").read_bytes())
    bytes_there[-1] ^= 1
    (changed / "activity.fit").write_bytes(bytes_there)
    count, left_out = uncommitted(*(it.read_bytes() for it in both(more))), len(bytes_there) - ride.stat().st_size
    saved, end = (folder / "ride.fit").read_bytes(), ride.stat().st_size
    instead, the_end = ["Take everything that can be read instead"], ["Add the unconfirmed end"]
    begun, pair = "The device had not confirmed anything", "The two files do not fit together: activity.fit or activity.frj is damaged"
    yield "a recording", both(torn), RESCUED, "confirmed", "confirms all", saved, []
    made("more.fit", (more / NAMES[0]).read_bytes())
    last, before = (rows(it)[-1] for it in (by("more.fit", "--all"), saved))
    beyond = "Another 1 min %d sec (%s km)" % (last["timestamp"] - before["timestamp"] - 60, rounded((last["distance"] - before["distance"]) / 1e5, 2))
    yield ("a recording and more messages", both(more), RESCUED, beyond, "%s bytes of whole messages" % f"{count:,}",
           saved, the_end)
    yield ("a recording with a changed byte", both(changed), MOSTLY, "The end of the recording is damaged", "with %d bytes" % left_out, saved,
           instead)
    all_over = [*made("activity.fit", bytes_there[:14] + random.Random(1).randbytes(len(bytes_there) - 14)), changed / NAMES[1]]
    yield "a recording changed all over", all_over, NOTHING, "Nothing in the file can be read", "another checksum", None, []
    yield "a tail that cannot be read", both(more), RESCUED, "could not be read to its end", "from byte %s on" % f"{end:,}", saved, [], end
    front = made("front.fit", (more / NAMES[0]).read_bytes()[:4096])[0]
    yield ("a body that cannot be read", both(more), RESCUED, "could not be read to its end", "from byte 4,096 on",
           by(front.name, "--finish"), [], 4096)
    yield "a whole file", made("whole.fit", whole), FINE, "complete and undamaged", "", None, []
    cut = made("cut.fit", whole[:3000])
    yield "a file that was cut off", cut, PARTLY, "The file was cut off", "ends too soon", by("cut.fit", "--finish"), []
    yield "a ride without its journal", [ride], RESCUED, "before it could close", "checksum of the file is wrong", finished, []
    made("wrong.fit", bytes([*whole[:-1], whole[-1] ^ 1]))
    yield "a wrong checksum", [folder / "wrong.fit"], RESCUED, "Some values may be wrong", "checksum of the file is wrong", by("wrong.fit"), []
    made("bare.fit", by("torn/activity.fit"))
    yield "a file without a summary", [folder / "bare.fit"], RESCUED, COMPLETED, "no lap message", by("bare.fit", "--finish"), []
    yield "no FIT file", made("notes.fit", b"notes of a ride"), NOTHING, "notes.fit is not a FIT file", "", None, []
    yield "an empty file", made("empty.fit", b""), NOTHING, "empty.fit is empty", "", None, []
    # A journal that counts more bytes than there are is of another ride, or the file was cut off.
    goes = "activity.fit goes to 1:51:39 AM: it was cut off, or activity.frj is of another activity."
    yield "a longer journal", [ride, longer / NAMES[1]], MOSTLY, goes, "counts more bytes than the data file has", finished, []
    short = recorded(fitrec, folder / "short", [RIDE[0], "sample 1000000001 hr=100", "commit"])
    yield "files of two rides", [ride, short / NAMES[1]], RESCUED, pair, "not those of one recording", finished, []
    (folder / "headless").mkdir()
    (folder / "noisy").mkdir()
    headless = [ride, *made("headless/activity.frj", bytes(8) + journal.read_bytes()[8:])]
    yield "a journal whose head is damaged", headless, RESCUED, "activity.frj is damaged.", "no commit that counts", finished, []
    noisy = [ride, *made("noisy/activity.frj", b"FRJD" + bytes(4) + bytes(range(7, 55)))]
    yield "a journal whose slots are damaged", noisy, RESCUED, "activity.frj is damaged.", "no commit that counts", finished, []
    no_commit = [ride, *made("activity.frj", b"FRJD" + bytes(52))]
    yield "a journal of nothing", no_commit, RESCUED, begun, "no commit that counts", finished, []
    yield "a journal alone", [journal], "One more file is needed", "nothing of the recording itself", "", None, []


def of_inputs(fitrec, folder, browser):
    """Each kind of input, chosen on a wide window and dropped on a narrow and dark one; what is offered is saved by keys and by a click."""

    def judged(heading, reason, details, content, offers):
        def judge(shown, made):
            last = shown[-1]
            is_right = last["heading"] == heading and reason in last["reason"] and details in last["details"]
            yield "what it says", unless(is_right, (last["heading"], last["reason"], last["details"]), (heading, reason, details))
            said = " ".join(last[it] for it in ("heading", "reason", "next"))
            yield "no word of a maker", differs(re.findall(r"(?i)byte|checksum|message|journal|commit|fsck|saved", said), [])
            yield "the focus", differs(shown[0]["focus"], "result")
            yield "the file", differs(bytes_of(pathlib.Path(made[2])) if content else last["download"] or None, content)
            yield "offers", differs(last["offers"], offers)
            yield "pictures", differs(last["pictures"], DRAWN if content or heading == FINE else [])
            if heading in (RESCUED, MOSTLY, FINE) and "to its end" not in reason:
                numbers = {"Duration": "0:04:59", "Without pauses": "0:04:59", "Distance": "2.33 km", "Samples": "300", "Laps": "1"}
                yield "numbers", differs({it: last["numbers"].get(it) for it in numbers}, numbers)
        return judge

    for name, files, heading, reason, details, content, offers, *unread in inputs(fitrec, folder):
        judge = judged(heading, reason, details, content, offers)
        chosen = [{"files": files}, {"keys": ["Tab"]}, *([{"download": "Enter"}] if content else [])]
        browser.visit(name + ", chosen", chosen, judge, unread=sum(unread))
        dropped = [{"files": files, "drop": True}, {"wait": 1}, *([{"download": "#save"}] if content else [])]
        browser.visit(name + ", dropped", dropped, judge, unread=sum(unread), **WINDOWS["narrow and dark"])
    yield from browser.outcomes()


def of_choosing(fitrec, folder, browser):
    """Files one after the other, folders, other names, and what is offered for files that are not saved at once."""
    torn = recorded(fitrec, folder / "torn", RIDE)
    ride, journal = both(torn)
    made = lambda name, content: [(folder / name, (folder / name).write_bytes(content))[0]]
    by = lambda name, *words: (run(fitrec, *words, folder / name), (folder / name).read_bytes())[1]
    saved, alone = by("ride.fit", "save", torn), by("alone.fit", "salvage", "--finish", "--plain", ride)

    def last(heading, content, reason="", next="", offers=()):
        def judge(shown, made):
            it = shown[-1]
            yield "what it says", unless((it["heading"], reason in it["reason"], next in it["next"]) == (heading, True, True),
                                         (it["heading"], it["reason"], it["next"]), (heading, reason, next))
            yield "the file", differs(bytes_of(pathlib.Path(made[-1])) if content else it["download"] or None, content)
            yield "offers", differs(it["offers"], list(offers))
        return judge

    for window in WINDOWS:
        take = [{"download": "#save"}]
        for name, order in (("the ride first", [ride, journal]), ("the journal first", [journal, ride])):
            browser.visit("%s, %s" % (name, window), [{"files": [it]} for it in order] + take, last(RESCUED, saved), **WINDOWS[window])
        browser.visit("the ride alone, %s" % window, [{"files": [ride]}, *take],
                      last(RESCUED, alone, next="If activity.frj is in the same folder"), **WINDOWS[window])
    deep = folder / "card/GARMIN/ACTIVITY"
    deep.parent.mkdir(parents=True)
    copy(both(torn), deep, ["ACTIVITY.FIT", "ACTIVITY.FRJ"])
    (folder / "card/notes.txt").write_text("notes")
    (deep / "._ACTIVITY.FIT").write_bytes(bytes.fromhex("0005160700020000") + bytes(100))
    browser.visit("a card", [{"files": [folder / "card"], "drop": True}, {"download": "#save"}], last(RESCUED, saved))
    renamed = copy(both(torn), folder / "renamed", ["ride.bin", "other.dat"])
    browser.visit("renamed files", [{"files": renamed}, {"download": "#save"}], last(RESCUED, saved))

    # A card that is pulled out once its files were chosen: what was read is saved, shown and finished all the same.
    for window in WINDOWS:
        card = folder / ("pulled, " + window)
        card.mkdir()
        shutil.copytree(torn, card / "a")
        for name, serial in (("b", 8), ("c", 9)):
            recorded(fitrec, card / name, by_device(serial, RIDE)).with_suffix(".script").unlink()
        shutil.move(card / "c" / NAMES[0], card / "cut.fit")
        shutil.rmtree(card / "c")
        gone, bare = {"removed": [card]}, {"click": "#rarely button"}
        unfinished = by("unfinished.fit", "salvage", "--plain", ride)
        browser.visit("a card that is pulled out, %s" % window,
                      [{"files": [card], "drop": True}, gone, {"click": "#rides tbody tr:nth-child(2) button"}, {"download": "#save"}],
                      last(RESCUED, saved), **WINDOWS[window])
        one = folder / ("one, %s.fit" % window)
        one.write_bytes(ride.read_bytes())
        browser.visit("a file that is gone, %s" % window, [{"files": [one]}, {"removed": [one]}, bare, {"download": "#save"}],
                      last(RESCUED, unfinished, offers=["Go back"]), **WINDOWS[window])
        card = shutil.copytree(torn, folder / ("journal, " + window))
        browser.visit("a journal that is gone, %s" % window,
                      [{"files": [card / NAMES[1]]}, {"removed": [card]}, {"files": [ride]}, {"download": "#save"}], last(RESCUED, saved),
                      **WINDOWS[window])

    # What is offered, and what the program makes; and the way back from it.
    whole = by("whole.fit", "save", torn)
    # Of another ride, whose messages can be read.
    run(fitrec, "save", recorded(fitrec, folder / "later", tour(900)), folder / "later.fit")
    longer, follows = made("longer.fit", whole + (folder / "later.fit").read_bytes()[14:9000]), "Add what follows after its end"
    front, rest = by("kept.fit", "salvage", "--plain", *longer), by("all.fit", "salvage", "--all", "--skip", "--plain", *longer)
    one, back = {"click": "#offers button"}, "Go back"
    browser.visit("bytes after the end", [{"files": longer}, {"download": "#save"}],
                  last(RESCUED, front, "After its end comes more", offers=[follows]))
    # Its own beginning once more, of which nothing is added.
    again, other = made("again.fit", whole + whole[14:2000]), "What follows after its end is of another activity or cannot be read"
    browser.visit("bytes after the end that add nothing", [{"files": again}, {"download": "#save"}], last(RESCUED, front, other, offers=[]))

    def of_longer(shown, made):
        it = shown[-1]
        # What follows hides the activity message, and gets totals of its own.
        yield "its heading", differs((it["heading"], "on may be of another activity" in it["reason"]), (MOSTLY, True))
        yield "its samples", differs(rows(bytes_of(pathlib.Path(made[-1]))), rows(rest))
        yield "offers", differs(it["offers"][-1], back)

    browser.visit("bytes after the end, read", [{"files": longer}, one, {"download": "#save"}], of_longer)
    browser.visit("bytes after the end, read and left out", [{"files": longer}, one, one, {"download": "#save"}],
                  last(RESCUED, front, offers=[follows]))
    more = recorded(fitrec, folder / "more", [*RIDE, *NOT_COMMITTED])
    # A header that gives what was committed: until the ride is finished its bytes are free.
    data = (more / NAMES[0]).read_bytes()
    (more / NAMES[0]).write_bytes(data[:4] + (ride.stat().st_size - 14).to_bytes(4, "little") + data[8:])
    end = by("end.fit", "salvage", "--all", "--finish", "--plain", more / NAMES[0])
    browser.visit("the end that was not confirmed", [{"files": both(more)}, one, {"download": "#save"}],
                  last(RESCUED, end, "The end that the device had not confirmed is in it too", offers=[back]))
    browser.visit("the end that was not confirmed, and back", [{"files": both(more)}, one, one, {"download": "#save"}],
                  last(RESCUED, saved, offers=["Add the unconfirmed end"]))
    other = recorded(fitrec, folder / "other", [*RIDE, "sample 1000000300 hr=100", "commit"])
    # It counts more bytes than the ride has, so that the ride may be cut off.
    browser.visit("a longer journal of another ride", [{"files": [ride, other / NAMES[1]]}, {"download": "#save"}],
                  last(MOSTLY, alone, "it was cut off, or activity.frj is of another activity"))
    checked = recorded(fitrec, folder / "checked", [*RIDE[:1], "sample 1000000000 hr=99", *RIDE[2:]], "--checked")
    browser.visit("a journal of another ride, with a checksum", [{"files": [ride, checked / NAMES[1]]}, {"download": "#save"}],
                  last(RESCUED, alone, "do not fit together"))
    spoiled = made("spoiled.fit", whole[:3000] + bytes(80 * [0x0F]) + whole[3080:])
    browser.visit("a damaged middle", [{"files": spoiled}, {"download": "#save"}],
                  last(RESCUED, by("spoiled-kept.fit", "salvage", "--skip", "--plain", *spoiled), "Some values may be wrong"))
    browser.visit("an empty ride with its journal", [{"files": [*made("activity.fit", b""), journal]}],
                  last(NOTHING, None, "activity.fit is empty."))
    browser.visit("an empty journal", [{"files": [ride, *made("activity.frj", b"")]}, {"download": "#save"}],
                  last(RESCUED, alone, "activity.frj is empty.", "Copy both files"))
    broken = made("broken.fit", whole[:3000])
    browser.visit("a copy that was broken off", [{"files": broken}, {"download": "#save"}],
                  last(PARTLY, by("broken-kept.fit", "salvage", "--finish", "--plain", *broken), "The file was cut off", "Copy it from the device"))
    nothing = recorded(fitrec, folder / "nothing", [RIDE[0], "commit"])
    browser.visit("a recording of nothing", [{"files": both(nothing)}], last("Nothing was recorded", None, "had not recorded anything"))
    yield from browser.outcomes()


def of_lists(fitrec, folder, browser):
    """What is done with one of several rides is in the list, in their ZIP file, and there when the ride is shown again."""
    rides = folder / "rides"
    rides.mkdir()
    by = lambda name, *words: (run(fitrec, *words, folder / name), (folder / name).read_bytes())[1]
    a, torn, d, other = (recorded(fitrec, folder / name, by_device(serial, RIDE)) for serial, name in enumerate(("a", "torn", "d", "other"), 6))
    shutil.copytree(other, rides / "b")
    (rides / "c").mkdir()
    shutil.copy(torn / NAMES[0], rides / "c")
    saved, saved_other, bare = by("saved.fit", "save", torn), by("other.fit", "save", other), by("bare.fit", "salvage", "--plain", a / NAMES[0])
    (rides / "a.fit").write_bytes(bare)
    (rides / "d.fit").write_bytes(by("d.fit", "save", d))
    finished = by("finished.fit", "salvage", "--finish", "--plain", rides / "a.fit")
    alone = by("alone.fit", "salvage", "--finish", "--plain", torn / NAMES[0])
    names, states = ["rides/a.fit", "rides/d.fit", "rides/b/activity.fit", "rides/c/activity.fit"], [RESCUED, FINE, RESCUED, RESCUED]

    def judged(content):
        def judge(shown, made):
            for at in 0, 2:
                yield "the list", differs([(it[0], it[4]) for it in shown[at]["list"]], [*zip(names, states)])
                yield "how many there are", differs(shown[at]["listHeading"], "4 activities: 3 rescued and 1 fine")
            yield "what is shown", differs((shown[2]["heading"], shown[2]["focus"]), (RESCUED, "result"))
            with zipfile.ZipFile(made[3]) as them:
                yield "all in one file", differs({it: them.read(it) for it in them.namelist()}, content)
            yield "what is shown again", differs(shown[-1]["offers"], shown[2]["offers"])
        return judge

    show = lambda row: {"click": "#rides tbody tr:nth-child(%d) button" % row}
    name = "2021-09-08-ride%s.fit"
    for window in WINDOWS:
        start, take = {"files": [rides], "drop": True}, {"download": "#saveAll"}
        browser.visit("one of four without laps and totals, %s" % window,
                      [start, show(1), {"click": "#rarely button"}, take, show(3), show(1)],
                      judged({name % "": bare, name % "-2": saved_other, name % "-3": alone}), **WINDOWS[window])
        browser.visit("a journal for one of four, %s" % window,
                      [start, show(4), {"files": [torn / NAMES[1]]}, take, show(3), show(4)],
                      judged({name % "": finished, name % "-2": saved_other, name % "-3": saved}), **WINDOWS[window])

    # What is no activity does not count as one, whether it is a FIT file or not.
    others = shutil.copytree(rides, folder / "others")
    (others / "settings.fit").write_bytes(framed(message(0, {(0, ENUM): 2, (4, UINT32): START})))

    def of_others(text):
        def judge(shown, made):
            said = shown[0]["listHeading"], shown[0]["listNote"]
            yield "what counts", differs(said, ("4 activities: 3 rescued and 1 fine", text))
        return judge

    browser.visit("settings beside them", [{"files": [others], "drop": True}], of_others("1 other file is no activity."))
    more = shutil.copytree(others, folder / "more")
    (more / "notes.txt").write_text("notes")
    browser.visit("settings and notes beside them", [{"files": [more], "drop": True}], of_others("2 other files are no activities."))
    yield from browser.outcomes()
