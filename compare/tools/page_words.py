"""The page in a browser: what it says first of damaged files, as a rider reads it who sees it for the first time."""

import random
import re

from tools.checks import differs, unless
from tools.fit_files import framed
from tools.page_values import BEGIN, ELAPSED, ENUM, HEART, LENGTH, TIME, TIMER, UINT32, message
from tools.pages import RIDE, START, recorded, tour
from tools.program import NAMES, run
from tools.visits import FINE, MOSTLY, NOTHING, PARTLY, RESCUED, TOTALS as ONLY, WIDTHS

DAY = 86400
# No word of whoever made the device or the file, and what is read first has at most so many letters.
MAKERS, MOST = r"(?i)byte|checksum|message|journal|commit|fsck|header|definition|undefined|NaN|\{", 250
# What is read first, by its beginning.
CONFIRMED, READ = "Everything that the device had confirmed is in", "Everything that can be read of activity.fit is in"
STOPPED, CUT, GAP = "The device stopped before it could close the recording. It goes to", "The file was cut off. It goes to", "Missing: "
THERE, LITTLE = "The file is damaged, but all of it could be read.", "A few seconds of it are missing at most."
NO_FIT, TOTALS = "ride.fit is not a FIT file.", "It has only totals: its course was not recorded, or cannot be read."
NO_BEGIN, MOST_OF_IT = "ride.fit does not begin as a FIT file, and nothing in it can be read.", "Most of your activity is rescued"
KIND, UNWRITTEN = "It is a FIT file of another kind", "ride.fit has nothing in it: it was never written, or was wiped."
AT_ONCE = "ride.fit was cut off at its very beginning: nothing of the ride is in it."
ADDED = "What websites need to accept it was missing, and has been added."


def inputs(fitrec, folder):
    """Damaged files: for each a name, its files by their names, the heading, and what is read first."""
    pick = random.Random(5)
    folders = {name: recorded(fitrec, folder / name, lines, *words) for name, lines, *words in (
        ("own", tour(3000)), ("later", tour(1200, START + 40 * DAY, 8.9)), ("checked", tour(3000), "--checked"), ("empty", [RIDE[0], "commit"]),
        ("more", [*tour(3000), *("sample %d hr=120" % (START + 9000 + at) for at in range(228))]))}
    data, journal = ({name: (it / file).read_bytes() for name, it in folders.items()} for file in NAMES)

    def saved(name):
        run(fitrec, "save", folders[name], folder / (name + ".fit"))
        return (folder / (name + ".fit")).read_bytes()

    own, whole, later = data["own"], saved("own"), saved("later")
    holed = lambda content, *holes: b"".join(_holes(content, holes))
    both = lambda content, other: {"activity.fit": content, "activity.frj": other}
    last = lambda content: content[:-1] + bytes([content[-1] ^ 0x55])
    one = lambda content, name="ride.fit": {name: content}
    session = {TIME: START + 3600, BEGIN: START, ELAPSED: 3_600_000, TIMER: 3_500_000, LENGTH: 3_000_000}
    begin = message(0, {(0, ENUM): 4, (4, UINT32): START})
    totals, course = framed(begin + message(18, session)), framed(message(0, {(0, ENUM): 6, (4, UINT32): START}))
    samples = b"".join(message(20, {TIME: START + at, HEART: 120 + at % 9}) for at in range(900))

    yield "both files", both(own, journal["own"]), RESCUED, CONFIRMED
    yield "both files, with an end", both(data["more"], journal["more"]), RESCUED, CONFIRMED
    yield "the journal of another ride", both(own, journal["later"]), RESCUED, READ
    yield "a journal of zeros", both(own, bytes(len(journal["own"]))), RESCUED, READ
    yield "an empty journal", both(own, b""), RESCUED, READ
    yield "an empty ride", both(b"", journal["own"]), NOTHING, "activity.fit is empty."
    yield "the last byte changed", both(last(data["checked"]), journal["checked"]), RESCUED, READ
    yield "a byte inside changed", both(last(data["checked"][:40001]) + data["checked"][40001:], journal["checked"]), RESCUED, LITTLE
    yield "a hole and a journal", both(holed(own, (30000, 4096, 0)), journal["own"]), MOSTLY, GAP
    yield "nothing recorded", both(data["empty"], journal["empty"]), "Nothing was recorded", "The device had not recorded anything yet"
    yield "the journal alone", {"activity.frj": journal["own"]}, "One more file is needed", "What you chose says how much of a recording is safe"
    yield "the ride alone", one(own, "activity.fit"), RESCUED, STOPPED
    yield "the front of a ride alone", one(own[:33149], "activity.fit"), RESCUED, STOPPED
    yield "a whole file", one(whole), FINE, "It is complete and undamaged"
    yield "cut off late", one(whole[:len(whole) * 6 // 10]), MOSTLY, CUT
    yield "cut off early", one(whole[:len(whole) * 3 // 10]), PARTLY, CUT
    yield "without its last bytes", one(whole[:-3]), RESCUED, "Only the very end of the file was missing, and has been added."
    yield "a wrong checksum", one(last(whole)), RESCUED, THERE
    yield "a hole of zeros", one(holed(whole, (32768, 4096, 0))), MOSTLY, GAP
    yield "a large hole", one(holed(whole, (16384, 32768, 0))), MOSTLY, GAP
    yield "a hole of FF", one(holed(whole, (20480, 512, 255))), MOSTLY, GAP
    yield "three holes", one(holed(whole, (8192, 4096, 0), (28672, 512, 255), (50000, 9000, 15))), MOSTLY, GAP
    yield "no header", one(bytes(14) + whole[14:]), RESCUED, THERE
    yield "no definitions", one(bytes(512) + whole[512:]), ONLY % "ride", TOTALS
    yield "without its front", one(whole[4096:]), ONLY % "ride", TOTALS
    yield "neither front nor end", one(whole[4096:40000]), NOTHING, NO_BEGIN
    back = samples + b"".join(message(20, {TIME: START + at - 7200, HEART: 120 + at % 9}) for at in range(900, 1500))
    yield "times that go back", one(framed(begin + back)[:-2]), MOST_OF_IT, "What follows after 8:14:59"
    begun = b"".join(message(20, {TIME: 300 + at, HEART: 120}) for at in range(60))
    yield "a clock that began anew", one(framed(begin + begun + samples)[:-2]), "Your activity is rescued", "The clock of the device was wrong for 1 min"
    old = framed(message(0, {(0, ENUM): 4, (4, UINT32): 300}) + b"".join(message(20, {TIME: 300 + at, HEART: 120}) for at in range(600)))
    yield "a clock of 1989, cut off", one(old[:-2000]), "Most of your activity is rescued", "The file was cut off."
    yield "totals behind a large hole", one(framed(begin + samples[:1000] + bytes(70000) + message(18, session))), "Part of your activity is rescued", GAP
    wrong = bytes(it ^ (1 << pick.randrange(8)) if pick.random() < 1 / 4000 else it for it in whole)
    yield "bits that changed", one(wrong), RESCUED, "A few seconds of it are missing in"
    yield "a part of another ride", one(whole[:20480] + later[8192:16384] + whole[28672:]), MOSTLY, GAP
    yield "the end of another ride", one(whole[:40960] + later[4096:20480]), MOSTLY, "What follows after 8:36:03 AM begins days later"
    yield "zeros after the end", one(whole + bytes(8192)), RESCUED, THERE
    # Its own beginning once more: nothing of it is added. What is of another ride can be read, and may be added.
    yield "its beginning after the end", one(whole + whole[14:3000]), RESCUED, "What follows after its end is of another activity or cannot be read"
    yield "more after the end", one(whole + later[14:9000]), RESCUED, "After its end comes more, perhaps of another activity; you can add it."
    yield "zeros", one(bytes(40000)), NOTHING, UNWRITTEN
    yield "FF", one(b"\xFF" * 40000), NOTHING, UNWRITTEN
    yield "any bytes", one(pick.randbytes(30000)), NOTHING, NO_BEGIN
    yield "a text", one(b"Notes of my ride on sunday.\n" * 20), NOTHING, NO_FIT
    yield "a picture", one(b"\x89PNG\r\n\x1a\n" + bytes(range(256)) * 20), NOTHING, NO_FIT
    yield "cut off in its header", one(whole[:10]), NOTHING, AT_ONCE
    yield "cut off after its header", one(whole[:100]), NOTHING, AT_ONCE
    yield "an empty file", one(b""), NOTHING, "ride.fit is empty."
    yield "a course", one(course), "This file is no activity", KIND
    yield "a damaged course", one(last(course)), "This file is no activity", KIND
    yield "no file_id", one(framed(samples)), "Your activity is rescued", ADDED
    yield "totals alone", one(totals), ONLY % "activity", TOTALS
    yield "damaged totals", one(last(totals)), ONLY % "activity", TOTALS


def _holes(content, holes):
    at = 0
    for start, size, byte in holes:
        yield content[at:start] + bytes([byte]) * size
        at = start + size
    yield content[at:]


def of_words(fitrec, folder, browser):
    """Damaged files: the best rescue is there at once, and what is read first is one thing that a rider understands."""
    def judged(heading, lead):
        def judge(shown, made):
            last, said = shown[-1], made[1]
            yield "its heading", differs(last["heading"], heading)
            yield "what is read first", unless(said[0].startswith(lead), said[0], lead)
            yield "it is short", unless(len(said[0]) <= MOST, said[0], "at most %d letters" % MOST)
            first = " ".join([heading, *said])
            yield "no word of a maker", differs(re.findall(MAKERS, first), [])
            sentences = [it for it in re.split(r"(?<=[.;]) ", first) if it]
            yield "nothing is said twice", differs(sorted(set(sentences)), sorted(sentences))
            parts = re.findall(r"\d+:\d+:\d+ [AP]M to \d+:\d+:\d+ [AP]M", first)
            yield "no part twice", differs(sorted(set(parts)), sorted(parts))
            is_made = heading.endswith("is rescued") or heading.startswith("Only the totals")
            yield "the best rescue is there", differs(bool(last["download"]), is_made or "damaged" in first and heading == "This file is no activity")
        return judge

    said = {"evaluate": "['.lead', '.more', '#next', '#offers'].map(it => (document.querySelector(it) || {}).innerText || '')"}
    cases = list(inputs(fitrec, folder))
    yield "so many", differs(len(cases), 49)
    for at, (name, files, heading, lead) in enumerate(cases):
        here = folder / str(at)
        here.mkdir()
        for file, content in files.items():
            (here / file).write_bytes(content)
        for width, window in WIDTHS.items():
            browser.visit("%s, at %s" % (name, width), [{"files": [here / it for it in files]}, said], judged(heading, lead), **window)
    yield from browser.outcomes()
