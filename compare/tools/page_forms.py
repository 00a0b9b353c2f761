"""The page in a browser: archives that are chosen, and the other forms in which a ride is given. Each function `of_..` is a group of visits,
which GROUPS of compare/page.py names."""

import csv
import gzip
import io
import pathlib
import struct
import zipfile
import zlib

from tools.checks import differs, unless
from tools.pages import RIDE, both, by_device, recorded, rows
from tools.program import bytes_of, run
from tools.visits import FINE, MOSTLY, NOTHING, RESCUED, WIDTHS


# Whether nothing warns before the page is left.
MAY_LEAVE = "dispatchEvent(new Event('beforeunload', { cancelable: true }))"


class Stream:
    """Where a ZIP file is written without a way back: the size of an entry stands after it."""

    content = b""

    def write(self, part):
        self.content += part
        return len(part)

    def flush(self):
        pass


def of_archives(fitrec, folder, browser):
    """ZIP and GZ files, also in one another, damaged, and with nothing in them; and files of other formats by their names."""
    torn = recorded(fitrec, folder / "torn", RIDE)
    run(fitrec, "save", torn, folder / "ride.fit")
    saved = (folder / "ride.fit").read_bytes()

    def made(name, content):
        (folder / name).write_bytes(content)
        return folder / name

    def zipped(name, entries, how=zipfile.ZIP_DEFLATED):
        with zipfile.ZipFile(folder / name, "w", how) as them:
            for entry, content in entries.items():
                them.writestr(entry, content)
        return folder / name

    inner = {"card/%s" % it.name: it.read_bytes() for it in both(torn)}
    packed = gzip.compress(saved)
    # What inflates of a file whose end is lost: as many bytes as another program gets of it.
    front = zlib.decompressobj(31).decompress(packed[:-1500])
    made("front.fit", front)
    run(fitrec, "salvage", "--finish", "--plain", folder / "front.fit", folder / "kept.fit")
    # A recording of which the archive was cut off, and not by the device.
    own = zipped("own.zip", {"activity.fit": (torn / "activity.fit").read_bytes()}, zipfile.ZIP_STORED).read_bytes()[:-2500]
    made("own-front.fit", own[own.index(b".FIT") - 8:])
    run(fitrec, "salvage", "--finish", "--plain", folder / "own-front.fit", folder / "own-kept.fit")
    with zipfile.ZipFile(stream := Stream(), "w", zipfile.ZIP_DEFLATED) as them:
        for entry, content in inner.items():
            them.writestr(entry, content)
    text, take = b"<?xml version='1.0'?><gpx></gpx>", [{"download": "#save"}]
    cases = [
        ("both files in one", zipped("both.zip", inner), RESCUED, "confirmed", saved),
        ("both files in one, not deflated", zipped("stored.zip", inner, zipfile.ZIP_STORED), RESCUED, "confirmed", saved),
        ("a file in another of another", zipped("deep.zip", {"activities/1.fit.gz": packed, "photo.jpg": b"photo"}), FINE, "complete", None),
        ("a deflated file", made("ride.fit.gz", packed), FINE, "complete", None),
        ("a deflated file that was cut off", made("cut.fit.gz", packed[:-1500]), MOSTLY, "The file was cut off", bytes_of(folder / "kept.fit")),
        ("a recording in one that was cut off", made("own-cut.zip", own), MOSTLY, "The file was cut off", bytes_of(folder / "own-kept.fit")),
        ("a deflated file whose own check is wrong", made("wrong.fit.gz", packed[:-8] + bytes(4) + packed[-4:]), FINE, "complete", None),
        ("nothing that is a ride", zipped("notes.zip", {"notes.txt": "notes"}), NOTHING, "notes.zip has no FIT file in it", None),
        ("no directory", made("torn.zip", (folder / "both.zip").read_bytes()[:-60]), RESCUED, "confirmed", saved),
        ("no directory and no sizes", made("streamed.zip", stream.content[:stream.content.index(b"PK\1\2")]), RESCUED, "confirmed", saved),
        ("GPX", made("ride.gpx", text), NOTHING, "ride.gpx is a GPX file", None),
        ("TCX", made("ride.TCX", text), NOTHING, "ride.TCX is a TCX file", None),
        ("GPX under another name", made("track.fit", text), NOTHING, "track.fit is a GPX file", None),
        ("TCX under another name", made("lap.fit", b"<TrainingCenterDatabase xmlns='x'>"), NOTHING, "lap.fit is a TCX file", None),
        ("deflated TCX", made("ride.tcx.gz", gzip.compress(text)), NOTHING, "ride.tcx is a TCX file", None)]

    def judged(heading, words, content):
        def judge(shown, made):
            last = shown[-1]
            is_right = last["heading"] == heading and words in last["reason"]
            yield "what it says", unless(is_right, (last["heading"], last["reason"]), (heading, words))
            yield "the file", differs(bytes_of(pathlib.Path(made[-1])) if content else last["download"] or None, content)
        return judge

    for window in WIDTHS:
        for name, file, heading, words, content in cases:
            browser.visit("%s, %s" % (name, window), [{"files": [file]}, *(take if content else [])], judged(heading, words, content),
                          **WIDTHS[window])

    # What is said of a whole choice: with one ride below it, with several above the list.
    def noted(*words):
        def judge(shown, made):
            last = shown[-1]
            said = last["listNote"] if last["list"] else last["next"]
            yield "what it says", unless(all(it in said for it in words) and bool(said) == bool(words), said, words)
        return judge

    ends = " was cut off: more may have been in it."
    (folder / "again").mkdir()
    again = folder / "again/ride.fit"
    again.write_bytes(saved)
    run(fitrec, "save", recorded(fitrec, folder / "other", by_device(8, RIDE)), folder / "other.fit")
    several = zipped("several.zip", {"1.fit": saved, "2.fit": (folder / "other.fit").read_bytes()})
    cut = made("cut.zip", several.read_bytes()[:-100])
    for name, files, words in (
            ("an archive that was cut off", [folder / "torn.zip"], ["torn.zip" + ends]), ("a whole archive", [folder / "both.zip"], []),
            ("a deflated file that was cut off", [folder / "cut.fit.gz"], ["cut.fit.gz" + ends]), ("a wrong check", [folder / "wrong.fit.gz"], []),
            ("an archive of several that was cut off", [cut], ["cut.zip" + ends]), ("a whole archive of several", [several], []),
            ("a file and the same once more", [folder / "ride.fit", zipped("one.zip", {"copy.fit": saved})], ["copy.fit is the same as ", "ride.fit"]),
            ("three that are the same", [folder / "ride.fit", zipped("two.zip", {"1.fit": saved, "2.fit": saved})], ["2 files are copies of others, and are left out."])):
        browser.visit(name, [{"files": files}], noted(*words))

    # So much comes out of a small file that no browser has room for it.
    bomb = zlib.compressobj(9, zlib.DEFLATED, 31)
    parts = b"".join([bomb.compress(bytes(2**20)) for _ in range(600)] + [bomb.flush()])
    browser.visit("a small file of much", [{"files": [made("bomb.fit.gz", parts)]}], judged(NOTHING, "too large for the memory", None))
    yield from browser.outcomes()


def of_exports(fitrec, folder, browser):
    """A ride as GPX, as CSV and as a picture, and by the share sheet of a phone."""
    torn = recorded(fitrec, folder / "torn", RIDE)
    run(fitrec, "save", torn, folder / "ride.fit")
    data, track = (folder / "ride.fit").read_bytes(), run(fitrec, "show", "--gpx", folder / "ride.fit")[1]
    found = rows(data)
    # A browser without a share sheet, and one with it.
    sheet = """Object.assign(navigator, { canShare: ({ files }) => files.length === 1,
        share: async ({ files: [file] }) => { window.given = [file.name, [...new Uint8Array(await file.arrayBuffer())]]; } }) && null"""

    def judge(shown, made):
        gpx, table, picture = (pathlib.Path(it) for it in made[1:4])
        yield "its track is what the program prints", differs(gpx.read_text(), track)
        lines = list(csv.DictReader(io.StringIO(table.read_text())))
        yield "a line for each sample", differs(len(lines), len(found))
        for name, value in {"heart_rate_bpm": lambda it: it["heart_rate"], "power_w": lambda it: it["power"],
                            "distance_m": lambda it: it["distance"] / 100, "altitude_m": lambda it: it["altitude"] / 5 - 500,
                            "speed_kmh": lambda it: it["speed"] * 0.0036, "latitude": lambda it: it["position_lat"] * 180 / 2**31}.items():
            far = [k for k, it in enumerate(found) if abs(float(lines[k][name]) - value(it)) > 0.00501]
            yield name, differs(far, [])
        yield "its times", differs([lines[0]["time"], lines[-1]["time"]], ["2021-09-08T01:46:40Z", "2021-09-08T01:51:39Z"])
        content = picture.read_bytes()
        width, height = struct.unpack(">II", content[16:24])
        is_picture = content[:8] == b"\x89PNG\r\n\x1a\n" and width == 1200 and height > 900
        yield "one picture", unless(is_picture, (content[:8], width, height), "a PNG of 1200 by more than 900")
        yield "its colours", unless(len(colours_of(content)) > 20, len(colours_of(content)), "more than 20")
        yield "their names", differs([it.name for it in (gpx, table, picture)], ["2021-09-08-ride.%s" % it for it in ("gpx", "csv", "png")])
        yield "no share sheet", differs(made[4], True)

    def of_sharing(shown, made):
        yield "it is offered", differs(made[2], False)
        yield "the file", differs(made[4], ["2021-09-08-ride.fit", [*data]])
        yield "it is taken", differs((made[5], shown[-1]["taken"]), (True, ""))

    hidden = {"evaluate": "document.getElementById('share').hidden"}
    for window in WIDTHS:
        steps = [{"files": both(torn)}, *({"download": "#" + it} for it in ("asGpx", "asCsv", "asPicture")), hidden]
        browser.visit("exports, %s" % window, steps, judge, **WIDTHS[window])
        press = {"evaluate": "document.getElementById('share').click(), new Promise(done => setTimeout(done, 100))"}
        steps = [{"evaluate": sheet}, {"files": both(torn)}, hidden, press, {"evaluate": "window.given"}, {"evaluate": MAY_LEAVE}]
        browser.visit("sharing, %s" % window, steps, of_sharing, **WIDTHS[window])
    yield from browser.outcomes()


def colours_of(content):
    """The colours of a PNG of 8 bits, without its filters: different bytes show different colours."""
    at, data = 8, b""
    while at < len(content):
        size, = struct.unpack(">I", content[at:at + 4])
        data += content[at + 8:at + 8 + size] if content[at + 4:at + 8] == b"IDAT" else b""
        at += 12 + size
    return set(zlib.decompress(data))
