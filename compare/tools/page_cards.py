"""The page in a browser: images of cards, and the FIT files that stand in them."""

import gzip
import itertools
import pathlib
import random
import re
import zipfile

from tools.checks import differs, unless
from tools.fit_files import image, short
from tools.page_app import WATCH, most_still
from tools.pages import RIDE, START, recorded, rows, tour
from tools.program import NAMES, bytes_of, run
from tools.visits import FINE, NOTHING, RESCUED, WINDOWS

# The page reads an image in slices of so many bytes. What follows a slice begins where the mark of a header may begin in it.
SLICE, BORDER = 2**22, 11
DAY = 86400
LOOKS = "wide", "narrow and dark"
# What is longer than 512 MB is refused by its name where it has no file. On a machine that others use too it takes so many milliseconds at most.
LONG, MOST_MS = 2**29 + 2**25, 30000


def of_cards(fitrec, folder, browser):
    """Images of cards: the page has the files that `split --all` writes, by their places, also across its slices, and what can be read in one piece
    of those that are not whole, where it begins with a block."""
    pick, rides = random.Random(3), []
    for name, lines in (("a", tour(600)), ("b", RIDE), ("c", tour(300, START + 3 * DAY))):
        run(fitrec, "save", recorded(fitrec, folder / name, lines), folder / (name + ".fit"))
        rides.append((folder / (name + ".fit")).read_bytes())
    rides[2] = short(rides[2])
    torn, header = rides[1][:-1] + bytes([rides[1][-1] ^ 1]), rides[1][:14]

    def made(name, content):
        (folder / name).write_bytes(content)
        return folder / name

    def split(file):
        """What the program writes of an image: the bytes of each file by their names, in the order of their places."""
        to = folder / ("split-" + file.name)
        to.mkdir()
        run(fitrec, "split", "--all", file, to)
        return {it.name: it.read_bytes() for it in sorted(to.iterdir(), key=lambda it: int(it.stem))}

    def across():
        """An image in which a header stands across a border of slices, and a file across the next one."""
        content = bytearray(pick.randbytes(3 * SLICE))
        places = SLICE - 5, 2 * SLICE - BORDER - len(rides[1]) // 2, 2 * SLICE + 2**20, 3 * SLICE - 2**20
        for file, at in zip((rides[0], rides[1], torn, rides[2]), places):
            content[at:at + len(file)] = file
        return bytes(content)

    parts = [header + pick.randbytes(5000), rides[0], torn, rides[1], rides[1][:300], rides[2]]
    card, large = made("card.img", image(pick, parts)[0]), made("large.img", across())
    wanted, packed = split(card), made("packed.img.gz", gzip.compress(card.read_bytes(), 1))
    images = [("a card", card, wanted), ("a card under another name", made("sdb1", card.read_bytes()), wanted), ("more than a slice", large, split(large))]
    take, show = {"download": "#saveAll"}, lambda row: {"click": "#rides tbody tr:nth-child(%d) button" % row}

    # A file whose checksum is wrong has all its bytes.
    (folder / "torn.fit").write_bytes(torn)
    run(fitrec, "salvage", "--plain", folder / "torn.fit", folder / "kept.fit")
    kept = (folder / "kept.fit").read_bytes()

    def listed(file, wanted):
        """What the page makes of each file that it finds in an image, in the order of their places."""
        return dict(sorted((wanted | {"%d.fit" % file.read_bytes().index(torn): kept}).items(), key=lambda it: int(it[0][:-4])))

    def of_several(name, wanted, all_of_it):
        def judge(shown, made):
            yield "as many as were put there", differs((len(wanted), len(all_of_it)), (3, 4))
            states = [("%s/%s" % (name, it), FINE if it in wanted else RESCUED) for it in all_of_it]
            yield "the list", differs([(it[0], it[4]) for it in shown[0]["list"]], states)
            yield "how many there are", differs(shown[0]["listHeading"], "4 activities: 1 rescued and 3 fine")
            note = "Files were taken from %s in one piece each." % name
            yield "what else may be there", unless(shown[0]["listNote"].startswith(note), shown[0]["listNote"], note)
            with zipfile.ZipFile(made[1]) as them:
                yield "their bytes", differs([them.read(it) for it in them.namelist()], [*all_of_it.values()])
            last, second = shown[-1], [*wanted.values()][1]
            yield "one of them", differs((last["heading"], last["numbers"]["Samples"]), (FINE, f"{len(rows(second)):,}"))
            yield "why", unless("part of a larger file" in last["reason"], last["reason"], "part of a larger file")
            yield "its file", differs(bytes_of(pathlib.Path(made[-1])), second)
        return judge

    def steps(own, all_of_it):
        """All are taken, and then the second one of those that are whole."""
        return [take, show(1 + [*all_of_it].index([*own][1])), {"download": "#save"}]

    for (name, file, own), window in itertools.product(images, LOOKS):
        them = listed(file, own)
        browser.visit("%s, %s" % (name, window), [{"files": [file]}, *steps(own, them)], of_several(file.name, own, them), **WINDOWS[window])
    them = listed(card, wanted)
    browser.visit("a deflated card", [{"files": [packed]}, *steps(wanted, them)], of_several("packed.img", wanted, them))
    browser.visit("a card that is dropped", [{"files": [card], "drop": True}, *steps(wanted, them)], of_several(card.name, wanted, them))

    # The ride that a device was writing when it died.
    died = folder / "c" / NAMES[0]
    content, places = image(random.Random(5), [rides[1], died.read_bytes()])
    after = made("died.img", content)
    # What follows it in the image may cut its last sample.
    run(fitrec, "salvage", "--skip", "--finish", "--plain", made("rest.img", content[places[1]:]), folder / "died.fit")

    def of_the_last(shown, made):
        names = [("died.img/%d.fit" % at, state) for at, state in zip(places, (FINE, "Your ride is rescued"))]
        yield "the list", differs([(it[0], it[4]) for it in shown[0]["list"]], names)
        with zipfile.ZipFile(made[1]) as them:
            yield "their bytes", differs([them.read(it) for it in them.namelist()], [rides[1], bytes_of(folder / "died.fit")])
        yield "why", unless("The device stopped" in shown[2]["reason"], shown[2]["reason"], "The device stopped")

    browser.visit("a ride that the device was writing", [{"files": [after]}, take, show(2)], of_the_last)

    def of_lists(names):
        def judge(shown, made):
            yield "the list", differs([it[0] for it in shown[0]["list"]], names)
        return judge

    beside = ["b.fit", *("card.img/" + it for it in them)]
    browser.visit("a card and a file", [{"files": [folder / "b.fit", card]}], of_lists(beside))
    # In a folder an image is one of the other files.
    (folder / "folder").mkdir()
    for name, content in (("card.img", card.read_bytes()), ("1.fit", rides[0]), ("2.fit", rides[1])):
        made("folder/" + name, content)
    browser.visit("a folder with a card in it", [{"files": [folder / "folder"], "drop": True}], of_lists(["folder/1.fit", "folder/2.fit"]))

    def of_one(heading, words, content):
        def judge(shown, made):
            last = shown[-1]
            yield "what it says", unless(last["heading"] == heading and words in last["reason"], (last["heading"], last["reason"]), (heading, words))
            said = " ".join(last[it] for it in ("heading", "reason", "next"))
            yield "no word of a maker", differs(re.findall(r"(?i)byte|checksum|message|journal|image|header", said), [])
            yield "the file", differs(bytes_of(pathlib.Path(made[1])) if content else last["download"] or None, content)
            yield "what else may be there", differs("in one piece each" in last["next"], bool(content))
        return judge

    alone, nothing = made("alone.img", image(pick, [torn[:90], rides[1]])[0]), image(pick, [header + pick.randbytes(5000)])[0]
    lead = made("lead.fit", bytes(5) + rides[1])
    for window in LOOKS:
        for name, file in (("one ride", alone), ("a ride after zeros", lead)):
            browser.visit("%s, %s" % (name, window), [{"files": [file]}, {"download": "#save"}], of_one(FINE, "part of a larger file", rides[1]),
                          **WINDOWS[window])
        for name, words in (("none.img", "none.img has no FIT file in it"), ("none.bin", "none.bin is not a FIT file")):
            browser.visit("%s, %s" % (name, window), [{"files": [made(name, nothing)]}], of_one(NOTHING, words, None), **WINDOWS[window])
    yield "what the program finds in one", differs([*split(alone).values()], [rides[1]])
    yield "what the program finds in none", differs(split(folder / "none.img"), {})
    yield from browser.outcomes()


def of_long_cards(fitrec, folder, browser):
    """A long image does not let the page stand still, shows how far it is, and is not kept."""
    run(fitrec, "save", recorded(fitrec, folder / "ride", RIDE), folder / "ride.fit")
    ride, at = (folder / "ride.fit").read_bytes(), LONG // 2 + 4096
    for name, content in (("long.bin", ride), ("empty.bin", b"")):
        with open(folder / name, "wb") as file:
            file.seek(at)
            file.write(content)
            file.truncate(LONG)

    def judged(heading, words, content):
        def judge(shown, made):
            seen, last = made[3], shown[-1]
            yield "what it says", unless(last["heading"] == heading and words in last["reason"], (last["heading"], last["reason"]), (heading, words))
            yield "the file", differs(bytes_of(pathlib.Path(made[4])) if content else last["download"] or None, content)
            yield "in time", unless(seen["ended"] < MOST_MS, seen, "at most %d ms" % MOST_MS)
            yield "it never stands still", unless(seen["gap"] < most_still(seen), seen, "at most %d ms" % most_still(seen))
            yield "how far it is", unless(len(seen["bar"]) > 9, seen["bar"], "more than 9 places of the bar")
        return judge

    for name, *wanted, content in (("long.bin", FINE, "part of a larger file", ride), ("empty.bin", NOTHING, "empty.bin has no FIT file in it", None)):
        steps = [{"evaluate": WATCH}, {"files": [folder / name]}, {"wait": 100}, {"evaluate": "window.seen"}]
        browser.visit(name, [*steps, *([{"download": "#save"}] if content else [])], judged(*wanted, content))
    yield from browser.outcomes()
