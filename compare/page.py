#!/usr/bin/env -S python3 -B
"""Compares the page and its WebAssembly module with the program: the module under Node, as the library for C is compared, and the page in
headless Chromium and Firefox, wide and narrow, light and dark, and in WebKit. It makes web/out/fitrec.html first.

    compare/page.py BROWSER FOLDER [GROUP..]

makes no page, and puts a screenshot of each visit into a new folder, to be looked at. BROWSER is chromium, firefox or webkit."""

import functools
import json
import os
import pathlib
import random
import re
import shutil
import subprocess
import sys
import tempfile

import joining
from columns import refusal_of, rows_of
from shifting import start_of
from tools import reader, release
from tools.checks import differs, unless
from tools.fit_files import damaged, image, made, short
from tools.libraries import build
from tools.library_calls import of_files, of_finished, of_joined, of_mended, of_recordings, of_shifted, of_shown_and_checked
from tools.needs import missing
from tools.page_app import of_a_long_ride, of_an_app
from tools.page_cards import of_cards, of_long_cards
from tools.page_clocks import of_clocks, of_clocks_ahead, of_other_clocks, of_set_clocks
from tools.page_files import of_choosing, of_inputs, of_lists
from tools.page_forms import of_archives, of_exports
from tools.page_halves import of_halves
from tools.page_holes import (of_chains, of_ends_and_pauses, of_holes, of_leaps, of_no_messages, of_silences, of_unread_ends,
                              of_what_is_lost)
from tools.page_layout import of_layout, of_many_laps
from tools.page_people import of_choices, of_kept_choices, of_people
from tools.page_rides import of_looking, of_numbers
from tools.page_told import of_copies, of_kinds, of_lost_fronts, of_other_words, of_pieces
from tools.page_values import of_values
from tools.page_words import of_words
from tools.pages import RIDE, START, both, recorded, tour
from tools.program import FITREC, NAMES, ROOT, run
from tools.visits import PAGE, Browser

NEEDS = ("fitrec", "rt", "node", "wasm-opt", "esbuild", "zopfli", "tsc", "chromium", "firefox-esr", "WebKitWebDriver", "Xvfb")
WEB, MODULE = ROOT / "web", ROOT / "compare/module.mjs"
GROUPS = (of_inputs, of_words, of_choosing, of_lists, of_archives, of_cards, of_long_cards, of_holes, of_no_messages, of_ends_and_pauses,
          of_chains, of_leaps, of_silences, of_unread_ends, of_what_is_lost, of_numbers, of_values, of_looking, of_exports, of_layout,
          of_many_laps, of_people, of_choices, of_kept_choices, of_clocks, of_set_clocks, of_clocks_ahead, of_other_clocks, of_halves, of_lost_fronts, of_pieces, of_copies, of_kinds, of_other_words, of_an_app, of_a_long_ride)
# The browsers, what drives each, and the groups of visits that it makes. Chromium makes all, and the others those that show whether a browser
# does what the page asks of it. What WebKit has no way to, such as a narrow window, is left out of its visits.
BROWSERS = {
    "chromium": (("chromium",), GROUPS),
    "firefox": (("firefox-esr",), (of_inputs, of_choosing, of_archives, of_cards, of_long_cards, of_looking, of_exports, of_layout, of_choices,
                                   of_kept_choices, of_clocks, of_an_app)),
    "webkit": (("WebKitWebDriver", "Xvfb"), (of_inputs, of_cards, of_numbers, of_choices, of_clocks))}
# The most bytes of the page.
MOST = 175_000


def pieces_of(said, front):
    """What the lines of `salvage --skip` say of a file all of which was looked at, with the pieces that are kept between the others."""
    kept, looked = (int(it) for it in re.match(r"kept (\d+) of (\d+), parts", said).groups())
    pieces, at = [], front
    for count, start in re.findall(r"left out (\d+) at (\d+)", said):
        start, end = int(start), int(start) + int(count)
        pieces += [{"start": at, "end": start, "kept": True}] * (at < start) + [{"start": start, "end": end, "kept": False}]
        at = end
    pieces += [{"start": at, "end": front + looked, "kept": True}] * (at < front + looked)
    return {"kept": kept, "looked": looked, "more": 0, "pieces": pieces}


def of_calls(fitrec, many, seed):
    """The calls for JavaScript under Node: columns, texts and refusals by the second reader, and rides by the program."""
    pick, asked, wanted = random.Random(seed), [], []
    with tempfile.TemporaryDirectory() as scratch:
        folder = pathlib.Path(scratch)
        for at in range(many):
            data, path = damaged(pick, made(pick)) if at % 3 == 0 else made(pick), folder / ("%d.fit" % at)
            path.write_bytes(data)
            refusal = refusal_of(data)
            kind, _, place = (refusal or "").partition(" at ")
            refused = {"kind": kind, "place": int(place)} if refusal else None
            found = [] if refusal else [number for number, _, _ in reader.messages(data, False, lambda *it: it)[3]]
            for message in sorted({20, *found}):
                fields = [253, *pick.sample(range(256), 5), *range(9)]
                asked.append({"name": "columns", "files": [path], "more": [message, fields, pick.choice([0, 1, 64])]})
                wanted.append(refused or [[row.get(field) for row in rows_of(data, message)] for field in fields])
            asked.append({"name": "show", "files": [path]})
            wanted.append(refused or reader.show(data).encode().hex())
        torn = recorded(fitrec, folder / "torn", tour(400))
        other = recorded(fitrec, folder / "other", RIDE)
        line = run(fitrec, "save", torn, folder / "ride.fit")[1]
        names = "records", "laps", "sessions", "start", "elapsed", "timer", "distance"
        summary = dict(zip(names, (int(it) for it in re.findall(r"=(\d+)", line))))
        run(fitrec, "salvage", torn / NAMES[0], folder / "kept.fit")
        heard, left = re.findall(r"heard (\d+) entries, (\d+)", run(fitrec, "salvage", "--finish", torn / NAMES[0], folder / "whole.fit")[1])[0]
        finished = {"file": (folder / "whole.fit").read_bytes().hex(), "heard": int(heard), "leftOut": int(left)}
        shutil.copytree(torn, folder / "mended")
        run(fitrec, "repair", folder / "mended")
        ride, hole = (folder / "ride.fit").read_bytes(), bytearray((torn / NAMES[0]).read_bytes())
        hole[900:940] = bytes(40)
        (folder / "hole.fit").write_bytes(hole)
        (folder / "chain.fit").write_bytes(ride + ride + b"\0\1")
        wrong = ride[:-1] + bytes([ride[-1] ^ 1])
        card, places = image(pick, [ride, wrong, short(ride)])
        (folder / "card.img").write_bytes(card)
        (folder / "card").mkdir()
        run(fitrec, "split", "--all", folder / "card.img", folder / "card")
        there = sorted((int(it.stem), it.stat().st_size) for it in (folder / "card").iterdir())
        # The wrong one is read up to its fault. What follows goes on where a header may begin whose mark is not there yet.
        of_card = {"files": [{"start": at, "end": at + size} for at, size in there], "read": int(refusal_of(wrong).partition(" at ")[2]),
                   "next": len(card) - 11}
        # In a part that ends within the third one, that is where the next part begins.
        (folder / "part.img").write_bytes(card[:places[2] + 99])
        of_part = {**of_card, "files": of_card["files"][:1], "next": places[2]}
        run(fitrec, "shift", "--by", "-3600", folder / "ride.fit", folder / "moved.fit")
        moved = (folder / "moved.fit").read_bytes()
        # An hour earlier, and joined in the order of their times.
        run(fitrec, "join", folder / "joined.fit", folder / "ride.fit", folder / "moved.fit")
        _, taken, left_out = joining.heard(joining.joined([joining.stated(it) for it in (moved, ride)]))
        joined = {"file": (folder / "joined.fit").read_bytes().hex(), "heard": taken, "leftOut": left_out}
        said = run(fitrec, "salvage", "--skip", folder / "hole.fit", folder / "skipped.fit")[1]
        skipped = {**pieces_of(said, hole[0]), "file": (folder / "skipped.fit").read_bytes().hex()}
        rest = [("save", both(torn), {"file": ride.hex(), "summary": summary, "uncommitted": 0}),
                ("repair", both(torn), {"file": (folder / "mended" / NAMES[0]).read_bytes().hex(), "summary": summary}),
                ("save", [torn / NAMES[0], other / NAMES[1]], {"kind": "Damaged"}), ("check", [folder / "ride.fit"], summary),
                ("check", [folder / "kept.fit"], {"kind": "NoSession"}), ("finish", [folder / "kept.fit"], finished),
                ("finish", [torn / NAMES[1]], {"kind": "HeaderSize", "place": 0}), ("plain", [folder / "mended" / NAMES[0]], ride.hex()),
                ("shift", [folder / "ride.fit"], moved.hex()), ("shift", [torn / NAMES[1]], {"kind": "HeaderSize", "place": 0}),
                ("shiftStart", [folder / "ride.fit"], moved.hex()), ("join", [folder / "ride.fit", folder / "moved.fit"], joined),
                ("join", [folder / "ride.fit", folder / "ride.fit"], {"kind": "Overlap"}),
                ("join", [folder / "ride.fit", torn / NAMES[1]], {"kind": "HeaderSize", "place": 0}),
                ("uncommitted", both(torn), 0), ("leaveChanged", both(torn), None), ("salvage", [torn / NAMES[1]], {"kind": "HeaderSize"}),
                ("skip", [folder / "hole.fit"], skipped), ("skip", [torn / NAMES[1]], {"kind": "HeaderSize"}),
                ("split", [folder / "chain.fit"], [ride.hex(), ride.hex(), "0001"]), ("find", [folder / "card.img"], of_card),
                ("find", [folder / "part.img"], of_part)]
        # Up to its last commit, without what follows: the times, and a speed in its unit.
        more = recorded(fitrec, folder / "more", [*tour(400), *("sample %d power=%d" % (START + 9999 + at, at) for at in range(999))])
        run(fitrec, "save", more, folder / "saved.fit")
        found, speed = rows_of((folder / "saved.fit").read_bytes(), 20), {"fields": [73, 6], "scale": 0.0036, "offset": 1}
        rest += [("committed", both(more), [[[row[253] for row in found], [row.get(73, row.get(6)) * 0.0036 + 1 for row in found]]])]
        given = {"committed": [[[20, [253, speed]]]], "shift": [-3600], "shiftStart": [start_of(ride) - 3600], "find": [True]}
        asked += [{"name": name, "files": files, "more": given.get(name, [])} for name, files, _ in rest]
        status, out, err = run(ROOT / "compare/calls.mjs", input=json.dumps(asked, default=str))
        yield "called", differs((status, err), (0, ""))
        for it, answer, right in zip(asked, json.loads(out or "[]"), [*wanted, *(it for _, _, it in rest)]):
            yield it["name"], differs(answer, right, it["files"])


# Damaged files that look as if one bit had changed, or as if parts stood elsewhere, are not put right by chance.
UNDONE = '''
import { readFileSync } from 'node:fs';
import { open } from 'file://%(web)s/fitrec.mjs';
import { answerTo } from 'file://%(web)s/saving.js';
const fitrec = await open(readFileSync('%(module)s')), said = [];
for (const path of JSON.parse('%(paths)s')) {
  const { reasons, file } = await answerTo(fitrec, { name: 'ride.fit', data: new Uint8Array(readFileSync(path)) }, []);
  said.push([reasons.some(([key]) => /^(bit|order|text)Why$/.test(key)), file ? Buffer.from(file).toString('hex') : '']);
}
console.log(JSON.stringify(said));
'''


def of_undone(fitrec, many, seed):
    """What is undone of a damage is undone rightly: of many files in which bits, or bytes in a row, have changed by chance."""
    pick, made = random.Random(seed), []
    with tempfile.TemporaryDirectory() as scratch:
        folder = pathlib.Path(scratch)
        run(fitrec, "save", recorded(fitrec, folder / "tour", tour(900)), folder / "tour.fit")
        whole = (folder / "tour.fit").read_bytes()
        for at in range(many):
            data, kind = bytearray(whole), at % 4
            places = [pick.randrange(100, len(whole) - 600) for _ in range(1 + (kind == 1))]
            if kind < 2:
                for place in places:
                    data[place] ^= 1 << pick.randrange(8)
            else:
                size = 16 if kind == 2 else 512
                data[places[0]:places[0] + size] = pick.choice((bytes(size), b"\xFF" * size, pick.randbytes(size)))
            made.append(folder / ("%d.fit" % at))
            made[-1].write_bytes(data)
        paths = json.dumps([str(it) for it in made])
        script = UNDONE % {"web": WEB, "module": WEB / "out/fit_c.wasm", "paths": paths}
        status, out, err = run("node", "--input-type=module", "-e", script)
        yield "answered", differs((status, err), (0, ""))
        said = json.loads(out or "[]")
        for at, (is_undone, content) in enumerate(said):
            yield "damage %d" % at, unless(not is_undone or content == whole.hex(), "another file", "as it was")
        share = sum(is_undone for is_undone, _ in said[::4]) / max(1, len(said[::4]))
        yield "single bits", unless(share > 0.2, share, "a fifth, for those that are seen")


def visited(group, name, fitrec):
    """A group of visits by a browser, in a new folder."""
    absent = missing(*BROWSERS[name][0])
    if absent:
        yield "the page in a browser", absent
        return
    with tempfile.TemporaryDirectory() as folder:
        yield from group(fitrec, pathlib.Path(folder), Browser(name, folder))


def of_modules():
    """The scripts of the page are modules, which import what they use, and take and give what their types say."""
    for it in sorted([*WEB.glob("*.js"), *WEB.glob("*.mjs"), *(ROOT / "compare").glob("*.mjs"), *(ROOT / "compare/tools").glob("*.mjs")]):
        yield "%s is a module" % it.name, differs(run("node", "--check", it)[::2], (0, ""))
    yield "its types", missing("tsc") or differs(run("tsc", "-p", WEB / "jsconfig.json")[:2], (0, ""))


def proved_and_built():
    # The page takes what is kept of the library's proofs.
    with tempfile.TemporaryDirectory() as folder:
        build(folder + "/libfit_c.a")
    ran = subprocess.run([WEB / "build"], stdout=subprocess.PIPE, stderr=subprocess.STDOUT, text=True)
    yield "proved and built", unless(ran.returncode == 0, ran.stdout[-2000:], "status 0")
    if ran.returncode == 0:
        yield release.same("fitrec.html", PAGE)
        size = PAGE.stat().st_size
        yield "its size", unless(size <= MOST, size, "at most %d bytes" % MOST)


def check(given):
    absent = missing("node", "wasm-opt", "esbuild", "zopfli")
    if absent:
        yield "the page and its module", absent
        return
    yield from given.checks(of_modules)
    yield from given.checks(proved_and_built)
    if not (WEB / "out/fit_c.wasm").exists():
        return
    # The module under Node does what the program does, and what the library for C does with its buffers.
    os.environ["FITREC_MODULE"] = str(WEB / "out/fit_c.wasm")
    count = given.files // 250
    for group, many in ((of_recordings, count), (of_files, count // 2), (of_mended, count // 4), (of_finished, count // 4),
                        (of_shifted, count // 4), (of_joined, count // 4), (of_shown_and_checked, count // 4)):
        yield from given.checks(group, given.fitrec, MODULE, many, given.seed, under="module")
    yield from given.checks(of_calls, given.fitrec, given.files // 60, given.seed)
    yield from given.checks(of_undone, given.fitrec, given.files // 25, given.seed)
    for name, (_, groups) in BROWSERS.items():
        for group in groups:
            yield from given.checks(functools.update_wrapper(functools.partial(visited, group, name), group), given.fitrec, under=name)


if __name__ == "__main__":
    name, to = sys.argv[1], pathlib.Path(sys.argv[2]).resolve()
    to.mkdir()
    for group in GROUPS:
        if sys.argv[3:] and group.__name__ not in sys.argv[3:]:
            continue
        with tempfile.TemporaryDirectory() as scratch:
            browser = Browser(name, scratch, to)
            for what, outcome in group(pathlib.Path(os.environ.get("FITREC", FITREC)), pathlib.Path(scratch), browser):
                if outcome is not None:
                    print(group.__name__, what, str(outcome)[:1500], sep=": ")
