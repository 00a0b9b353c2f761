"""The page in a browser: languages, contrast, keys, texts for readers, right to left, and print; what is chosen, and leaving it."""

import itertools
import os
import re
import shutil

from tools.checks import differs, unless
from tools.pages import RIDE, START, both, of_module, recorded, rounded, rows, tour
from tools.program import ROOT, run
from tools.fit_files import framed
from tools.page_forms import MAY_LEAVE
from tools.page_values import ENUM, HEART, TIME, UINT32, message
from tools.visits import RESCUED, WIDTHS, WINDOWS

WEB = ROOT / "web"

# The text and the lines of pictures that do not stand out enough from what is behind them.
FAINT = """(() => {
  const parts = it => it.match(/[\\d.]+/g).map(Number), light = ([r, g, b]) => [r, g, b].map(n => n / 255)
    .map(n => n <= 0.04045 ? n / 12.92 : ((n + 0.055) / 1.055) ** 2.4).reduce((sum, n, i) => sum + n * [0.2126, 0.7152, 0.0722][i], 0);
  const contrast = (a, b) => (Math.max(light(a), light(b)) + 0.05) / (Math.min(light(a), light(b)) + 0.05), faint = [];
  const behind = it => {
    for (; it; it = it.parentElement) {
      const found = parts(getComputedStyle(it).backgroundColor);
      if (found.length === 3 || found[3] > 0) return found;
    }
  };
  for (const it of document.querySelectorAll('body *')) {
    if (!it.checkVisibility() || it.closest('script') || it.matches('option')) continue;
    const style = getComputedStyle(it), text = [...it.childNodes].some(node => node.nodeType === 3 && node.data.trim());
    const line = it.matches('.curve, .map path:not(.casing)') ? parts(style.stroke) : null, least = line ? 3 : 4.5;
    const found = line ? contrast(line, behind(it.closest('div'))) : text ? contrast(parts(style.color), behind(it)) : 21;
    if (found < least) faint.push([it.tagName, it.className.baseVal ?? it.className, it.textContent.slice(0, 20), found]);
  }
  return faint;
})()"""
FOCUSED = """[document.activeElement.id || document.activeElement.className || document.activeElement.tagName, (it =>
  getComputedStyle(it.matches('.unseen') ? it.nextElementSibling : it).outlineStyle)(document.activeElement)]"""
# The words for a number in each language, for a ride of 2.33 km, and of a button; and a word for a tap.
SPOKEN = {
    "en-GB": ("2.33 km", "Choose files", "Tap"), "ja-JP": ("2.33 km", "Choose files", "Tap"),
    "de-DE": ("2,33 km", "Dateien wählen", "Tippe"), "de-CH": ("2.33 km", "Dateien wählen", "Tippe"),
    "fr-FR": ("2,33 km", "Choisir des fichiers", "Touchez"), "es-ES": ("2,33 km", "Elegir archivos", "Toca"),
    "it-IT": ("2,33 km", "Scegli i file", "Tocca")}


def of_people(fitrec, folder, browser):
    """Languages, contrast, keys, texts for readers, right to left, and print."""
    torn = recorded(fitrec, folder / "torn", RIDE)
    where, faint = recorded(fitrec, folder / "tour", tour(900)), {"evaluate": FAINT}
    rides = folder / "rides"
    rides.mkdir()
    shutil.copytree(torn, rides / "a")
    shutil.copytree(where, rides / "b")

    def spoken(language, distance, choose, tap, touch):
        def judge(shown, made):
            short = language.split("-")[0] if language != "ja-JP" else "en"
            yield "its language", differs(made[1][:2], [short, choose])
            yield "a tap where fingers are", unless(made[1][2].startswith(tap) == touch, made[1][2], tap)
            distances = [it for it in shown[0]["numbers"].values() if it.endswith(" km")]
            yield "its numbers", differs(distances, [distance])
            yield "each picture has a text", differs([bool(it and re.search(r"\d", it)) for it in shown[0]["labels"]], 5 * [True])
            yield "the name of the file", differs(shown[0]["download"], "2021-09-08-ride.fit")
        return judge

    for (language, words), window in itertools.product(SPOKEN.items(), ("wide", "narrow and dark")):
        asked = "[document.documentElement.lang, document.querySelector('label').innerText, document.getElementById('hint').innerText]"
        touch = bool(WINDOWS[window].get("touch"))
        browser.visit("%s, %s" % (language, window), [{"files": both(torn)}, {"evaluate": asked}], spoken(language, *words, touch),
                      languages=language, **WINDOWS[window])

    def of_contrast(shown, made):
        yield "contrast", differs([it for it in made if isinstance(it, list)], 4 * [[]])

    for window in WINDOWS:
        steps = [faint, {"files": both(torn)}, faint, {"files": [folder / "tour.script"]}, faint, {"files": [rides], "drop": True},
                 {"click": "#rides tbody button"}, {"point": [".plot"]}, faint]
        browser.visit("contrast, %s" % window, steps, of_contrast, **WINDOWS[window])

    order = ["files", "folder", "SUMMARY", "save", "SUMMARY", "asGpx", "asCsv", "asPicture", "moment", "colour", "scrolled"]

    def of_keys(shown, made):
        yield "the order of keys, with a visible focus", differs([it for it in made if it], [[it, "solid"] for it in order])
        yield "a choice by keys", differs(shown[-1]["heading"], RESCUED)

    to_the_top = "(it => { it.tabIndex = -1; it.focus(); })(document.querySelector('h1'))"
    steps = [{"files": both(torn)}, {"evaluate": to_the_top}, *(it for _ in order for it in ({"keys": ["Tab"]}, {"evaluate": FOCUSED}))]
    browser.visit("keys", steps, lambda shown, made: of_keys(shown, made[2:]))

    def of_right_to_left(shown, made):
        yield "lines of time stay as they are", differs(made[1], True)

    for window in WINDOWS:
        turned = {"evaluate": """(document.documentElement.dir = 'rtl', [...document.querySelectorAll('.axes')].every(it => {
            const [first, ...rest] = [...it.querySelectorAll('.time')].map(mark => mark.getBoundingClientRect().left);
            return rest.every(left => left > first) && it.querySelector('.heights').getBoundingClientRect().left < first;
          }))"""}
        browser.visit("right to left, %s" % window, [{"files": both(where)}, turned], of_right_to_left, **WINDOWS[window])

    def of_print(shown, made):
        yield "on paper: no buttons, and light", differs(made[1], [0, "rgb(255, 255, 255)", 5])

    for dark in (False, True):
        paper = """[[...document.querySelectorAll('button, .button, input, select')].filter(it => it.checkVisibility()).length,
            getComputedStyle(document.body).backgroundColor,
            [...document.querySelectorAll('figure')].filter(it => it.checkVisibility()).length]"""
        steps = [{"files": both(torn)}, {"evaluate": paper}]
        browser.visit("print, dark" if dark else "print", steps, of_print, print=True, dark=dark, width=700)

    # Each language has the same texts, with the same places for what is filled in, and each is used.
    texts = of_module("texts.js", "it.TEXTS")
    yield "languages", differs(sorted(texts), ["de", "en", "es", "fr", "it"])
    command = r"fitrec (check|plain|repair|salvage|save|show|split)|--"
    yield "no command of the program", differs([it for own in texts.values() for it in own.values() if re.search(command, it)], [])
    filled = {language: {key: sorted(re.findall(r"\{\w+\}", it)) for key, it in own.items()} for language, own in texts.items()}
    for language, own in filled.items():
        yield "%s is whole" % language, differs(own, filled["en"])
    sources = "".join((WEB / name).read_text() for name in os.listdir(WEB) if name.endswith((".js", ".html")) and name != "texts.js")
    words = set(re.findall(r"'(\w+)'|\"(\w+)\"|(\w+):", sources))
    known = {it for found in words for it in found} | {"fault" + it for it in FAULTS}
    # A kind of file is named by the word of its number.
    known |= {"kind" + it for it in re.findall(r"'(\w+)'", re.search(r"const KINDS = \{(.*?)\};", sources, re.S)[1])} | {"kindOther"}
    yield "no text is left over", differs([it for it in texts["en"] if it not in known and not it.startswith("offer_")], [])
    yield from browser.outcomes()


FAULTS = ("Truncated", "HeaderSize", "Magic", "Protocol", "HeaderCrc", "UndefinedLocal", "SplitMessage", "FileCrc", "TrailingBytes",
          "NoFileId", "NotActivity", "NoLap", "NoSession", "NoActivity", "NoSample")


def takes(name, value):
    return {"evaluate": """(it => {
        it.value = '%s';
        it.dispatchEvent(new Event('change'));
      })(document.getElementById('%s'))""" % (value, name)}


def of_choices(fitrec, folder, browser):
    """A language and units that are chosen hold at once; what is not downloaded is said; and each sport has its name."""
    torn = recorded(fitrec, folder / "torn", RIDE)
    run(fitrec, "save", torn, folder / "ride.fit")
    session = rows((folder / "ride.fit").read_bytes(), 18)[0]
    kilometres, seconds = session["total_distance"] / 1e5, session["total_timer_time"] / 1000
    pace = lambda length: "%d:%02d" % divmod(round(seconds / length), 60)
    miles = kilometres / 1.609344

    units = {"kmh": (rounded(kilometres, 2) + " km", rounded(kilometres / seconds * 3600, 1) + " km/h"),
             "perKm": (rounded(kilometres, 2) + " km", pace(kilometres) + " /km"),
             "mph": (rounded(miles, 2) + " mi", rounded(miles / seconds * 3600, 1) + " mph"),
             "perMile": (rounded(miles, 2) + " mi", pace(miles) + " /mi")}
    opened = {"evaluate": "new Promise(done => setTimeout(done, 50))"}

    def of_units(shown, made):
        for (name, (length, speed)), it in zip(units.items(), shown[2::2]):
            called = "Average pace" if name.startswith("per") else "Average speed"
            yield name, differs([it["numbers"]["Distance"], it["numbers"].get(called)], [length, speed])
            yield name + " in the laps", differs(it["laps"][1][3:5], [length, speed])
            ascent = it["numbers"]["Ascent"]
            yield name + ": heights", differs(ascent.endswith(" ft"), name in ("mph", "perMile"))
        yield "the lines of a curve are round", differs(made[-1], [])

    # Numbers of a grid have few digits, in miles too.
    lines = """[...document.querySelectorAll('.chart:not(:has(.speed)) .heights span')].map(it => it.innerText)
        .filter(it => !/^-?[\\d,]+(\\.\\d)?$/.test(it))"""
    for width, window in WIDTHS.items():
        steps = [{"files": both(torn)}, opened, *(it for name in units for it in (takes("units", name), opened))]
        browser.visit("units at %s" % width, [*steps, {"evaluate": lines}], of_units, **window)

    def of_languages(shown, made):
        for at, (heading, button) in enumerate((("Deine Fahrt ist gerettet", "Dateien wählen"), ("Votre sortie est récupérée", "Choisir des fichiers"),
                                                ("Tu salida está recuperada", "Elegir archivos"),
                                                ("La tua uscita è stata recuperata", "Scegli i file"), (RESCUED, "Choose files"))):
            yield heading, differs([shown[2 * at + 1]["heading"], made[2 * at + 2]], [heading, button])

    button = {"evaluate": "document.querySelector('label').innerText"}
    steps = [it for language in ("de", "fr", "es", "it", "en") for it in (takes("language", language), button)]
    for width, window in WIDTHS.items():
        browser.visit("languages at %s" % width, [{"files": both(torn)}, *steps], of_languages, **window)

    # What is not downloaded is said, and warned of.
    leave, save = {"evaluate": MAY_LEAVE}, {"download": "#save"}

    def of_leaving(shown, made):
        yield "nothing is there", differs(made[0], True)
        yield "it is not downloaded", differs((made[2], shown[2]["taken"]), (False, "So far it is only in this page. Download it before you leave."))
        yield "it is downloaded", differs((made[4], shown[4]["taken"]), (True, "2021-09-08-ride.fit is in your downloads."))

    def of_whole(shown, made):
        yield "nothing was made", differs((made[1], shown[1]["taken"]), (True, ""))

    for width, window in WIDTHS.items():
        browser.visit("leaving at %s" % width, [leave, {"files": both(torn)}, leave, save, leave], of_leaving, **window)
        browser.visit("leaving a whole file at %s" % width, [{"files": [folder / "ride.fit"]}, leave], of_whole, **window)

    # Each sport by its name, in headings and names of files.
    def of_sport(word, name):
        def judge(shown, made):
            yield "its name", differs((shown[0]["heading"], shown[0]["download"]), ("Your %s is rescued" % word, "2024-11-08-%s.fit" % name))
        return judge

    for number, word in ((1, "run"), (2, "ride"), (5, "swim"), (11, "activity"), (None, "activity")):
        sport = b"" if number is None else message(12, {(0, ENUM): number})
        samples = b"".join(message(20, {TIME: START + at, HEART: 120}) for at in range(60))
        file = folder / ("%s.fit" % number)
        file.write_bytes(framed(message(0, {(0, ENUM): 4, (4, UINT32): START}) + sport + samples))
        for width, window in WIDTHS.items():
            browser.visit("sport %s at %s" % (number, width), [{"files": [file]}], of_sport(word, word), **window)
    yield from browser.outcomes()


def of_kept_choices(fitrec, folder, browser):
    """A language and units hold when the page is opened again in the same browser; where nothing can be kept, for the visit."""
    torn = recorded(fitrec, folder / "torn", RIDE)

    def of_kept(shown, made):
        yield "they are kept", differs(made[-1], ["de", "mph", "Dateien wählen"])

    def of_refused(shown, made):
        yield "they hold for the visit", differs(shown[2]["heading"], "Deine Fahrt ist gerettet")

    kept = "[document.documentElement.lang, document.getElementById('units').value, document.querySelector('label').innerText]"
    browser.visit("choices that are made", [takes("language", "de"), takes("units", "mph")], lambda shown, made: [])
    browser.visit("choices that were made", [{"evaluate": kept}], of_kept)
    browser.visit("choices are given back", [takes("language", "en"), takes("units", "kmh")], lambda shown, made: [])
    refuse = {"evaluate": "Storage.prototype.setItem = Storage.prototype.getItem = () => { throw new DOMException('', 'SecurityError'); }"}
    browser.visit("choices that cannot be kept", [refuse, takes("language", "de"), {"files": both(torn)}], of_refused)
    yield from browser.outcomes()
