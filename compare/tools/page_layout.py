"""The page in a browser: how it is laid out on windows of each width, and a ride of very many laps."""

import math

from tools.checks import differs, unless
from tools.fit_files import framed
from tools.page_values import BEGIN, ELAPSED, ENUM, HEART, LENGTH, SPEED, TIME, TIMER, UINT16, UINT32, message
from tools.pages import SEMICIRCLE, START, both, recorded, tour
from tools.visits import WIDTHS

# The most milliseconds from a choice to what is shown, for a ride of 60,000 laps: the least of three. Where others use the machine too, it may
# take six times as long as the same ride of one lap. Laps that are the whole ride each take longer.
MOST_MS, SLOWER = 1000, 6

BOXES = """(() => {
  const box = it => (({ left, top, width, height, right, bottom }) => ({ left, top, width, height, right, bottom }))(it.getBoundingClientRect());
  const of = selector => box(document.querySelector(selector));
  return { reader: of('#reader'), slider: of('#moment'), begin: of('.map .begin'), finish: of('.map .finish'), track: of('.track'),
    chart: of('.chart') };
})()"""
# The box of something once the page is scrolled to its end.
AT_THE_END = """(async () => {
  scrollTo(0, document.documentElement.scrollHeight - innerHeight - document.getElementById('laps').offsetHeight - 300);
  await new Promise(done => requestAnimationFrame(() => requestAnimationFrame(done)));
  const { top, bottom } = document.querySelector('.map').getBoundingClientRect(), reader = document.getElementById('reader');
  const below = document.elementFromPoint(innerWidth / 2, 5);
  return [top >= 0 && bottom <= innerHeight, reader.getBoundingClientRect().top === 0 && reader.contains(below)];
})()"""
# The mark of the lap table that it goes on: as it is shown, and once the table is scrolled to its end.
GOES_ON = """(async () => {
  const box = document.querySelector('#laps .scrolled'), mark = document.querySelector('.goes'), seen = [mark.checkVisibility()];
  const { right } = mark.getBoundingClientRect();
  box.scrollLeft = box.scrollWidth;
  await new Promise(done => setTimeout(done, 100));
  return [...seen, right <= innerWidth, mark.checkVisibility()];
})()"""
DRAGGED = """(async () => {
  scrollTo(0, document.documentElement.scrollHeight);
  const seen = () => [...document.querySelectorAll('body *')].filter(it => it.checkVisibility() && getComputedStyle(it).borderStyle === 'dashed')
    .some(it => (({ top, bottom }) => top >= 0 && bottom <= innerHeight)(it.getBoundingClientRect()));
  const before = seen();
  dispatchEvent(new DragEvent('dragover', { cancelable: true }));
  const during = seen();
  dispatchEvent(new DragEvent('dragleave', { cancelable: true }));
  return [before, during, seen()];
})()"""


def loop(seconds=600):
    """A ride that ends where it begins."""
    lines = ["start %d 7 cycling" % START]
    for i in range(seconds):
        turn = 2 * math.pi * i / seconds
        lines.append("sample %d lat=%d long=%d hr=%d dist=%d speed=8000" % (
            START + i, (47 + math.sin(turn) / 100) * SEMICIRCLE, (8 + math.cos(turn) / 100) * SEMICIRCLE, 100 + i % 50, i * 800))
    return [*lines, "commit"]


def of_layout(fitrec, folder, browser):
    """What is sticky is low, what is touched is high, marks do not cover each other, and what goes on says so."""
    where = recorded(fitrec, folder / "tour", tour(900))
    round_ = recorded(fitrec, folder / "loop", loop())

    def judged(width):
        def judge(shown, made):
            boxes, (is_map_in_view, is_reader_on_top), goes, dragged = made[2], *made[3:6]
            reader, slider, track, chart = (boxes[it] for it in ("reader", "slider", "track", "chart"))
            yield "what is sticky is low", unless(reader["height"] < 60, reader["height"], "below 60")
            yield "the slider is high", unless(slider["height"] >= 24, slider["height"], "at least 24")
            is_beside = track["right"] <= chart["left"] and track["top"] < chart["bottom"]
            yield "the map is beside the curves on a wide window", differs(is_beside, width == "1280")
            yield "the map stays", differs(is_map_in_view, width == "1280")
            yield "the readings stay", differs(is_reader_on_top, True)
            yield "a table that goes on says so", differs(goes, [width != "1280", True, False])
            yield "the place to drop is in view", differs(dragged, [False, True, False])
        return judge

    def of_marks(shown, made):
        begin, finish = made[1]["begin"], made[1]["finish"]
        yield "side by side", unless(begin["right"] <= finish["left"] + 1 or finish["right"] <= begin["left"] + 1, (begin, finish), "no cover")

    def of_words(shown, made):
        yield "the reason is announced", differs(made[1], True)

    announced = """(it => it === document.activeElement
      && it.getAttribute('aria-describedby').split(' ').some(id => document.getElementById(id).innerText.includes('confirmed')))(document.getElementById('result'))"""
    for width, window in WIDTHS.items():
        pointed = {"touchAt": [".plot", 60]} if window.get("touch") else {"point": [".plot", 60]}
        steps = [{"files": both(where)}, pointed, *({"evaluate": it} for it in (BOXES, AT_THE_END, GOES_ON, DRAGGED))]
        browser.visit("layout at %s" % width, steps, judged(width), **window)
        browser.visit("a loop at %s" % width, [{"files": both(round_)}, {"evaluate": BOXES}], of_marks, **window)
        browser.visit("what is announced at %s" % width, [{"files": both(where)}, {"evaluate": announced}], of_words, **window)

    def of_paper(shown, made):
        yield "no intro on paper", differs(made[1], 0)

    intro = "[...document.querySelectorAll('h1, [data-text=lead], #hint')].filter(it => it.checkVisibility()).length"
    browser.visit("paper", [{"files": both(where)}, {"evaluate": intro}], of_paper, print=True, width=700)
    yield from browser.outcomes()


def of_many_laps(fitrec, folder, browser):
    """60,000 laps are shown in under a second, some hundred rows at once, with all numbers of each."""
    count = 60_000
    # Of one lap, of a lap a second, and of laps that are the whole ride each.
    for name, laps, is_whole in (("one", 1, False), ("laps", count, False), ("whole", count, True)):
        (folder / (name + ".fit")).write_bytes(long_ride(count, laps, is_whole))
    one, laps, whole = (3 * [{"files": [folder / (name + ".fit")]}] for name in ("one", "laps", "whole"))
    press = {"evaluate": "document.querySelector('#laps button').click()"}

    def judged(is_whole):
        def judge(shown, made):
            first, more, least, most = shown[5]["laps"], shown[6]["laps"], min(made[3:6]), max(MOST_MS, SLOWER * min(made[:3])) * (3 if is_whole else 1)
            yield "in time", unless(least < most, least, "below %d ms" % most)
            yield "how many", differs(shown[5]["numbers"]["Laps"], "60,000")
            yield "rows at once", differs((len(first), len(more)), (201, 401))
            # A lap is a second: of its sample, and the last of the samples of two.
            beats = lambda k: 100 + k % 50
            wanted = [["%d" % (k + 1), "0:00:01" if not is_whole else "16:40:00", "0.01 km", "%d bpm" % (149 if is_whole else beats(k))]
                      for k in range(400)]
            yield "their numbers", differs([[it[0], it[2], it[3], it[6]] for it in more[1:]], wanted)
        return judge

    for width, window in WIDTHS.items():
        browser.visit("laps of a second at %s" % width, [*one, *laps, press], judged(False), **window)
    browser.visit("laps of the whole ride", [*one, *whole, press], judged(True))
    yield from browser.outcomes()


def long_ride(count, laps, is_whole):
    """A ride of so many seconds and laps, each a second or the whole ride: of each message a definition, and then its data messages."""
    def lap(at):
        begin, end = (0, count) if is_whole else (at, at + 1)
        return {TIME: START + end, BEGIN: START + begin, ELAPSED: 1000 * (end - begin), TIMER: 1000 * (end - begin), LENGTH: 800}

    parts = [message(0, {(0, ENUM): 4, (4, UINT32): START})]
    for number, many, each in ((20, count, lambda at: {TIME: START + at, HEART: 100 + at % 50, SPEED: 8000}), (19, laps, lap)):
        front = 6 + 3 * len(each(0))
        parts += [message(number, each(at))[front if at else 0:] for at in range(many)]
    closing = {TIME: START + count, BEGIN: START, ELAPSED: 1000 * count, TIMER: 1000 * count, LENGTH: 800 * count}
    return framed(b"".join([*parts, message(18, closing), message(34, {TIME: START + count, (1, UINT16): 1})]))
