"""The page in a browser: as an app without a connection, and with a long ride."""

import http.server
import itertools
import pathlib
import threading

from tools.checks import differs, unless
from tools.pages import RIDE, START, both, of_module, recorded
from tools.program import bytes_of, run
from tools.visits import PAGE, RESCUED, WIDTHS, WINDOWS

# The most milliseconds of a ride of 16 MB, and between two turns of the page, on a machine that others use too. Where that is slow, the
# page may wait for a quarter of the time.
MOST_MS, MOST_STILL_MS = 8000, 500
# Notes for how long the page stands still, when it shows progress, how much, and when the answer is there.
WATCH = """(() => {
    const seen = window.seen = { gap: 0, progress: null, bar: [] }, began = () => { seen.began = performance.now(); };
    const bar = document.getElementById('progress');
    let last = performance.now();
    document.getElementById('files').addEventListener('change', began, true);
    setInterval(() => {
      const now = performance.now(), isBusy = document.body.classList.contains('busy');
      if (seen.began && !seen.ended) {
        seen.gap = Math.max(seen.gap, now - last);
        if (bar.checkVisibility()) {
          seen.progress ??= now - seen.began;
          if (seen.bar[seen.bar.length - 1] !== bar.value) seen.bar.push(bar.value);
        }
        if (!isBusy && !document.getElementById('result').hidden) seen.ended = now - seen.began;
      }
      last = now;
    }, 5);
  })()"""


def most_still(seen):
    """The most milliseconds between two turns of the page."""
    return max(MOST_STILL_MS, (seen.get("ended") or 0) / 4)


class Server(http.server.SimpleHTTPRequestHandler):
    """Gives the files of web/out, and logs nothing. The page is what the folder gives, too. It is given twice: to be opened, and to be kept."""

    given = 0

    def __init__(self, *words):
        super().__init__(*words, directory=str(PAGE.parent))

    def do_GET(self):
        if self.path.partition("?")[0] == "/":
            self.path = "/fitrec.html"
        is_page = self.path.partition("?")[0] == "/fitrec.html"
        Server.given += is_page
        if is_page and Server.given > 2:
            return self.send_error(503)
        return super().do_GET()

    def end_headers(self):
        self.send_header("Cache-Control", "no-store")
        super().end_headers()

    def log_message(self, *words):
        pass


def of_an_app(fitrec, folder, browser):
    """The page is installed where it is served, and saves a ride without a connection."""
    torn = recorded(fitrec, folder / "torn", RIDE)
    run(fitrec, "save", torn, folder / "ride.fit")
    Server.given = 0
    server = http.server.ThreadingHTTPServer(("127.0.0.1", 0), Server)
    threading.Thread(target=server.serve_forever, daemon=True).start()
    address = "http://127.0.0.1:%d/fitrec.html" % server.server_port
    ready = {"evaluate": "navigator.serviceWorker.ready.then(it => new Promise(done => setTimeout(() => done(it.active.state), 500)))"}

    def judge(shown, made):
        yield "without a connection", differs(shown[3]["heading"], RESCUED)
        yield "the file", differs(bytes_of(pathlib.Path(made[4])), (folder / "ride.fit").read_bytes())

    steps = [ready, {"reload": True}, {"wait": 1}, {"files": both(torn)}, {"download": "#save"}]
    for window in WINDOWS:
        browser.visit("an app, %s" % window, steps, judge, address=address, **WINDOWS[window])
    if browser.name == "chromium":
        browser.visit("an app", [ready, {"installed": True}], lambda shown, made: [("it is installed", differs(made[1], []))], address=address)
    yield from browser.outcomes()
    server.shutdown()
    # Every address under which the page is opened, each in a browser of its own.
    for (name, window), query in itertools.product(WIDTHS.items(), ("", "?x=y", "fitrec.html?x=y", "fitrec.html#x")):
        Server.given = 0
        server = http.server.ThreadingHTTPServer(("127.0.0.1", 0), Server)
        threading.Thread(target=server.serve_forever, daemon=True).start()
        browser.visit("opened as /%s, at %s" % (query, name), steps, judge, address="http://127.0.0.1:%d/%s" % (server.server_port, query), **window)
        yield from browser.outcomes()
        server.shutdown()


def of_a_long_ride(fitrec, folder, browser):
    """A long ride does not let the page stand still, and shows how far it is."""
    lines = ["start %d 7 cycling" % START]
    for i in range(700_000):
        lines.append("sample %d lat=%d long=%d ealt=%d hr=%d cad=%d dist=%d speed=%d power=%d temp=20" % (
            START + i, 566012345 + i, 102345678 + i % 1000, 2700 + i % 3000, 110 + i % 60, 80 + i % 9, 20 * i, 7800 + i % 500,
            150 + i % 120))
    where = recorded(fitrec, folder / "long", [*lines, "commit"])
    # What runs unseen before it is a ride that a device left.
    short = folder / "short"
    short.mkdir()
    for file, content in zip(both(short), of_module("rehearsal.js", "it.shortRide().map(part => [...part])")):
        file.write_bytes(bytes(content))
    said = run(fitrec, "save", short, folder / "short.fit")[1]
    is_ride = "ok records=2000 laps=1 sessions=1" in said and "elapsed_ms=1999000" in said
    yield "the short ride that runs before", unless(is_ride, said, "2,000 samples")

    def judge(shown, made):
        seen = made[3]
        yield "it is saved and drawn", differs((shown[-1]["heading"], len(shown[-1]["curves"])), (RESCUED, 6))
        # On a quiet machine docs/PERFORMANCE.md has the figure. Here others may run.
        yield "in time", unless(seen["ended"] < MOST_MS, seen, "at most %d ms" % MOST_MS)
        yield "it never stands still", unless(seen["gap"] < most_still(seen), seen, "at most %d ms" % most_still(seen))
        yield "progress from 0.3 s on", unless(250 < (seen["progress"] or 0) < 300 + most_still(seen), seen, "about 300 ms")

    for window in ("wide", "narrow and dark"):
        steps = [{"evaluate": WATCH}, {"files": both(where)}, {"wait": 100}, {"evaluate": "window.seen"}]
        browser.visit("a long ride, %s" % window, steps, judge, **WINDOWS[window])
    yield from browser.outcomes()
