"""Visits of the page in a browser, and what is judged of each."""

import json
import re
import sys

from tools.checks import differs
from tools.program import ROOT, run

BROWSER, PAGE = ROOT / "compare/browser.mjs", ROOT / "web/out/fitrec.html"
WINDOWS = {"wide": {"width": 1280}, "narrow": {"width": 390, "touch": True},
           "wide and dark": {"width": 1280, "dark": True}, "narrow and dark": {"width": 390, "touch": True, "dark": True}}
# What is laid out has to fit the narrowest phone too.
WIDTHS = {"1280": {"width": 1280}, "390": {"width": 390, "touch": True}, "320": {"width": 320, "touch": True}}
RESCUED, MOSTLY, PARTLY = "Your ride is rescued", "Most of your ride is rescued", "Part of your ride is rescued"
FINE, NOTHING, TOTALS = "This file is fine", "Nothing could be rescued", "Only the totals of your %s are there"
COMPLETED, LAST_LAP = "The laps and totals were missing.", "The last lap and the totals were missing."
DATED = "This file is whole, but its times are wrong"


def visits(name, folder, asked, limit=3600):
    """What a browser answers to some visits. Which of them were made once more is shown."""
    status, out, err = run(BROWSER, name, PAGE, folder, input=json.dumps(asked, default=str), timeout=limit)
    if status != 0:
        raise RuntimeError("the browser ended with %s: %s" % (status, err[-2000:]))
    sys.stderr.write(err)
    return json.loads(out)


class Browser:
    """Visits that are collected, and made all at once in a browser of this name. What it keeps lies in the folder."""

    def __init__(self, name, folder, shots=None):
        self.name, self.folder, self.shots, self.asked, self.judges = name, folder, shots, [], []

    def visit(self, name, steps, judge, **how):
        """A visit, and what judges its answer: it yields names and differences. One that a browser has no way to is left out."""
        is_wide = how.keys() <= {"width", "unread"} and how.get("width", 1280) == 1280
        if self.name == "webkit" and (not is_wide or any("drop" in it for it in steps)):
            return
        shot = [{"screenshot": self.shots / (re.sub(r"\W+", "-", name) + ".png")}] if self.shots else []
        self.asked.append(how | {"steps": [*steps, *shot]})
        self.judges.append((name, judge, how.get("address", "file://%s" % PAGE), len(steps)))

    def outcomes(self):
        """The visits that were collected until now."""
        asked, judges, self.asked, self.judges = self.asked, self.judges, [], []
        for (name, judge, address, count), answer in zip(judges, visits(self.name, self.folder, asked)):
            yield name + ": nothing is logged", differs(answer["logged"], [])
            # A page that is served asks for its own folder alone. What has its content in it, such as a browser's own icon, is no request.
            own = address.rpartition("/")[0] + "/" if address.startswith("http") else address
            requests = [it for it in answer["requests"] if it not in ("blob:", "data:") and not it.startswith(own)]
            yield name + ": no request", differs(requests, [])
            if answer["logged"]:
                continue
            for it in answer["shown"]:
                yield name + ": fits the window, and all is named", differs((it["wide"], it["unnamed"]), (False, 0))
            for what, outcome in judge(answer["shown"], answer["made"][:count]):
                yield "%s: %s" % (name, what), outcome
