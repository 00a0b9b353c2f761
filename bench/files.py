"""`fitrec check` over 10,000 rides of 22 KB by the shell, four at once."""

import subprocess
import time

from tools import START, launched, nine_fields, run

FILES = 10_000


def figures(work):
    program, script, ride, many = launched(), work / "script", work / "ride", work / "many"
    for it in (ride, many):
        it.mkdir()
    lines = ["start %d 7 cycling" % START, *("sample %d %s" % (START + at, nine_fields(at)) for at in range(1000)), "stop %d" % (START + 1000)]
    script.write_text("\n".join(lines) + "\n")
    run(program, "replay", script, ride)
    data = (ride / "activity.fit").read_bytes()
    for at in range(FILES):
        (many / ("%d.fit" % at)).write_bytes(data)
    begun = time.monotonic()
    said = subprocess.run("find %s -name '*.fit' -print0 | xargs -0 -n 1 -P 4 %s check" % (many, program), shell=True, capture_output=True, text=True)
    if said.stdout.count("ok records=1000 ") != FILES:
        raise SystemExit("files: not all were checked: " + said.stderr[:300])
    what = "`fitrec check` by `xargs -0 -n 1 -P 4`, {:,} rides of {:.0f} KB".format(FILES, len(data) / 1000)
    yield what, "%.0f files/s" % (FILES / (time.monotonic() - begun))
