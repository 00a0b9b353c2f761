"""How many instructions a sample takes, by valgrind: the difference between rides of 8,000 and of 2,000 samples, one a second."""

import re
import shutil

from tools import START, launched, nine_fields, run

READ = ["show"], ["check"], ["show", "--json"], ["table"], ["table", "--profile"], ["show", "--gpx"]


def counted(work, *words):
    """The instructions of a run."""
    log = work / "log"
    run("valgrind", "--tool=cachegrind", "--cache-sim=no", "--cachegrind-out-file=/dev/null", "--log-file=%s" % log, *words)
    return int(re.search(r"I +refs: +([\d,]+)", log.read_text())[1].replace(",", ""))


def of_a_ride(program, work, fields, samples):
    """The instructions of each command over a ride."""
    script, folder, copy = work / "script", work / "ride", work / "copy"
    for it in (folder, copy):
        shutil.rmtree(it, ignore_errors=True)
    folder.mkdir()
    lines = ["start %d 7 cycling" % START, *("sample %d %s" % (START + at, fields(at)) for at in range(samples)), "commit"]
    script.write_text("\n".join(lines) + "\n")
    found = [counted(work, program, "replay", script, folder)]
    shutil.copytree(folder, copy)
    found.append(counted(work, program, "repair", copy))
    return found + [counted(work, program, *words, copy / "activity.fit") for words in READ]


def figures(work):
    if not shutil.which("valgrind"):
        yield "instructions a sample", "not here: Debian's package valgrind"
        return
    program = launched()
    for name, fields in (("nine", nine_fields), ("one", lambda at: "hr=%d" % (100 + at % 80))):
        few, many = (of_a_ride(program, work, fields, samples) for samples in (2000, 8000))
        each = [(more - less) / 6000 for less, more in zip(few, many)]
        yield "instructions a sample of `replay`, `repair`, `show`, `check`, " + name, "{:,.0f}, {:,.0f}, {:,.0f}, {:,.0f}".format(*each[:4])
        yield "instructions a sample of `table`, `table --profile`, `show --gpx`, " + name, "{:,.0f}, {:,.0f}, {:,.0f}".format(*each[5:])
        yield "`show --json` by `show`, " + name, "%.2f" % (each[4] / each[2])
