"""Checks `fitrec record`: its answers are those of `replay`, line by line and however the bytes come; a line that cannot be done is answered
and nothing else; what was committed survives a kill after any line; its memory does not grow."""

import os
import pathlib
import random
import re
import signal
import subprocess
import sys
import tempfile
import time

from tools import rides
from tools.checks import differs, unless
from tools.program import ROOT, holds, run

NEEDS = ("fitrec",)
EXAMPLES = ROOT / "examples"
# Without these words it commits by itself.
AT_THE_END = "--commit", "0"


def record(fitrec, folder, text, *words):
    """The status, the answers and the errors of a recording that is given these bytes."""
    return run(fitrec, "record", *words, folder, input=text)


def replayed(fitrec, folder, text, *options):
    with tempfile.NamedTemporaryFile("w") as script:
        script.write(text)
        script.flush()
        return run(fitrec, "replay", *options, script.name, folder)


def scripts():
    """Scripts whose rides end and do not, are resumed, recovered and erased, with refusals."""
    yield rides.EXAMPLE.read_text()
    for every in (1, 7, 50):
        yield rides.script_of(120, every)
    ride = rides.script_of(30, 10)
    yield ride + "restart\n" + rides.script_of(30, 10, 30) + "stop 1000000100\n"
    yield ride + "recover\nerase\n" + ride + "stop 1000000029\n\n# over\n"
    yield "commit\nsample 1000000000\nreopen\nrecover\n" + ride + "start 1000000000 1 running\nstop 5\nlap 1000000050\n"
    pick = random.Random(1)
    for _ in range(12):
        yield rides.script_of(pick.randrange(1, 60), pick.randrange(1, 9)) + pick.choice(["", "recover\n", "stop 1000000070\n", "erase\n"])


def as_recorded(said, lines, rides_on):
    """What `record` has to say where `replay` says this: if a recorder still runs, a commit comes after the last line."""
    status, out, err = said
    return status, out + "%d commit: ok\n" % (lines + 1) * rides_on, err


def still_rides(answers):
    """Whether a recorder runs after these answers."""
    rides_on = False
    for answer in answers:
        word, is_ok = answer.split()[1], answer.endswith(" ok")
        if word in ("start:", "reopen:"):
            rides_on = is_ok
        elif word in ("restart:", "recover:", "erase:") or word == "stop:" and is_ok:
            rides_on = False
    return rides_on


def as_replays(fitrec):
    """The answers and the files are those of a replay."""
    for text in scripts():
        with tempfile.TemporaryDirectory() as one, tempfile.TemporaryDirectory() as other:
            said = replayed(fitrec, one, text, "--checked")
            rides_on = still_rides(said[1].splitlines())
            yield "as replayed", differs(record(fitrec, other, text, *AT_THE_END), as_recorded(said, text.count("\n"), rides_on))
            if not rides_on:
                yield "the same files", differs(holds(one), holds(other))
            else:
                said = run(fitrec, "repair", other)
                yield "all is committed at the end", differs(said[0], 0, said)


def as_they_come(fitrec):
    """Each line is answered before the next is sent, also where its bytes come one by one."""
    lines = rides.script_of(40, 9).splitlines()
    with tempfile.TemporaryDirectory() as folder:
        with subprocess.Popen([fitrec, "record", *AT_THE_END, folder], stdin=subprocess.PIPE, stdout=subprocess.PIPE) as running:
            for number, line in enumerate(lines, 1):
                for byte in line.encode() + b"\n":
                    running.stdin.write(bytes([byte]))
                    running.stdin.flush()
                said = running.stdout.readline().decode()
                yield "answered before the next comes", differs(said, "%d %s: ok\n" % (number, line.split()[0]))
            locked = run(fitrec, "repair", folder)
            yield "the folder is locked", differs(locked, (1, "", "fitrec: cannot open %s\n" % folder))
            running.stdin.close()
            yield "the end", differs((running.stdout.read(), running.wait()), (b"%d commit: ok\n" % (len(lines) + 1), 0))
        goes_on = record(fitrec, folder, "reopen\nsample 1000000099 hr=90\nstop 1000000100\n", *AT_THE_END)
        yield "the ride is reopened", differs(goes_on, (0, "1 reopen: ok\n2 sample: ok\n3 stop: ok\n", ""))


# Bytes, and the answers to them. The status is 1 if one of them is not ok.
ODD = [
    (b"start 1000000000 7 running\r\nsample 1000000001 hr=90\r\nstop 1000000002\r\n", ["1 start: ok", "2 sample: ok", "3 stop: ok"]),
    (b"start 1000000000 7 running\nstop 1000000002", ["1 start: ok", "2 stop: ok"]),
    (b"start 1000000000 7 running\nsample 10000000x1\nsample\nsample 1000000001 hr=x\nsample 1000000001 xx=1\nsample 1000000001 hr=1 hr=2\nspeed 1\n"
     b"commit now\nfail 1\ncut 2\npower\nstop 1000000002\n",
     ["1 start: ok", "2 line: BadNumber", "3 line: MissingWord", "4 line: BadNumber", "5 line: UnknownKey", "6 line: RepeatedKey", "7 line: UnknownWord",
      "8 line: ExtraWord", "9 line: OnlySimulate", "10 line: OnlySimulate", "11 line: OnlySimulate", "12 stop: ok"]),
    (b"start 1000000000 7 running\n\0\n\xff\xfe\nsample 1000000001\0\n# \xff\n\n \t\nstop 1000000002\n",
     ["1 start: ok", "2 line: UnknownWord", "3 line: UnknownWord", "4 line: BadNumber", "8 stop: ok"]),
    (b"start 1000000000 7 running\n" + b"#" * 4096 + b"\n" + b"#" * 4097 + b"\n" + b"#" * 4096 + b"\r\n" + b"x" * 1000000 + b"\nstop 1000000002\n",
     ["1 start: ok", "3 line: TooLong", "5 line: TooLong", "6 stop: ok"]),
    (b"start 1000000000 7 running\n" + b"9" * 200000, ["1 start: ok", "2 line: TooLong", "3 commit: ok"]),
    (b"", []),
    (b"\n\n# nothing\n", []),
]


def of_odd_bytes(fitrec):
    for text, answers in ODD:
        with tempfile.TemporaryDirectory() as folder:
            refused = sum(not line.endswith(" ok") for line in answers)
            expected = (bool(refused), "".join(line + "\n" for line in answers), "fitrec: %d refused\n" % refused * bool(refused))
            yield "odd bytes", differs(record(fitrec, folder, text), expected)


def by_itself(fitrec):
    """A commit comes after an entry that is so many seconds after the last one, under the number of its line: 10 if --commit gives no
    other number, and none if that is 0. A reopening goes back to the last commit, and the seconds count from there."""
    for given in (None, 0, 1, 5, 30, 4294967295):
        every = 10 if given is None else given
        pick, second, last, lines, expected = random.Random(every), 0, 0, ["start 1000000000 7 running"], ["1 start: ok"]
        for number in range(2, 60):
            word = pick.choice(["sample", "sample", "sample", "lap", "commit", "reopen", "sample 1 x"])
            # the time of the ride is that of its last entry
            second += pick.choice([0, 1, 1, 2, 9]) * (word in ("sample", "lap"))
            lines.append("%s %d" % (word, 1000000000 + second) if word in ("sample", "lap") else word)
            if word == "sample 1 x":
                expected.append("%d line: UnknownKey" % number)
                continue
            expected.append("%d %s: ok" % (number, word))
            if word == "commit":
                last = second
            elif word == "reopen":
                second = last
            elif every and second - last >= every:
                expected.append("%d commit: ok" % number)
                last = second
        lines.append("stop %d" % (1000000000 + second))
        expected.append("%d stop: ok" % len(lines))
        with tempfile.TemporaryDirectory() as folder:
            words = [] if given is None else ["--commit", str(given)]
            said = record(fitrec, folder, "\n".join(lines) + "\n", *words)
            yield "commits by itself", differs(said[1].splitlines(), expected)
    # a second recording reopens the ride of the first, which ended at its start or 4 seconds later
    for begun, last in (("", 0), ("sample 1000000004\n", 4)):
        for after, commits in ((9, ""), (10, "2 commit: ok\n")):
            with tempfile.TemporaryDirectory() as folder:
                record(fitrec, folder, "start 1000000000 7 running\n" + begun)
                said = record(fitrec, folder, "reopen\nsample %d\n" % (1000000000 + last + after))
                expected = "1 reopen: ok\n2 sample: ok\n%s3 commit: ok\n" % commits
                yield "commits by itself after a reopening", differs(said, (0, expected, ""))
    with tempfile.TemporaryDirectory() as folder:
        for word in ("x", "", "-1", "4294967296"):
            status, out, err = record(fitrec, folder, "start 1000000000 7 running\n", "--commit=" + word)
            yield "no number of seconds", differs((status, out, "--commit" in err, os.listdir(folder)), (2, "", True, []))


def killed(fitrec):
    """After each answer a recording is killed: at least what was committed is repaired, and no more than was answered."""
    text = rides.script_of(12, 5)
    for count in range(1, text.count("\n") + 1):
        with tempfile.TemporaryDirectory() as folder:
            with subprocess.Popen([fitrec, "record", folder], stdin=subprocess.PIPE, stdout=subprocess.PIPE, text=True) as running:
                running.stdin.write("".join(text.splitlines(True)[:count]))
                running.stdin.flush()
                answers = [running.stdout.readline().rstrip("\n") for _ in range(count)]
                running.kill()
            started, kept, handed = rides.committed(answers)
            status, line, err = run(fitrec, "repair", folder)
            found = re.match(r"ok records=(\d+) ", line)
            yield "killed", unless(
                started and found and kept <= int(found[1]) <= handed, (line, err, answers), "%d to %d records" % (kept, handed))


def left_out(fitrec):
    """What was answered and not committed when a recording is interrupted is left out, and a save says so; --all salvages it."""
    with tempfile.TemporaryDirectory() as folder:
        # A shell lets what it runs in the background ignore the signal.
        heeds = {"preexec_fn": lambda: signal.signal(signal.SIGINT, signal.SIG_DFL)}
        with subprocess.Popen([fitrec, "record", *AT_THE_END, folder], stdin=subprocess.PIPE, stdout=subprocess.PIPE, **heeds) as running:
            running.stdin.write(b"start 1000000000 7 running\n")
            running.stdin.write(b"".join(b"sample %d hr=%d\n" % (1000000001 + at, 90 + at % 60) for at in range(600)))
            running.stdin.flush()
            answers = [running.stdout.readline() for _ in range(601)]
            running.send_signal(signal.SIGINT)
        yield "interrupted", differs((answers[-1], running.returncode), (b"601 sample: ok\n", -signal.SIGINT))
        data, journal = holds(folder)
        count = rides.uncommitted(data, journal)
        said = run(fitrec, "save", folder, folder + "/saved.fit")
        came = said[0], said[1][:13], said[2], count > 500
        yield "interrupted, and saved", differs(came, (0, "ok records=0 ", rides.LEFT_OUT % count, True))
        said = run(fitrec, "salvage", "--all", folder + "/activity.fit", folder + "/kept.fit")
        yield "interrupted, and salvaged", differs(said[1].split(" of ")[0], "kept %d" % (rides.counted(journal) + count))


def unread(fitrec):
    """If nobody reads the answers, it ends, and what was committed is kept; so it does if its input cannot be read."""
    with tempfile.TemporaryDirectory() as folder:
        with subprocess.Popen([fitrec, "record", folder], stdin=subprocess.PIPE, stdout=subprocess.PIPE, stderr=subprocess.PIPE) as running:
            running.stdin.write(b"start 1000000000 7 running\nsample 1000000001\ncommit\n")
            running.stdin.flush()
            answers = [running.stdout.readline() for _ in range(3)]
            running.stdout.close()
            running.stdin.write(b"sample 1000000002\nsample 1000000003\n")
            running.stdin.close()
            said = running.stderr.read()
        yield "unread", differs((answers[-1], running.returncode, said), (b"3 commit: ok\n", 1, b"fitrec: cannot write -\n"))
        found = re.match(r"ok records=(\d+) ", run(fitrec, "repair", folder)[1])
        yield "unread and kept", unless(found and 1 <= int(found[1]) <= 2, found, "1 or 2 records")
    with tempfile.TemporaryDirectory() as folder, open(os.devnull, "rb") as null:
        where = os.open(folder, os.O_RDONLY)
        said = run(fitrec, "record", folder, stdin=where)
        os.close(where)
        yield "input that cannot be read", differs(said, (1, "", "fitrec: cannot read -\n"))
        said = run(fitrec, "record", folder + "/none", stdin=null)
        yield "no folder", differs(said, (1, "", "fitrec: cannot open %s/none\n" % folder))
        said = run(fitrec, "record", "", input="start 1 7 running\n", cwd=folder)
        yield "a folder without a name", differs(said, (1, "", "fitrec: cannot open \n"))


def peak(fitrec, text):
    """The peak memory of a recording of these lines, in KiB, once the last one is answered."""
    with tempfile.TemporaryDirectory() as folder, tempfile.TemporaryFile() as answers:
        words = [fitrec, "record", "--commit", "200000", folder]
        with subprocess.Popen(words, stdin=subprocess.PIPE, stdout=answers, text=True) as running:
            running.stdin.write(text + "restart\n")
            running.stdin.flush()
            last = b"restart: ok\n"
            while answers.seek(0, os.SEEK_END) < len(last) or os.pread(answers.fileno(), 99, answers.tell() - len(last)) != last:
                time.sleep(0.05)
            status = pathlib.Path("/proc/%d/status" % running.pid).read_text()
            running.stdin.close()
        return running.returncode, int(re.search(r"VmHWM:\s+(\d+)", status)[1])


def of_long_rides(fitrec):
    """A ride of 8 hours, and one of 4,000,000 seconds, take as much memory as one of a minute."""
    least = peak(fitrec, rides.script_of(60, 30))
    long = "start 1000000000 7 cycling\n" + "".join("sample %d hr=120\n" % (1000000000 + second) for second in range(0, 4000001, 100))
    for text in (rides.script_of(8 * 3600, 600), long):
        most = peak(fitrec, text)
        yield "memory", unless(most[0] == 0 and most[1] <= least[1] + 256, most, "status 0, and %d KiB and 256 more" % least[1])


def of_the_example(fitrec):
    """The client of examples/, which makes its folder and is killed: its ride is saved. Without words it says how it is used."""
    client = [sys.executable, EXAMPLES / "heart_rate.py"]
    for words in ([], ["a", "b", "c", "d"]):
        said = run(*client, *words)
        is_refused = said[:2] == (1, "") and "heart_rate.py FOLDER [SECONDS [PACE]]" in said[2] and "Traceback" not in said[2]
        yield "the client of a strap, with no words or too many", unless(is_refused, said, "status 1, and how it is used")
    with tempfile.TemporaryDirectory() as above:
        folder = above + "/new"
        words = [*client, folder, "1000", "0.001"]
        with subprocess.Popen(words, stdout=subprocess.PIPE, stderr=subprocess.DEVNULL, text=True) as running:
            answers = [running.stdout.readline().rstrip("\n") for _ in range(60)]
            running.kill()
        # its recorder ends when its input does
        for _ in range(100):
            said = run(fitrec, "save", folder, folder + "/saved.fit")
            if said[0] == 0:
                break
            time.sleep(0.1)
        found = re.match(r"ok records=(\d+) ", said[1])
        kept = rides.committed(answers)[1]
        yield "the client of a strap", unless(
            answers[0] == "1 start: ok" and found and kept <= int(found[1]), (answers[:3], said), "%d records or more" % kept)


def check(given):
    for group in (as_replays, as_they_come, of_odd_bytes, by_itself, killed, left_out, unread, of_long_rides, of_the_example):
        yield from given.checks(group, given.fitrec)
