"""Checks the system calls of the built program on the two real files of a folder, which no contract describes: their order, and what it
reports if one of them fails, falls short or is interrupted. The expected calls are those of docs/RECORDING.md."""

import errno
import itertools
import os
import pathlib
import re
import shutil

from tools.checks import differs, unless
from tools.program import holds, room, run
from tools.rides import CUT_OFF, ONE, SAMPLES, START, STOP, STOPPED, TWO, answers, committed
from tools.traced import ERRORS, tracing

NEEDS = ("fitrec", "cc")

# The calls, in the words of docs/RECORDING.md: those that open a folder, then those of each operation.

OPENING = ["open data", "lock data", "open journal", "lock journal", "open folder", "sync folder", "sync data", "sync journal"]


def journal_commit(slot, is_open=False):
    """The calls that commit in this slot: the gate is closed if it is open, the length is written, the gate is opened. Each is synced."""
    gate = ["write journal %d 1" % (8 + 8 * slot), "sync journal"]
    return gate * is_open + ["write journal %d 4" % (9 + 8 * slot), "sync journal"] + gate


def checked_commit(slot, closes=None):
    """The same of three slots, with the sync of the data file: length and checksum are written, and another gate is closed. Both files are
    synced, one behind the other, and then the gate is opened and synced."""
    content, gate = "write journal %d 8" % (9 + 16 * slot), ["write journal %d 1" % (8 + 16 * slot), "sync journal"]
    if closes is None:
        return ["sync data", content, "sync journal", *gate]
    return [content, "write journal %d 1" % (8 + 16 * closes), "sync data", "sync journal", *gate]


STARTING = ["sync data", "size data", "cut journal 0", "write journal 0 24", "sync journal", "write data 0 86", "sync data"]
STARTING += journal_commit(0)
# A definition of one field and its message, and the commit that writes them.
RIDING = ["write data 86 11", "sync data", *journal_commit(1)]
# A message alone and the stop. The closing messages have at most 252 bytes, 22 of which are the stop and its definition. The
# checksum has two.
STOPPING = ["write data 97 9", "sync data", *journal_commit(0, True), "write data 106 232", "write data 0 14", "sync data"]
# A ride with checksums: the start, a commit with one open slot, and one in the stop that closes the lesser of two.
CHECKED = [it.replace("write journal 0 24", "write journal 0 56") for it in STARTING[:7]]
CHECKED += checked_commit(0)[1:] + ["write data 86 11", *checked_commit(1), "write data 97 9", *checked_commit(2, 0)]
CHECKED += STOPPING[-3:]
# The journal may have 56 bytes, which are read at once; this one has 24, and the read of the rest finds its end.
FINDING = ["sync data", "sync journal", "size data", "read journal 0 56", "read journal 24 32", "read data"]
RECOVERING = [*FINDING, "write data 97 254", "cut data 351", "write data 0 14", "sync data"]
RESUMING = [*FINDING, "cut data 97", "sync data"]
# The next sample has its definition again, and so has the stop.
GOING_ON = ["write data 97 11", "sync data", *journal_commit(0, True)]
GOING_ON += ["write data 108 22", "sync data", *journal_commit(1, True), "write data 130 232", "write data 0 14", "sync data"]
ERASING = ["sync data", "sync journal", "size data", "read journal 0 1", "write journal 0 1", "sync journal", "cut data 0",
           "sync data"]


def calls_of(log):
    """The calls without the sizes that opening reads, with each run of reads of the data file as one."""
    calls, is_open = [], False
    for line in log:
        line = re.sub(r"^read data .*", "read data", line)
        is_open = is_open or line == "sync folder"
        if (is_open or not line.startswith("size")) and (line, calls[-1:]) != ("read data", [line]):
            calls.append(line)
    return calls


def the_calls(traced):
    """Each operation makes its calls, on the right file and in order."""
    with room(*STOPPED) as (script, new):
        said, log = traced.run("replay", script, new())
        yield "a ride to its stop", differs((said[0], calls_of(log)), (0, OPENING + STARTING + RIDING + STOPPING))
        said, log = traced.run("replay", "--checked", script, new())
        yield "a ride with checksums", differs((said[0], calls_of(log)), (0, OPENING + CHECKED))
    with room(*CUT_OFF) as (script, new):
        folder = new()
        run(traced.fitrec, "replay", script, folder)
        other = shutil.copytree(folder, new(), dirs_exist_ok=True)
        said, log = traced.run("repair", folder)
        yield "a repair", differs((said, calls_of(log)), ((0, ONE, ""), OPENING + RECOVERING))
        script.write_text("erase\n")
        said, log = traced.run("replay", script, folder)
        yield "an erasing", differs((said, calls_of(log)), ((0, answers("erase: ok"), ""), OPENING + ERASING))
        script.write_text("\n".join(["reopen", SAMPLES[1], "commit", STOP]))
        said, log = traced.run("replay", script, other)
        said_well = 0, answers("reopen: ok", "sample: ok", "commit: ok", "stop: ok"), ""
        yield "a ride that goes on", differs((said, calls_of(log)), (said_well, OPENING + RESUMING + GOING_ON))


def reads_of_a_body(traced):
    """A body is read in windows of 512 bytes: one read for at least 416 bytes of it, or for its end."""
    lines = [START] + ["sample %d hr=%d" % (1000000000 + 40 * number, 60 + number % 99) for number in range(3000)]
    with room(*lines, "commit", SAMPLES[1].replace("1000000002", "1001000000")) as (script, new):
        folder = new()
        run(traced.fitrec, "replay", script, folder)
        script.write_text("reopen\n")
        for words in (["repair", folder], ["replay", script, folder]):
            said, log = traced.run(*words)
            reads = [tuple(map(int, line.split()[2:])) for line in log if line.startswith("read data")]
            # Each sample is 40 s after the one before, so all have six bytes, under one definition of two fields.
            body = 72 + 12 + 6 * 3000
            # A window that reaches the end of the file takes one more read.
            well = said[0] == 0 and len(reads) <= -(-body // 416) + 1 and all(count <= 512 for _, count in reads)
            yield "reads of a body", unless(well, (said, len(reads), reads[:9]), "one read for at least 416 bytes")


def before_an_opening(traced):
    """What is not a regular file is recognized before it is opened, and is not opened."""
    with room(*STOPPED) as (script, new):
        for name, calls in (("activity.fit", []), ("activity.frj", OPENING[:2])):
            folder = new()
            os.mkfifo(pathlib.Path(folder) / name)
            said, log = traced.run("replay", script, folder)
            expected = (1, "", "fitrec: cannot open %s\n" % folder), calls
            yield "a pipe is not opened", differs((said, calls_of(log)), expected)


# How many syncs each line of a script makes, after the three of opening, and its answer if none has failed before it.
SYNCS = [("start", START, 5, "ok"), ("sample", SAMPLES[0], 0, "ok"), ("commit", "commit", 3, "ok"), ("reopen", "reopen", 3, "ok"),
         ("sample", SAMPLES[1], 0, "ok"), ("commit", "commit", 4, "ok"), ("stop", STOP, 5, "ok"),
         ("recover", "recover", 3, TWO.strip()), ("reopen", "reopen", 2, "Refused(Stopped)"), ("erase", "erase", 4, "ok"),
         ("reopen", "reopen", 2, "NothingRecorded"), ("recover", "recover", 2, "NothingRecorded")]
ALL_SYNCS = 3 + sum(syncs for _, _, syncs, _ in SYNCS)
# Nothing may be recorded until the start has ended, and from the erasing on.
STARTED, ERASED = 8, ALL_SYNCS - 8


def answers_after(number):
    """The answers of the lines if the sync of this number fails. From then on the recorder that runs has failed, and whatever uses
    the files again fails too."""
    said, left, has_failed, rides = [], number - 3, False, False
    for word, _, syncs, well in SYNCS:
        is_anew = word in ("start", "recover", "reopen", "erase")
        if has_failed:
            answer = "Device" if is_anew else "Failed" if rides else "NoRecorder"
            rides = rides and not is_anew
        else:
            has_failed = 0 < left <= syncs
            answer, left = "Device" if has_failed else well, left - syncs
            rides = rides and not is_anew or word in ("start", "reopen") and answer == "ok"
        said.append("%s: %s" % (word, answer))
    return said


def failed_syncs(traced):
    """A sync that fails is reported, and everything after it fails. A folder that is opened anew can be used again."""
    with room(*(line for _, line, _, _ in SYNCS)) as (script, new):
        for number in range(1, ALL_SYNCS + 1):
            for error in ERRORS:
                folder = new()
                said, log = traced.run("replay", script, folder, call="sync", number=number, errno=error)
                line = "NoMemory" if error == errno.ENOMEM else "cannot open " + folder
                expected = (1, "", "fitrec: %s\n" % line)
                if number > 3:
                    wanted = answers_after(number)
                    refused = sum(not re.search(": ok( |$)", line) for line in wanted)
                    expected = (1, answers(*wanted), "fitrec: %d refused\n" % refused)
                yield "a sync that failed", differs(said, expected)
                yield "no call after a sync that failed", differs([line.endswith(" failed") for line in log[-1:]], [True])
                _, kept, handed = committed(said[1].splitlines())
                again = run(traced.fitrec, "repair", folder)
                records = re.match(r"ok records=(\d+) ", again[1])
                is_none = again == (1, "", "fitrec: NothingRecorded\n") and (number <= STARTED or number > ERASED)
                well = is_none or records and kept <= int(records[1]) <= handed
                yield "a folder opened anew after a sync that failed", unless(well, (number, again), "%d to %d records" % (kept, handed))
        said, log = traced.run("replay", script, new())
        wanted = answers_after(ALL_SYNCS + 1)
        refused = sum(not re.search(": ok( |$)", line) for line in wanted)
        yield "no sync failed", differs((said, sum(line.startswith("sync") for line in log)),
                                        ((1, answers(*wanted), "fitrec: %d refused\n" % refused), ALL_SYNCS))


def failing_calls_of_a_ride(traced):
    """If a call of a ride or of an erasing fails, its line answers Device, no other call is made, and what was committed is kept."""
    with room(*STOPPED) as (script, new):
        _, whole = traced.run("replay", script, new())
        erasing = script.parent / "erasing"
        erasing.write_text("erase\n")
        ridden = new()
        run(traced.fitrec, "replay", script, ridden)
        _, erased = traced.run("replay", erasing, shutil.copytree(ridden, new(), dirs_exist_ok=True))
        for words, log, before in ((script, whole, new()), (erasing, erased, ridden)):
            begun = log.index("sync folder") + 3
            for at, line in enumerate(log[begun:], begun):
                kind = line.split()[0]
                number = sum(other.startswith(kind) for other in log[:at + 1])
                for error in (errno.EIO, errno.ENOSPC):
                    folder = shutil.copytree(before, new(), dirs_exist_ok=True)
                    (status, out, fault), calls = traced.run("replay", words, folder, call=kind, number=number, errno=error)
                    given = [answer.partition(": ")[2] for answer in out.splitlines()]
                    rest = given[given.index("Device") + 1:] if "Device" in given else ["none was Device"]
                    refused = len(rest) + 1
                    well = set(given[:-refused]) <= {"ok"} and set(rest) <= {"Failed" if given[0] == "ok" else "NoRecorder"}
                    yield "a %s of a ride that failed" % kind, unless(well, (line, out), "ok before it, Device, and refusals after it")
                    yield "no call after it", differs((status, fault, calls[-1]), (1, "fitrec: %d refused\n" % refused, line + " failed"))
                    _, kept, handed = committed(out.splitlines())
                    said = run(traced.fitrec, "repair", folder)
                    records = re.match(r"ok records=(\d+) ", said[1])
                    is_none = said == (1, "", "fitrec: NothingRecorded\n") and given[0] == "Device"
                    is_kept = records and (words == erasing or kept <= int(records[1]) <= handed)
                    yield "a repair after it", unless(is_none or is_kept, (line, said), "%d to %d records" % (kept, handed))


class Operation:
    """What a repair or a reopening prints if all goes well, and if a call of it fails."""

    def __init__(self, words, done, failed):
        self.words, self.done, self.failed = words, done, failed


def calls_that_go_wrong(traced):
    """Calls that are interrupted or fall short are continued. One that fails is reported, no other is made after it, and a repair succeeds."""
    with room(*CUT_OFF) as (script, new):
        cut_off, repaired = new(), new()
        run(traced.fitrec, "replay", script, cut_off)
        shutil.copytree(cut_off, repaired, dirs_exist_ok=True)
        want_repaired = run(traced.fitrec, "repair", repaired), holds(repaired)
        yield "a repair", differs(want_repaired[0], (0, ONE, ""))
        script.write_text("reopen\n")
        for operation in (Operation(["repair"], (0, ONE, ""), (1, "", "fitrec: Device\n")),
                          Operation(["replay", script], (0, "1 reopen: ok\n", ""), (1, "1 reopen: Device\n", "fitrec: 1 refused\n"))):
            def anew(**wrong):
                folder = shutil.copytree(cut_off, new(), dirs_exist_ok=True)
                said, log = traced.run(*operation.words, folder, **wrong)
                return folder, said, log

            folder, _, whole = anew()
            expected = operation.done, holds(folder)
            for at, line in enumerate(whole):
                kind, is_opening = line.split()[0], at < len(OPENING) + 2
                number = sum(other.startswith(kind) for other in whole[:at + 1])
                if kind != "size":
                    folder, said, _ = anew(call=kind, number=number, errno=errno.EINTR)
                    yield "%s: an interrupted %s" % (operation.words[0], kind), differs((said, holds(folder)), expected)
                for error in [*ERRORS, *[errno.ENOLCK, errno.EWOULDBLOCK] * (kind == "lock")]:
                    folder, said, log = anew(call=kind, number=number, errno=error)
                    no_file = "fitrec: NoMemory\n" if error == errno.ENOMEM else "fitrec: cannot open %s\n" % folder
                    wanted = ((1, "", no_file) if is_opening else operation.failed), line + " failed"
                    yield "%s: a %s that failed" % (operation.words[0], kind), differs((said, log[-1]), wanted)
                    said = run(traced.fitrec, "repair", folder)
                    yield "a repair after a %s that failed" % kind, differs((said, holds(folder)), want_repaired)
            for kind in ("read", "write"):
                for most in (1, 3):
                    folder, said, _ = anew(call=kind, number=0, most=most)
                    yield "each %s of at most a few bytes" % kind, differs((said, holds(folder)), expected)


class Verified:
    """A folder with a ride that was cut off, and what `repair --verify` does with a copy of it if a call goes wrong."""

    def __init__(self, traced, script, new):
        self.traced, self.new, self.cut_off = traced, new, new()
        run(traced.fitrec, "replay", script, self.cut_off)
        repaired = shutil.copytree(self.cut_off, new(), dirs_exist_ok=True)
        self.well = run(traced.fitrec, "repair", repaired), holds(repaired)

    def run(self, **wrong):
        folder = shutil.copytree(self.cut_off, self.new(), dirs_exist_ok=True)
        said, log = self.traced.run("repair", "--verify", folder, **wrong)
        return folder, said, log

    def calls(self):
        """For each call after both files are open for writing: its line, its kind, and its number among those of its kind."""
        _, _, whole = self.run()
        begun = whole.index("sync folder") + 3
        for at, line in enumerate(whole[begun:], begun):
            kind = line.split()[0]
            yield line, kind, sum(other.startswith(kind + " ") for other in whole[:at + 1])


DEVICE = 1, "", "fitrec: Device\n"
# The calls of a verified repair after those of opening, and whether a silent fault of each has to be found. Each byte is read with one bit
# changed. Only the last sync of the data file has something to lose. The cut is to the length that the file already has.
SILENT_FAULTS = [("sync data", False), ("sync journal", False), ("size data", True), ("read journal 0 56", True), ("read journal 24 32", False),
        ("read data 14 83", True), ("write data 97 254", True), ("cut data 351", False), ("write data 0 14", True), ("sync data", True),
        ("read data 0 4096", True), ("read data 351 3745", False), ("read journal 0 4096", True), ("read journal 24 4072", False)]


def silent_faults(traced):
    """With --verify both files are read before and after the repair. A call that reports success and does something else is found, or does no
    harm."""
    with room(*CUT_OFF) as (script, new):
        verified = Verified(traced, script, new)
        folder, said, log = verified.run()
        yield "a verified repair", differs((said, holds(folder)), verified.well)
        yield "its calls", differs([line for line, _, _ in verified.calls()], [line for line, _ in SILENT_FAULTS])
        for (line, kind, number), (_, is_found) in zip(verified.calls(), SILENT_FAULTS):
            folder, said, _ = verified.run(call=kind, number=number, silent=1)
            yield "a silently wrong %s" % kind, differs((line, said), (line, DEVICE if is_found else verified.well[0]))
            if not is_found:
                yield "a silently wrong %s that does no harm" % kind, differs((line, holds(folder)), (line, verified.well[1]))
            said = run(traced.fitrec, "repair", "--verify", folder)
            yield "a verified repair after a silently wrong %s" % kind, differs((line, said, holds(folder)), (line, *verified.well))
        # The first reading takes the whole file. The first byte of the data file is written anew; that of the journal is read again.
        for number, expected in ((1, verified.well[0]), (3, DEVICE)):
            folder, said, _ = verified.run(call="read", number=number, silent=1)
            yield "a silently wrong first reading", differs(said, expected)
            said = run(traced.fitrec, "repair", "--verify", folder)
            yield "a verified repair after a silently wrong first reading", differs((said, holds(folder)), verified.well)


def second_reading(folder):
    """The calls that read both files of a folder from start to end, in windows of 4,096 bytes."""
    for name, held in zip(("data", "journal"), holds(folder)):
        for at in range(0, len(held) + 1, 4096):
            given = min(len(held) - at, 4096)
            yield "read %s %d 4096" % (name, at)
            if 0 < given < 4096:
                yield "read %s %d %d" % (name, at + given, 4096 - given)


LONG = [START] + ["sample %d hr=%d" % (1000000000 + 40 * number, 60 + number % 99) for number in range(500)]


def verified_rides(traced):
    """With --verify both files are read whole after the last sync, over 4,096 bytes too, and also after a start alone. A call that is
    silently wrong is found or does no harm; one that fails is Device."""
    for ride in ([START], LONG + ["commit", "sample 1000030000 hr=60"]):
        with room(*ride) as (script, new):
            verified = Verified(traced, script, new)
            folder, said, log = verified.run()
            yield "a verified repair of any length", differs((said, holds(folder)), verified.well)
            syncs = [at for at, line in enumerate(log) if line.startswith("sync ")]
            yield "both files are read again", differs(log[syncs[-1] + 1:], list(second_reading(folder)))
            for line, kind, number in verified.calls():
                folder, said, _ = verified.run(call=kind, number=number, silent=1)
                well = said == DEVICE or (said, holds(folder)) == verified.well
                yield "any silently wrong %s" % kind, unless(well, (len(ride), line, said), "Device, or a repair as by calls without a fault")
                folder, said, log = verified.run(call=kind, number=number, errno=errno.EIO)
                yield "any %s that fails" % kind, differs((said, log[-1]), (DEVICE, line + " failed"))
                said = run(traced.fitrec, "repair", "--verify", folder)
                yield "a verified repair after any %s" % kind, differs((line, said, holds(folder)), (line, *verified.well))


def failing_calls_of_a_verified_repair(traced):
    """A call that fails is Device, no other is made after it, and a repair succeeds. One that is interrupted or falls short is continued."""
    with room(*CUT_OFF) as (script, new):
        verified = Verified(traced, script, new)
        for line, kind, number in verified.calls():
            for error in ERRORS:
                folder, said, log = verified.run(call=kind, number=number, errno=error)
                yield "a verified repair: a %s that failed" % kind, differs((said, log[-1]), (DEVICE, line + " failed"))
                said = run(traced.fitrec, "repair", folder)
                yield "a repair after a %s that failed" % kind, differs((said, holds(folder)), verified.well)
            if kind in ("read", "write"):
                folder, said, _ = verified.run(call=kind, number=number, errno=errno.EINTR)
                yield "a verified repair: an interrupted %s" % kind, differs((said, holds(folder)), verified.well)
        for kind in ("read", "write"):
            for most in (1, 3):
                folder, said, _ = verified.run(call=kind, number=0, most=most)
                yield "a verified repair: each %s of at most a few bytes" % kind, differs((said, holds(folder)), verified.well)


def first_readings_that_fail(traced):
    """If a file cannot be read at first nothing is written. Each fault is that of a save."""
    with room(*CUT_OFF) as (script, new):
        verified = Verified(traced, script, new)
        _, _, whole = verified.run()
        for number, line in enumerate((line for line in whole if line.startswith("read")), 1):
            if line not in ("read data", "read journal"):
                break
            folder, said, log = verified.run(call="read", number=number, errno=errno.EIO)
            name = {"data": "activity.fit", "journal": "activity.frj"}[line.split()[1]]
            yield "a first reading that fails", differs((said, holds(folder)), ((1, "", "fitrec: cannot read %s\n" % name), holds(verified.cut_off)))
            yield "no write before", differs([line for line in log if line.startswith(("write", "cut", "sync"))], [])
        yield "first readings", unless(number > 2, number, "more than 2")
        folder = shutil.copytree(verified.cut_off, new(), dirs_exist_ok=True)
        os.truncate(pathlib.Path(folder) / "activity.frj", 268435457)
        said, log = traced.run("repair", "--verify", folder)
        yield "a file over the limit", differs(said, (1, "", "fitrec: TooLarge\n"))
        yield "no write before", differs([line for line in log if line.startswith(("write", "cut", "sync"))], [])


def failing_status_calls(traced):
    """If the program cannot find out whether a file exists, it opens and makes none, and reports nothing as recorded."""
    with room(*CUT_OFF) as (script, new):
        cut_off = new()
        run(traced.fitrec, "replay", script, cut_off)
        for words in (["repair"], ["replay", script]):
            for error in (errno.EACCES, errno.EIO, errno.ENOMEM):
                for number in itertools.count(1):
                    folder = shutil.copytree(cut_off, new(), dirs_exist_ok=True)
                    said, log = traced.run(*words, folder, call="stat", number=number, errno=error)
                    if not any(line.endswith(" failed") for line in log):
                        break
                    line = "NoMemory" if error == errno.ENOMEM else "cannot open %s" % folder
                    expected = (1, "", "fitrec: %s\n" % line), holds(cut_off)
                    yield words[0] + ": a status call that failed", differs((said, holds(folder)), expected)
                yield words[0] + ": asks for the status of both files", unless(number > 2, number, "more than 2")


def check(given):
    with tracing(given.fitrec) as traced:
        for group in (the_calls, reads_of_a_body, before_an_opening, failed_syncs, failing_calls_of_a_ride,
                      calls_that_go_wrong, silent_faults, verified_rides, failing_calls_of_a_verified_repair,
                      first_readings_that_fail, failing_status_calls):
            yield from given.checks(group, traced)
