"""Checks what `fitrec salvage`, `plain`, `shift` and `save` do with the file OUT, as docs/PROGRAM.md describes it: OUT is written whole or not at
all, whichever system call fails, whatever has its name, and whoever has it open."""

import errno
import fcntl
import itertools
import os
import pathlib
import subprocess
import tempfile
import termios
import time

from tools.checks import Skipped, differs, unless
from tools.fit_files import MOST, many_messages
from tools.places import OLD, Place, lay, laid, place_of
from tools.program import NOBODY, as_nobody, bytes_of, for_everyone, may_not_grow, room, run, small_disk
from tools.reader import UNREAD_FROM, plained
from tools.rides import body_unread, recording, script_of
from tools.traced import ERRORS, tracing

NEEDS = ("fitrec", "cc")
# How many names a new file may have beside OUT.
NAMES = 100


def not_written(out):
    return 1, "", "fitrec: cannot write %s\n" % out


class Command:
    """A command that makes OUT from a file. The small file here is its own result, byte by byte."""

    reading = ["open in", "read in"]

    def __init__(self, traced, words, line, small):
        self.traced, self.words, self.given, self.made = traced, words, small, small
        self.done = 0, line, ""

    def run(self, source, out, **how):
        return run(self.traced.fitrec, *self.words, source, out, **how)

    def traced_run(self, source, out, **how):
        """What it prints, and its calls."""
        return self.traced.run(*self.words, source, out, **how)

    def large(self):
        """An IN that gives a large OUT."""
        return many_messages(100000)

    def said_of(self, call, about, source, error):
        """What it reports if this call on IN fails."""
        return "cannot %s %s" % (call, source)

    def unread_end(self, source):
        """What it reports if nothing can be read after the last byte of IN. Then it takes IN, or, if this is None, refuses it."""
        return UNREAD_FROM % (source, len(self.given)) if self.words[0] == "salvage" else None

    def sources_in(self, folder):
        """The files of this recording that can be IN."""
        return [folder / "activity.fit"]

    def sources_under_way(self, folder):
        """The same while it is being recorded. Its data file is no whole file then, which plain and shift need."""
        return [] if self.words[0] in ("plain", "shift") else self.sources_in(folder)

    def wrong_sources(self, folder):
        """Makes in this folder what cannot be IN. Returns each, with what is reported of it."""
        header, large = folder / "header.fit", folder / "large.fit"
        header.write_bytes(b"\x0D" + self.given[1:])
        with open(large, "wb") as sparse:
            sparse.truncate(MOST + 1)
        return {folder / "none": "cannot open %s" % (folder / "none"), folder: "cannot read %s" % folder, header: "HeaderSize at 0",
                large: "TooLarge"}


class Save(Command):
    """The command that makes OUT from a folder. The folder here has a ride that was cut off."""

    reading = ["open data", "lock data", "open journal", "lock journal", "read data", "read journal"]

    def __init__(self, traced):
        given = recording(traced.fitrec, "start 1000000000 7 running", "sample 1000000001 hr=100", "commit", "sample 1000000002 hr=101")
        line = "ok records=1 laps=1 sessions=1 start=1000000000 elapsed_ms=1000 timer_ms=1000 distance_cm=-\n"
        super().__init__(traced, ["save"], line, given)
        with tempfile.TemporaryDirectory() as folder:
            lay(pathlib.Path(folder, "ride"), given)
            run(traced.fitrec, "repair", folder + "/ride")
            _, self.made = plained(pathlib.Path(folder, "ride/activity.fit").read_bytes())

    def large(self):
        return recording(self.traced.fitrec, *script_of(20000, 20000).splitlines())

    def said_of(self, call, about, source, error):
        if call == "read":
            return body_unread(0) if about == "data" else "cannot read activity.frj"
        return "NoMemory" if error == errno.ENOMEM else "cannot open %s" % source

    def unread_end(self, source):
        return UNREAD_FROM % ("activity.fit", len(self.given["activity.fit"]))

    def sources_in(self, folder):
        return [folder]

    def sources_under_way(self, folder):
        return []

    def wrong_sources(self, folder):
        data, journal = (self.given[name] for name in ("activity.fit", "activity.frj"))
        files = {"empty": {}, "nothing": {"activity.fit": data, "activity.frj": b""}, "other": {"activity.fit": data, "activity.frj": b"FRJ3\0\0\0\0"}}
        for name, content in files.items():
            lay(folder / name, content)
        lay(folder / "large", self.given)
        os.truncate(folder / "large/activity.frj", MOST + 1)
        nothing = "NothingRecorded\nfitrec: activity.frj is empty; salvage copies what is readable of activity.fit"
        return {folder / "none": "cannot open %s" % (folder / "none"), folder / "empty": "NothingRecorded", folder / "nothing": nothing,
                folder / "other": "Damaged", folder / "large": "TooLarge"}


# Calls that go wrong.

def calls_of(log):
    """The calls that have to come in order: without sizes and closings, and with equal calls in a row as one."""
    calls = []
    for line in log:
        if not line.startswith(("size", "close")) and calls[-1:] != [line]:
            calls.append(line)
    return calls


LOCKING = ["open out", "lock out"]
# The file beside OUT may not be read by others before it has the mode of the file that it replaces. After the move it is synced once more:
# on a FAT card its new name has no length before that.
WRITING = ["stream beside", "sync beside", "move beside", "sync beside", "sync folder"]


def its_calls(command):
    """IN is read before anything is made. OUT is locked before the move and until after it. Its folder is synced, however it is named."""
    before = command.reading
    for old, calls in ((OLD, [*before, *LOCKING, "open folder", "open beside 600", "mode beside 640", *WRITING]),
                       (None, [*before, "open folder", "open beside 666", *WRITING])):
        for name in (None, "out.fit", "./out.fit", "../%s/out.fit"):
            with place_of(command.given, old) as place:
                if old is not None:
                    place.out.chmod(0o640)
                out = name.replace("%s", place.folder.name) if name else place.out
                said, log = command.traced_run(place.source, out, how={"cwd": place.folder})
                yield "its calls", differs((said, calls_of(log)), (command.done, calls))
                yield "what it leaves", differs(place.left(), (command.made, ["in.fit", "out.fit"]))
                is_held = "close out" not in log or log.index("close out") > log.index("move beside")
                yield "the lock is held until after the move", unless(is_held, log, "the lock is closed after the move")


def ends(command, place, old, line, error, before):
    """How a run may end if this call fails after those before it: what it prints, and what is then in the place of OUT."""
    kind, about = line.split()[:2]
    names, is_there = ["in.fit"], [] if old is None else ["out.fit"]
    done, is_as_it_was = (command.made, names + ["out.fit"]), (old, names + is_there)
    if error == errno.EINTR and kind in ("open", "lock", "sync", "read", "mode") or line == "size in":
        return [(command.done, done)]
    # The first read of a file takes all its bytes, and the next one finds its end.
    if kind == "read" and about != "journal" and line in before and command.unread_end(place.source):
        return [((*command.done[:2], command.unread_end(place.source)), done)]
    if about in ("in", "data", "journal"):
        return [((1, "", "fitrec: %s\n" % command.said_of(kind, about, place.source, error)), is_as_it_was)]
    found = [(not_written(place.out), done if "move beside" in before else is_as_it_was)]
    if error == errno.ENOMEM:
        found.append(((1, "", "fitrec: NoMemory\n"), found[0][1]))
    if error == errno.EINTR and kind in ("stream", "move"):
        found.append((command.done, done))
    return found


def failing_calls(command):
    """If a call fails OUT is as before, or the new file if that was moved already, and nothing is left beside it."""
    for old in (OLD, None):
        with place_of(command.given, old) as place:
            _, log = command.traced_run(place.source, place.out)
        for at, line in enumerate(log):
            kind = line.split()[0]
            number = sum(other.startswith(kind) for other in log[:at + 1])
            errors = [*ERRORS, errno.EINTR, *[errno.ENOLCK, errno.EWOULDBLOCK] * (kind == "lock")]
            for error in errors if kind != "close" else ():
                with place_of(command.given, old) as place:
                    said, _ = command.traced_run(place.source, place.out, call=kind, number=number, errno=error)
                    may_be = ends(command, place, old, line, error, log[:at])
                    is_ = said, place.left()
                    well = is_ in may_be and laid(place.source) == command.given
                    yield "a %s that failed" % kind, unless(well, (line, errno.errorcode[error], is_), may_be)


def failing_status_calls(command):
    """If the program cannot find out what has the name of OUT, nothing is replaced."""
    for error in (errno.EIO, errno.EACCES, errno.ENOMEM):
        for number in itertools.count(1):
            with place_of(command.given) as place:
                said, log = command.traced_run(place.source, place.out, call="stat", number=number, errno=error)
                failed = [line.split()[1] for line in log if line.endswith(" failed")]
                if not failed:
                    break
                is_in = failed[0] in ("in", "data", "journal")
                line = "cannot %s" % ("open %s" % place.source if is_in else "write %s" % place.out)
                well = said in [(1, "", "fitrec: %s\n" % it) for it in (line, "NoMemory")] and place.left() == (OLD, ["in.fit", "out.fit"])
                yield "a status call that failed", unless(well, (said, place.left(), log), line)


def short_calls(command):
    """Reads and writes that move a part are continued. A write that moves nothing has failed."""
    for kind in ("read", "stream"):
        for most in (1, 3):
            with place_of(command.given) as place:
                said, _ = command.traced_run(place.source, place.out, call=kind, number=0, most=most)
                yield "each %s of at most a few bytes" % kind, differs((said, bytes_of(place.out)), (command.done, command.made))
    with place_of(command.given) as place:
        said, _ = command.traced_run(place.source, place.out, call="stream", number=0, most=0)
        yield "writes of nothing", differs((said, place.left()), (not_written(place.out), (OLD, ["in.fit", "out.fit"])))


# OUT without room, and lines without output.

def without_room(command):
    """A file that cannot grow, and a disk that is full."""
    for size in range(len(command.made)):
        with place_of(command.given) as place:
            said = command.run(place.source, place.out, preexec_fn=may_not_grow(size))
            expected = not_written(place.out), (OLD, ["in.fit", "out.fit"])
            yield "a file of at most some bytes", differs((said, place.left()), expected)
    with tempfile.TemporaryDirectory() as folder, tempfile.TemporaryDirectory() as elsewhere, small_disk(folder) as mounted:
        if not mounted:
            yield "a full disk", Skipped("no disk can be mounted")
            return
        lay(pathlib.Path(elsewhere, "in.fit"), command.large())
        place = Place(folder, command.given)
        said = command.run(elsewhere + "/in.fit", place.out)
        yield "a full disk", differs((said, place.left()), (not_written(place.out), (OLD, ["in.fit", "out.fit"])))


def without_output(command):
    """The file is made, and its line is not printed. Nothing that is meant for a closed stream ends up in it."""
    line = "fitrec: cannot write -\n"
    for closed, fault in ((">/dev/full", line), (">&-", line), ("<&- >&-", line), ("<&- >&- 2>&-", "")):
        with place_of(command.given) as place:
            said = run("sh", "-c", 'exec "$@" ' + closed, "sh", command.traced.fitrec, *command.words, place.source, place.out)
            yield "closed output", differs((said, place.left()), ((1, "", fault), (command.made, ["in.fit", "out.fit"])))


# What has the name of OUT.

def other_things(command):
    """What is not a regular file is not replaced. Where no file can be made, none is."""
    with place_of(command.given) as place:
        link, nowhere, pipe, folder = (place.folder / name for name in ("link", "nowhere", "pipe", "folder"))
        link.symlink_to(place.out)
        nowhere.symlink_to(place.folder / "none")
        os.mkfifo(pipe)
        folder.mkdir()
        for out in (link, nowhere, pipe, folder, "", "%s/" % place.out, "/proc/out.fit", "/dev/null", place.folder / "none/out.fit"):
            yield "something else at its name", differs(command.run(place.source, out), not_written(out))
        names = ["folder", "in.fit", "link", "nowhere", "out.fit", "pipe"]
        yield "something else stays", differs((place.left(), link.is_symlink(), os.listdir(folder)), ((OLD, names), True, []))


def taken_names(command):
    """A name beside OUT that is taken is passed over."""
    with place_of(command.given) as place:
        taken = [place.folder / (".fitrec-new-%d" % number) for number in range(NAMES)]
        for path in taken:
            path.write_bytes(OLD)
        before = place.left()
        yield "each name is taken", differs((command.run(place.source, place.out), place.left()), (not_written(place.out), before))
        free = taken[NAMES // 2]
        free.unlink()
        said = command.run(place.source, place.out)
        yield "one name is free", differs((said, place.left()), (command.done, (command.made, sorted(set(before[1]) - {free.name}))))
        yield "what has the others stays", differs({bytes_of(path) for path in taken}, {OLD, None})


def modes(command):
    """OUT keeps its mode, and is not replaced by a user who may not write it."""
    for mask in (0o022, 0o077):
        for mode in (0o600, 0o640, 0o666, 0o755, 0o200, 0o400, 0o444, None):
            for user in (None, as_nobody):
                with place_of(command.given, None if mode is None else OLD) as place:
                    is_root = user is None and os.getuid() == 0
                    for path in (place.folder, *place.folder.iterdir()):
                        path.chmod(mode if path == place.out else 0o755)
                        os.chown(path, *(-1, -1) if is_root or os.getuid() else (NOBODY, NOBODY))
                    said = command.run(place.source, place.out, umask=mask, preexec_fn=user)
                    is_made = mode is None or is_root or bool(mode & 0o200)
                    expected = command.done if is_made else not_written(place.out), 0o666 & ~mask if mode is None else mode
                    yield "the mode of the file", differs((said, place.out.stat().st_mode & 0o7777), expected)
                    expected = command.made if is_made else OLD, ["in.fit", "out.fit"]
                    yield "the file of this mode", differs(place.left(), expected)


def folders_of_others(command):
    """In a folder that the user may not read or not write nothing is made or replaced. Nor is a file of another user."""
    for mode, of_another in ((0o311, False), (0o511, False), (0o777, True)):
        with place_of(command.given) as place:
            if os.getuid() == 0:
                for path in (place.folder, place.source, place.out):
                    os.chown(path, NOBODY, NOBODY)
                if of_another:
                    os.chown(place.out, 0, 0)
            elif of_another:
                continue
            place.folder.chmod(mode)
            said = command.run(place.source, place.out, preexec_fn=as_nobody)
            place.folder.chmod(0o755)
            yield "a folder of mode %o" % mode, differs((said, place.left()), (not_written(place.out), (OLD, ["in.fit", "out.fit"])))


# Who has OUT open.

def with_a_lock(command):
    """A file that another program has locked is not replaced. A file that was replaced is not locked afterwards."""
    for kind in (fcntl.LOCK_EX, fcntl.LOCK_SH):
        with place_of(command.given) as place, open(place.out) as file:
            fcntl.flock(file, kind)
            said = command.run(place.source, place.out)
            yield "locked", differs((said, place.left()), (not_written(place.out), (OLD, ["in.fit", "out.fit"])))
            fcntl.flock(file, fcntl.LOCK_UN)
            said = command.run(place.source, place.out)
            yield "locked no more", differs((said, bytes_of(place.out)), (command.done, command.made))


def recordings(command):
    """Neither of the two files of a recording is replaced, or made beside the other. One of them alone is replaced."""
    with room("start 1000000000 7 running", "stop 1000000001") as (script, new):
        for own, other in (("activity.fit", "activity.frj"), ("activity.frj", "activity.fit")):
            for is_there in (True, False):
                for name in ("%s/" + own, own, "./" + own):
                    place, folder = Place(new(), command.given), pathlib.Path(new())
                    run(command.traced.fitrec, "replay", script, folder)
                    if not is_there:
                        (folder / own).unlink()
                    before = {path.name: path.read_bytes() for path in folder.iterdir()}
                    out = name.replace("%s", str(folder))
                    for source in [place.source] + command.sources_in(folder) * (is_there and own == "activity.fit"):
                        said = command.run(source, out, cwd=folder)
                        left = {path.name: path.read_bytes() for path in folder.iterdir()}
                        yield "in the folder of a recording", differs((said, left), (not_written(out), before))
            place, folder = Place(new(), command.given), pathlib.Path(new())
            (folder / own).write_bytes(OLD)
            said = command.run(place.source, folder / own)
            yield "one of the files alone", differs((said, (folder / own).read_bytes()), (command.done, command.made))


def a_ride_under_way(command):
    """A replay waits until its answers are read. Until then nobody replaces its files, and its ride is complete in the end."""
    with room(*script_of(3000, 100).splitlines()) as (script, new):
        place, folder = Place(new(), command.given), pathlib.Path(new())
        out = folder / "activity.fit"
        with subprocess.Popen([command.traced.fitrec, "replay", script, folder], stdout=subprocess.PIPE, text=True, pipesize=4096) as replay:
            answers = replay.stdout.readline()
            for source in [place.source, *command.sources_under_way(folder)]:
                yield "over a ride under way", differs(command.run(source, out), not_written(out))
            answers += replay.stdout.read()
        yield "a ride under way goes on", differs((replay.returncode, answers.count(": ok\n")), (0, 3031))
        said = run(command.traced.fitrec, "repair", folder)
        yield "a ride under way is repaired", differs((said[0], said[1].split()[:2]), (0, ["ok", "records=3000"]))


# IN comes before OUT.

def while_it_waits(command):
    """A pipe as IN: nothing is made and nothing is locked until all of it has come. No pipe in a folder is read, so save is left out."""
    if isinstance(command, Save):
        return
    with place_of(command.given) as place:
        pipe, until = place.folder / "pipe", time.monotonic() + 30
        os.mkfifo(pipe)
        # A pipe that is opened for reading too does not wait for the program.
        with open(pipe, "r+b", buffering=0) as feed:
            running = subprocess.Popen([command.traced.fitrec, *command.words, pipe, place.out], stdout=subprocess.PIPE, stderr=subprocess.PIPE, text=True)
            feed.write(command.made[:20])
            while fcntl.ioctl(feed, termios.FIONREAD, b"\0" * 4) != b"\0" * 4 and time.monotonic() < until:
                time.sleep(0.001)
            left = place.left()
            with open(place.out) as file:
                fcntl.flock(file, fcntl.LOCK_EX | fcntl.LOCK_NB)
            feed.write(command.made[20:])
        said = running.communicate(timeout=60)
        yield "while it waits", differs(left, (OLD, ["in.fit", "out.fit", "pipe"]))
        yield "after it waited", differs(((running.returncode, *said), place.left()), (command.done, (command.made, ["in.fit", "out.fit", "pipe"])))


def order_of_faults(command):
    """What is wrong with IN is reported before what is wrong with OUT."""
    with place_of(command.given) as place, open(place.out) as file:
        fcntl.flock(file, fcntl.LOCK_EX)
        folder = place.folder / "folder"
        folder.mkdir()
        sources = command.wrong_sources(folder)
        before = place.left()
        for source, line in sources.items():
            for out in (place.out, folder, place.folder / "none/out.fit", ""):
                said = command.run(source, out)
                yield "the order of faults", differs((said, place.left()), ((1, "", "fitrec: %s\n" % line), before))


GROUPS = [its_calls, failing_calls, failing_status_calls, short_calls, without_room, without_output, other_things, taken_names, modes,
          folders_of_others, with_a_lock, recordings, a_ride_under_way, while_it_waits, order_of_faults]


def check(given):
    small = given.small
    with for_everyone(given.fitrec) as fitrec, tracing(fitrec) as traced:
        for command in (Command(traced, ["salvage"], "kept 18 of 18\n", small), Command(traced, ["salvage", "--plain"], "kept 18 of 18\n", small),
                        Command(traced, ["plain"], "messages 1\n", small), Command(traced, ["shift", "--by", "0"], "messages 1\n", small), Save(traced)):
            for group in GROUPS:
                yield from given.checks(group, command, under=" ".join(command.words))
