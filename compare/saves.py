"""Checks `fitrec save`: OUT is what `repair` and then `plain` make of a copy of the folder, and nothing is written to the folder
itself. It refuses what `repair` refuses."""

import concurrent.futures
import contextlib
import itertools
import os
import pathlib
import random
import shutil
import signal
import subprocess
import tempfile

from tools.checks import Skipped, differs
from tools.program import CORES, NAMES, NOBODY, bytes_of, for_everyone, room, run
from tools.rides import LEFT_OUT, damaged_pair, recording, script_of, uncommitted
from tools.traced import tracing

NEEDS = ("fitrec", "cc")

# Entries of each kind, pauses of more than 31 s, and a ride that is resumed, stopped, repaired, erased and begun anew.
RIDE = """start 1000000000 7 running
sample 1000000000 hr=100
sample 1000000031 hr=101
commit
sample 1000000063 lat=500000000 long=100000000 hr=102
lap 1000000064
sample 1000000064 speed=3100
commit
pause 1000000070
resume 1000000110
sample 1000000110 hr=103
commit
reopen
sample 1000000111 hr=104
commit
sample 1000000112 hr=105
recover
reopen
lap 1000000113
sample 1000000113 hr=106
commit
stop 1000000120
recover
erase
start 1000000000 8 cycling
commit
"""


def state(folder):
    """The names in a folder; for each file its bytes and when it was written."""
    files = [it for it in sorted(pathlib.Path(folder).iterdir()) if it.is_file()]
    return sorted(os.listdir(folder)), [(it.read_bytes(), it.stat().st_mtime_ns, it.stat().st_ctime_ns) for it in files]


def lack(folder):
    """The line on what a folder lacks in which nothing is recorded."""
    data, journal = (bytes_of(pathlib.Path(folder, name)) for name in NAMES)
    if data is None and journal is None:
        return ""
    if data is None:
        return "fitrec: activity.fit is missing\n"
    if data == b"" and journal is not None:
        return "fitrec: activity.fit is empty\n"
    is_damaged = bool(journal) and (len(journal) < 8 or journal[:1] != b"F")
    why = "is missing" if journal is None else "is empty" if not journal else "is damaged in its head" if is_damaged else "states no commit"
    return "fitrec: activity.frj %s; salvage copies what is readable of activity.fit\n" % why


def expected(fitrec, folder):
    """What a save has to print, and what OUT has to hold: from a repair of a copy, and the plain form of its result."""
    with tempfile.TemporaryDirectory() as scratch:
        copy, plain = scratch + "/copy", pathlib.Path(scratch, "plain.fit")
        shutil.copytree(folder, copy)
        os.chmod(copy, 0o755)
        for name in os.listdir(copy):
            os.chmod(pathlib.Path(copy, name), 0o644)
        said = run(fitrec, "repair", copy)
        if said[0] == 0:
            run(fitrec, "plain", copy + "/activity.fit", plain)
        more = lack(folder) if said[2] == "fitrec: NothingRecorded\n" else ""
        count = uncommitted(*(bytes_of(pathlib.Path(folder, name)) for name in NAMES)) if said[0] == 0 else 0
        more += LEFT_OUT % count * bool(count)
        return (said[0], said[1], said[2].replace(copy, str(folder)) + more), bytes_of(plain)


def judge(fitrec, folder, **how):
    """None if a save prints and makes what it has to, and leaves the folder as it was."""
    with tempfile.TemporaryDirectory() as scratch:
        os.chmod(scratch, 0o777)
        out = pathlib.Path(scratch, "out.fit")
        wanted, before = expected(fitrec, folder), state(folder)
        said = run(fitrec, "save", folder, out, **how)
        return differs((said, bytes_of(out), state(folder)), (*wanted, before))


def judge_as_nobody(fitrec, folder):
    """The same for a user who may read the folder and write nothing there."""
    for path in (*pathlib.Path(folder).iterdir(), pathlib.Path(folder)):
        path.chmod(0o555 if path.is_dir() else 0o444)
    difference = judge(fitrec, folder, **{"user": NOBODY, "group": NOBODY, "extra_groups": []} if os.getuid() == 0 else {})
    os.chmod(folder, 0o755)
    return difference


def killed_rides(traced, script, new):
    """The folders of a ride that is killed before each call that changes its files, and in the middle of each write."""
    script.write_text(RIDE)
    for how in ({"call": "cut"}, {"call": "write"}, {"call": "write", "most": 1}, {"call": "write", "most": 3}):
        for number in itertools.count(1):
            folder = new()
            _, log = traced.run("replay", script, folder, number=number, kills=1, **how)
            if sum(line.startswith(how["call"]) for line in log) < number:
                break
            yield folder


def of_killed_rides(fitrec, traced):
    with room() as (script, new), concurrent.futures.ThreadPoolExecutor(CORES) as pool:
        script.parent.chmod(0o755)
        folders = list(killed_rides(traced, script, new))
        # A commit makes at least three writes.
        yield "rides were killed", differs(len(folders) > 3 * 3 * RIDE.count("commit"), True)
        for name, how in (("a ride that was killed", judge), ("by a user who may not write there", judge_as_nobody)):
            for difference in pool.map(lambda folder: how(fitrec, folder), folders):
                yield name, difference


def of_rides(fitrec):
    """A ride that was cut off, one that was repaired, resumed, or stopped; and OUT in the folder itself."""
    with room(*RIDE.splitlines()[:12]) as (script, new):
        folder = pathlib.Path(new())
        run(fitrec, "replay", script, folder)
        yield "a ride that was cut off", judge(fitrec, folder)
        wanted, before = expected(fitrec, folder), state(folder)
        said = run(fitrec, "save", folder, folder / "saved.fit"), bytes_of(folder / "saved.fit")
        (folder / "saved.fit").unlink()
        yield "OUT in the folder", differs((said, state(folder)), (wanted, before))
        said = run(fitrec, "save", ".", "saved.fit", cwd=folder), bytes_of(folder / "saved.fit")
        (folder / "saved.fit").unlink()
        yield "OUT in the folder that it runs in", differs((said, state(folder)), (wanted, before))
        for name in NAMES:
            said = run(fitrec, "save", folder, folder / name), state(folder)
            yield "OUT at the name of a file of the folder", differs(said, ((1, "", "fitrec: cannot write %s\n" % (folder / name)), before))
        run(fitrec, "repair", folder)
        yield "a ride that was repaired", judge(fitrec, folder)
        for part in ("reopen\nsample 1000000900 hr=90\nlap 1000000901\nsample 1000000940 hr=91\ncommit\nsample 1000000941 hr=92\n",
                     "reopen\nstop 1000000950\n"):
            script.write_text(part)
            run(fitrec, "replay", script, folder)
            yield "a ride that goes on, or is stopped", judge(fitrec, folder)


def of_damaged_pairs(fitrec, given):
    """The same decisions as a repair, over pairs of files that are torn and damaged at random."""
    pick = random.Random(given.seed)
    whole = [recording(fitrec, *script_of(30, 5).splitlines())[name] for name in NAMES]

    def judged(_, pair):
        with tempfile.TemporaryDirectory() as folder:
            for name, content in zip(NAMES, pair):
                pathlib.Path(folder, name).write_bytes(content)
            return "a damaged pair", judge(fitrec, folder)

    yield from given.judged(judged, [damaged_pair(pick, whole) for _ in range(given.files // 6)])


@contextlib.contextmanager
def recorded(fitrec):
    """A folder with a ride that was cut off, and a place for OUT."""
    with room(*RIDE.splitlines()[:4]) as (script, new):
        folder = new()
        run(fitrec, "replay", script, folder)
        yield pathlib.Path(folder), pathlib.Path(new(), "out.fit")


def other_things(fitrec):
    """A file that is missing, empty, a link, too large, or not a regular file; a folder that is not one."""
    for name in NAMES:
        for change in (lambda it: it.unlink(), lambda it: it.write_bytes(b""), lambda it: it.symlink_to(it.rename(it.parent.parent / "other"))):
            with recorded(fitrec) as (folder, out):
                change(folder / name)
                yield "a file that is missing, empty or linked", judge(fitrec, folder)
        for make in (os.mkfifo, os.mkdir, lambda it: os.symlink("missing", it), lambda it: os.symlink("/dev/null", it)):
            with recorded(fitrec) as (folder, out):
                (folder / name).unlink()
                make(folder / name)
                said = run(fitrec, "save", folder, out), out.exists()
                yield "something else at the name of a file", differs(said, ((1, "", "fitrec: cannot open %s\n" % folder), False))
        with recorded(fitrec) as (folder, out):
            os.truncate(folder / name, 268435457)
            said = run(fitrec, "save", folder, out), out.exists()
            yield "a file over the limit", differs(said, ((1, "", "fitrec: TooLarge\n"), False))
    with recorded(fitrec) as (folder, out):
        for place in ("/nowhere", folder / "activity.fit"):
            yield "no folder", differs((run(fitrec, "save", place, out), out.exists()), ((1, "", "fitrec: cannot open %s\n" % place), False))


def without_a_name(fitrec):
    """A folder without a name is not opened, even where the current one has a recording."""
    with recorded(fitrec) as (folder, out):
        before = state(folder)
        said = run(fitrec, "save", "", out, cwd=folder), out.exists(), state(folder)
        yield "a folder without a name", differs(said, ((1, "", "fitrec: cannot open \n"), False, before))


def in_capitals(fitrec):
    """Names in capitals, as a FAT card shows them, are found, and kept from becoming OUT. Files under the usual names come first."""
    with recorded(fitrec) as (folder, out):
        wanted = expected(fitrec, folder)
        whole = {name: (folder / name).read_bytes() for name in NAMES}
        for name in NAMES:
            (folder / name).rename(folder / name.upper())
        before = state(folder)
        yield "names in capitals", differs(((run(fitrec, "save", folder, out), bytes_of(out)), state(folder)), (wanted, before))
        for name in NAMES:
            said = run(fitrec, "save", folder, folder / name.upper()), state(folder)
            yield "OUT at a name in capitals", differs(said, ((1, "", "fitrec: cannot write %s\n" % (folder / name.upper())), before))
        (folder / "ACTIVITY.FRJ").write_bytes(b"")
        said = run(fitrec, "save", folder, out)[2]
        yield "names in capitals: an empty journal", differs(said.split(";")[0], "fitrec: NothingRecorded\nfitrec: activity.frj is empty")
        for name, content in whole.items():
            (folder / name).write_bytes(content)
        yield "both kinds of names", differs((run(fitrec, "save", folder, out), bytes_of(out)), wanted)


def on_a_read_only_card(fitrec):
    """A folder that nobody may write, because it is mounted read-only."""
    with recorded(fitrec) as (folder, out), tempfile.TemporaryDirectory() as card:
        is_mounted = run("mount", "--bind", folder, card)[0] == 0
        try:
            if not is_mounted or run("mount", "-o", "remount,bind,ro", card)[0] != 0:
                yield "a read-only card", Skipped("no folder can be mounted")
                return
            yield "a read-only card: repaired", differs(run(fitrec, "repair", card), (1, "", "fitrec: cannot open %s\n" % card))
            yield "a read-only card: saved", judge(fitrec, card)
        finally:
            if is_mounted:
                run("umount", card)


def while_recording(fitrec):
    """A folder that a recorder has open is not read, even while that recorder is paused. What it recorded is saved once it has ended."""
    with room(*script_of(30000, 3).splitlines()) as (script, new):
        folder, out = new(), new() + "/out.fit"
        running = subprocess.Popen([fitrec, "replay", script, folder], stdout=subprocess.PIPE)
        running.stdout.readline()
        for what in (signal.SIGSTOP, signal.SIGCONT):
            running.send_signal(what)
            said = run(fitrec, "save", folder, out), os.path.exists(out)
            yield "a folder that is recorded into", differs(said, ((1, "", "fitrec: cannot open %s\n" % folder), False))
        running.kill()
        running.communicate()
        yield "a recorder that was killed", judge(fitrec, folder)


def check(given):
    with for_everyone(given.fitrec) as fitrec, tracing(fitrec) as traced:
        yield from given.checks(of_killed_rides, fitrec, traced)
        yield from given.checks(of_damaged_pairs, fitrec, given)
        for group in (of_rides, other_things, without_a_name, in_capitals, on_a_read_only_card, while_recording):
            yield from given.checks(group, fitrec)
