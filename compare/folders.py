"""Checks what the built program does with folders and their contents: files that cannot grow, that are locked, that are large or are
something else, closed streams, users without permission, and a folder without a name. The expected results are those of
docs/RECORDING.md."""

import fcntl
import os
import pathlib
import re
import shutil

from tools.checks import differs, unless
from tools.program import NOBODY, as_nobody, holds, may_not_grow, room, run
from tools.rides import ALONE, CUT_OFF, LINE, ONE, START, STOPPED, TWO, answers, committed, row_of, script_of

NEEDS = ("fitrec",)


def at_each_size(fitrec):
    """Files that may have so many bytes and no more: a write that was done in part counts as failed, and what was committed is
    kept."""
    with room() as (script, new):
        script.write_text(script_of(24, 3))
        for size in range(0, 245, 5):
            folder = new()
            status, out, err = run(fitrec, "replay", script, folder, preexec_fn=may_not_grow(size))
            started, kept, handed = committed(out.splitlines())
            said = run(fitrec, "repair", folder)
            records = re.match(r"ok records=(\d+) ", said[1])
            well = records and kept <= int(records[1]) <= handed
            if not started:
                well = well or said == (1, "", "fitrec: NothingRecorded\n")
            yield "files of at most some bytes", unless(well, (size, status, err, said), "%d to %d records" % (kept, handed))


def with_closed_streams(fitrec):
    """Nothing that is meant for a closed stream ends up in a file. The first answer is not written, and none after it."""
    with room(*STOPPED) as (script, new):
        for closed, line in ((">&-", "fitrec: cannot write -\n"), ("<&- >&- 2>&-", ""), ("<&- >&-", "fitrec: cannot write -\n")):
            folder = new()
            said = run("sh", "-c", 'exec "$@" ' + closed, "sh", fitrec, "replay", script, folder)
            yield "closed streams: replayed", differs(said, (1, "", line))
            said = run("sh", "-c", 'exec "$@" ' + closed, "sh", fitrec, "repair", folder)
            yield "closed streams: repaired", differs(said, (1, "", line))
            said = run(fitrec, "check", folder + "/activity.fit")
            yield "closed streams: kept", differs(said, (0, ALONE, ""))


def with_a_lock(fitrec):
    """A file that another program has locked is not opened."""
    with room(*CUT_OFF) as (script, new):
        folder = new()
        run(fitrec, "replay", script, folder)
        before = holds(folder)
        for name in ("activity.fit", "activity.frj"):
            for kind in (fcntl.LOCK_EX, fcntl.LOCK_SH):
                with open(folder + "/" + name) as file:
                    fcntl.flock(file, kind)
                    for words in (["repair", folder], ["replay", script, folder]):
                        said = run(fitrec, *words), holds(folder)
                        yield "locked: " + name, differs(said, ((1, "", "fitrec: cannot open %s\n" % folder), before))
        yield "locked no more", differs(run(fitrec, "repair", folder), (0, ONE, ""))


def with_other_things(fitrec):
    """What has the name of a file is looked at before it is opened. A pipe does not block the program. A link that points nowhere does
    not become a file, and a link to a file is followed."""
    with room(*STOPPED) as (script, new):
        for name in ("activity.fit", "activity.frj"):
            piped, linked, nowhere, other = (pathlib.Path(new()) for _ in range(4))
            os.mkfifo(piped / name)
            os.mkfifo(other / "pipe")
            (linked / name).symlink_to(other / "pipe")
            (nowhere / name).symlink_to(other / "missing")
            for folder in (piped, linked, nowhere):
                for words in (["replay", script, folder], ["repair", folder]):
                    said = run(fitrec, *words)
                    # A repair opens nothing if the other file is missing.
                    is_none = words[0] == "repair" and not all(os.path.lexists(folder / it) for it in ("activity.fit", "activity.frj"))
                    line = "NothingRecorded" if is_none else "cannot open %s" % folder
                    yield "something else at the name of a file", differs(said, (1, "", "fitrec: %s\n" % line))
            yield "a link that points nowhere", differs((other / "missing").exists(), False)
            (linked / name).unlink()
            (linked / name).symlink_to(other / "file")
            (other / "file").touch()
            yield "a link to a file", differs(run(fitrec, "replay", script, linked)[0], 0)
            yield "a link to a file: check", differs(run(fitrec, "check", linked / "activity.fit"), (0, TWO, ""))


def with_much_after_a_commit(fitrec):
    """What comes after the last commit is cut off, however much it is."""
    with room() as (script, new):
        folder = new()
        script.write_text(script_of(3, 3) + script_of(403, 500).partition("sample 1000000002")[2].partition("\n")[2])
        run(fitrec, "replay", script, folder)
        line = (LINE % (3, 2000, 2000)).replace("cm=-", "cm=1400")
        yield "much after a commit: repaired", differs(run(fitrec, "repair", folder), (0, line, ""))
        said = run(fitrec, "check", folder + "/activity.fit")
        yield "much after a commit: checked", differs(said, (0, line, ""))


def without_a_name(fitrec):
    """The folder without a name is the one that the program runs in."""
    with room(*STOPPED) as (script, new):
        folder = new()
        said = run(fitrec, "repair", "", cwd=folder)
        yield "a folder without a name: nothing recorded", differs((said, os.listdir(folder)), ((1, "", "fitrec: NothingRecorded\n"), []))
        said = run(fitrec, "replay", script, "", cwd=folder)
        expected = answers("start: ok", "sample: ok", "commit: ok", "sample: ok", "stop: ok")
        yield "a folder without a name: replayed", differs(said, (0, expected, ""))
        for words in (["check", folder + "/activity.fit"], ["repair", ""]):
            yield "a folder without a name: " + words[0], differs(run(fitrec, *words, cwd=folder), (0, TWO, ""))


def of_other_users(fitrec):
    """A folder that the user may not enter, read or write, and files that the user may not write, are not opened."""
    with room(*STOPPED) as (script, new):
        os.chmod(script.parent, 0o755)
        own = shutil.copy(fitrec, script.parent)
        os.chmod(own, 0o755)
        for mode, modes in ((0o644, (0o644, 0o644)), (0o333, (0o644, 0o644)), (0o755, (0o444, 0o644)), (0o755, (0o644, 0o444)), (0o555, None)):
            folder = pathlib.Path(new())
            if modes:
                run(own, "replay", script, folder)
                for name, its_mode in zip(("activity.fit", "activity.frj"), modes):
                    (folder / name).chmod(its_mode)
            for path in (folder, *folder.iterdir()):
                os.chown(path, *(NOBODY, NOBODY) if os.getuid() == 0 else (-1, -1))
            before = holds(folder) if modes else os.listdir(folder)
            folder.chmod(mode)
            for words in (["replay", script], ["repair"]):
                said = run(own, *words, folder, preexec_fn=as_nobody)
                is_none = modes is None and words == ["repair"]
                expected = 1, "", "fitrec: NothingRecorded\n" if is_none else "fitrec: cannot open %s\n" % folder
                yield "what the user may not open", differs(said, expected)
            folder.chmod(0o755)
            yield "what the user may not open stays", differs(holds(folder) if modes else os.listdir(folder), before)


def with_large_files(fitrec):
    """A start finds every data file that is not empty, and a repair cuts off whatever comes after the body."""
    with room(*CUT_OFF) as (script, new):
        for size in (1, 65536, 1 << 24, 1 << 32):
            folder = new()
            with open(folder + "/activity.fit", "wb") as file:
                file.truncate(size)
            said = run(fitrec, "replay", script, folder)
            expected = answers("start: NotEmpty", "sample: NoRecorder", "commit: NoRecorder", "sample: NoRecorder")
            left = os.path.getsize(folder + "/activity.fit"), os.path.getsize(folder + "/activity.frj")
            yield "a start over a file of %d bytes" % size, differs((said, left), ((1, expected, "fitrec: 4 refused\n"), (size, 0)))
            folder = new()
            run(fitrec, "replay", script, folder)
            os.truncate(folder + "/activity.fit", size + 97)
            said = run(fitrec, "repair", folder)
            yield "a repair of a file of %d bytes more" % size, differs((said, os.path.getsize(folder + "/activity.fit")), ((0, ONE, ""), 351))


# The fields of a record: a time, a heart rate and a cadence.
TIME, RATE, CADENCE = bytes([253, 4, 0x86]), bytes([3, 1, 2]), bytes([4, 1, 2])
STOP_MESSAGE = bytes([6]) + (1000000000).to_bytes(4, "little") + bytes([0, 4])


def body_of(start, size, is_stopped):
    """A body of so many bytes and its number of samples: a start, samples of six and seven bytes at its time, and maybe a stop."""
    six, seven = (bytes([0x40, 0, 0, 20, 0, len(fields) // 3]) + fields for fields in (TIME + RATE, TIME + RATE + CADENCE))
    time, end = (1000000000).to_bytes(4, "little"), STOP_MESSAGE * is_stopped
    left = size - len(start + six + seven + end)
    sevens = left % 6
    sixes = (left - 7 * sevens) // 6
    return start + seven + (b"\0" + time + b"de") * sevens + six + (b"\0" + time + b"d") * sixes + end, sixes + sevens


def of_the_longest_body(fitrec):
    """A repaired body has at most 16,777,216 bytes if the ride has its stop, and at most 16,776,704 if it has none."""
    with room(START) as (script, new):
        folder = pathlib.Path(new())
        run(fitrec, "replay", script, folder)
        header, start = holds(folder)[0][:14], holds(folder)[0][14:]
        for most, is_stopped, closing in ((16777216, True, 230), (16776704, False, 252)):
            for size in (most, most + 1):
                body, samples = body_of(start, size, is_stopped)
                (folder / "activity.fit").write_bytes(header + body)
                slots = bytes.fromhex("A5 48 00 00 00 00 00 00 A5") + size.to_bytes(4, "little") + bytes(3)
                (folder / "activity.frj").write_bytes(b"FRJ2\0\0\0\0" + slots)
                said, left = run(fitrec, "repair", folder), os.path.getsize(folder / "activity.fit")
                expected = ((0, LINE % (samples, 0, 0), ""), 14 + size + closing + 2) if size == most else ((1, "", "fitrec: Damaged\n"), 14 + size)
                yield "a body of %d bytes" % size, differs((said, left), expected)


def of_a_row_of_slots(fitrec):
    """A ride whose journal is a row is continued in it: commits until one slot is left, which the stop takes. It can be repaired too."""
    with room(START) as (script, new):
        first = new()
        run(fitrec, "replay", script, first)
        data = holds(first)[0]
        second = 1000000001
        lines, said_well = ["reopen"], ["reopen: ok"]
        # 4,096 slots, 4,090 of them open: five more commits succeed.
        for number in range(7):
            lines += ["sample %d hr=100" % (second + number), "commit"]
            said_well += ["sample: ok", "commit: ok" if number < 5 else "commit: JournalFull"]
        for end, line in (([], LINE % (5, 5000, 5000)), (["stop %d" % (second + 9)], LINE % (7, 10000, 10000))):
            folder = pathlib.Path(new())
            (folder / "activity.fit").write_bytes(data)
            (folder / "activity.frj").write_bytes(row_of(*[72] * 4090))
            script.write_text("\n".join(lines + end))
            said = run(fitrec, "replay", script, folder)
            expected = 1, answers(*said_well, *["stop: ok"] * len(end)), "fitrec: 2 refused\n"
            yield "a row of slots: answers", differs(said, expected)
            yield "a row of slots: its slots", differs(holds(folder)[1].count(b"\xA5"), 4095 + len(end))
            yield "a row of slots: repaired", differs(run(fitrec, "repair", folder), (0, line, ""))
        script.write_text("reopen")
        (folder / "activity.fit").write_bytes(data)
        (folder / "activity.frj").write_bytes(row_of(*[72] * 4096))
        said = run(fitrec, "replay", script, folder)
        yield "a full row of slots", differs(said, (1, answers("reopen: JournalFull"), "fitrec: 1 refused\n"))
        yield "a full row of slots: repaired", differs(run(fitrec, "repair", folder), (0, ALONE, ""))


def check(given):
    for group in (at_each_size, with_closed_streams, with_a_lock, with_other_things, with_much_after_a_commit, without_a_name, of_other_users,
                  with_large_files, of_the_longest_body, of_a_row_of_slots):
        yield from given.checks(group, given.fitrec)
