"""Checks how the built program reads a file or a script: as many bytes as allowed, from a file or a pipe, in any pieces, if a system
call fails or is interrupted, and where a tail cannot be read."""

import errno
import os
import pathlib
import random
import tempfile
import threading

from tools.checks import differs
from tools.fit_files import MOST, damaged, long_beginning, made
from tools.program import NAMES, bytes_of, holds, room, run
from tools.reader import UNREAD_FROM, plained, wanted, wanted_salvage
from tools.rides import LEFT_OUT, START, body_unread, counted, uncommitted
from tools.traced import ERRORS, tracing

NEEDS = ("fitrec", "cc")
# Each command that reads a file or a script, and what it reports for many zeros.
READERS = [(words, "HeaderSize at 0") for words in (
    "show large", "table large", "check large", "salvage large out.fit", "plain large out.fit")]
READERS += [(words, "line 1: UnknownWord") for words in ("replay large .", "simulate large")]


def feed(path, count):
    """Writes so many zeros to the pipe with this name, or as many as are read."""
    piece = bytes(1 << 20)
    try:
        with open(path, "wb", buffering=0) as pipe:
            while count:
                count -= pipe.write(piece[:count])
    except BrokenPipeError:
        pass


def limits(fitrec):
    """As many bytes as are allowed, and one more: from a file whose size is known, and from a pipe."""
    with tempfile.TemporaryDirectory() as folder:
        yield from of_large_files(fitrec, pathlib.Path(folder, "large"))


def of_large_files(fitrec, large):
    for count, is_too_large in ((MOST, False), (MOST + 1, True)):
        for words, refusal in READERS:
            expected = 1, "", "fitrec: %s\n" % ("TooLarge" if is_too_large else refusal)
            with open(large, "wb") as file:
                file.truncate(count)
            yield "%d bytes in a file: %s" % (count, words), differs(run(fitrec, *words.split(), cwd=large.parent), expected)
            large.unlink()
            os.mkfifo(large)
            writer = threading.Thread(target=feed, args=(large, count))
            writer.start()
            yield "%d bytes in a pipe: %s" % (count, words), differs(run(fitrec, *words.split(), cwd=large.parent), expected)
            writer.join()
            large.unlink()
    yield "nothing is made", differs([name for name in os.listdir(large.parent) if name.startswith((".fitrec", "out", "activity"))], [])
    with open(large, "wb") as file:
        file.write(long_beginning(MOST))
        file.truncate(MOST - 1)
        file.seek(MOST - 1)
        file.write(b"\x0F")
    expected = 1, "", "fitrec: UndefinedLocal(15) at %d\n" % (MOST - 1)
    for words in ("show large", "check large", "plain large out.fit"):
        yield "the last place of the largest file: " + words, differs(run(fitrec, *words.split(), cwd=large.parent), expected)


def known_to_be_too_large(traced):
    """A file whose size says that it is too large is refused before a byte of it is read."""
    with tempfile.TemporaryDirectory() as folder:
        large = pathlib.Path(folder, "in.fit")
        large.touch()
        os.truncate(large, MOST + 1)
        for words, _ in [*READERS, ("show --json large", ""), ("split large .", "")]:
            said, log = traced.run(*words.replace("large", "in.fit").split(), how={"cwd": folder})
            reads = [line for line in log if line.startswith("read")]
            yield "a size that is too large: " + words, differs((said, reads), ((1, "", "fitrec: TooLarge\n"), []))
        for words, out, fault in ("check --each", "in.fit: TooLarge\n", ""), ("table --fields heart_rate --each", "file,heart_rate_bpm\r\n", "fitrec: in.fit: TooLarge\n"):
            said, log = traced.run(*words.split(), "in.fit", how={"cwd": folder})
            reads = [line for line in log if line.startswith("read")]
            yield "a size that is too large: " + words, differs((said, reads), ((1, out, fault + "fitrec: 1 refused\n"), []))


def calls_that_go_wrong(traced, small):
    """A read that falls short or is interrupted is continued. One that fails is reported, and nothing is printed or made."""
    with room(START, "stop 1000000001") as (script, new):
        texts = {"show": small, "check": small, "replay": script.read_bytes(), "simulate": script.read_bytes()}
        for command, text in texts.items():
            def anew(**wrong):
                folder = pathlib.Path(new())
                (folder / "in.fit").write_bytes(text)
                ride = folder / "ride"
                ride.mkdir()
                said, log = traced.run(command, folder / "in.fit", *[ride] * (command == "replay"), **wrong)
                return said, log, folder / "in.fit", os.listdir(ride)

            expected, log, _, made = anew()
            calls = [line for line in log if line.endswith(" in")]
            for most in (1, 3):
                said, _, _, left = anew(call="read", number=0, most=most)
                yield command + ": each read of at most a few bytes", differs((said, left), (expected, made))
            for at, line in enumerate(calls):
                kind, number = line.split()[0], calls[:at + 1].count(line)
                for error in [*ERRORS, errno.EINTR]:
                    said, _, file, left = anew(call=kind, number=number, errno=error)
                    is_well = kind == "size" or error == errno.EINTR
                    wanted_so = (expected, made) if is_well else ((1, "", "fitrec: cannot %s %s\n" % (kind, file)), [])
                    yield "%s: a %s that failed" % (command, kind), differs((said, left), wanted_so)


def tails_that_cannot_be_read(traced):
    """A file that cannot be read from a place on, as where a FAT lacks its last cluster. `save` takes the ride if all that the journal
    counts is before that place, and `salvage` the whole messages before it. `repair` succeeds where `save` does. The others refuse it."""
    later = ["sample %d hr=%d" % (1000000002 + at, at % 99) for at in range(600)]
    with room(START, "sample 1000000001 hr=100", "commit", *later) as (script, new):
        ride, whole = pathlib.Path(new()), pathlib.Path(new(), "out.fit")
        traced.run("replay", "--checked", script, ride)
        (data, journal), (_, line, _) = holds(ride), traced.run("save", ride, whole)[0]
        counts = 14 + counted(journal)
        for end in (0, 1, 13, 14, 15, 40, counts - 1, counts, counts + 1, counts + 40, 512, len(data) - 1):
            out = pathlib.Path(new(), "out.fit")
            said, _ = traced.run("save", ride, out, end=end)
            if end < counts:
                expected = (1, "", "fitrec: %s\n" % body_unread(end)), None
                yield "a body that cannot be read: save", differs((said, bytes_of(out)), expected, end)
            else:
                count = uncommitted(data[:end], journal)
                expected = (0, line, UNREAD_FROM % ("activity.fit", end) + LEFT_OUT % count * bool(count)), whole.read_bytes()
                yield "a tail that cannot be read: save", differs((said, bytes_of(out)), expected, end)
            copy = pathlib.Path(new())
            for name, content in zip(NAMES, (data, journal)):
                (copy / name).write_bytes(content)
            said, _ = traced.run("repair", copy, end=end)
            expected = (0, line, "") if end >= counts else (1, "", "fitrec: Device\n")
            yield "a tail that cannot be read: repair", differs(said, expected, end)
            file = copy / "in.fit"
            file.write_bytes(data)
            for words in ((), ("--all",), ("--plain",)):
                said, _ = traced.run("salvage", *words, file, out, end=end)
                if end < 14:
                    yield "a header that cannot be read: salvage", differs(said, (1, "", "fitrec: cannot read %s\n" % file), end)
                else:
                    (_, kept, fault), content = wanted_salvage(data[:end], "--all" in words)
                    content = plained(content)[1] if words == ("--plain",) else content
                    expected = (0, kept, UNREAD_FROM % (file, end) + fault), content
                    yield "a tail that cannot be read: salvage", differs((said, bytes_of(out)), expected, end)
            for words in (["--skip"], ["--finish"], ["--skip", "--finish"]):
                said, _ = traced.run("salvage", *words, file, out, end=end)
                if end < 14:
                    expected = 1, "fitrec: cannot read %s\n" % file
                elif words != ["--skip"] and end < counts:
                    # Without a file_id or a sample nothing is finished.
                    continue
                else:
                    expected = 0, UNREAD_FROM % (file, end) + wanted_salvage(data[:end], False)[0][2]
                yield "a tail that cannot be read: salvage %s" % " ".join(words), differs((said[0], said[2]), expected, end)
            for command in ("show", "check", "plain"):
                said, _ = traced.run(command, file, *[out] * (command == "plain"), end=end)
                yield "a tail that cannot be read: " + command, differs((said[0], said[2]), (1, "fitrec: cannot read %s\n" % file), end)
        # Nothing was committed, and nothing can be read.
        (ride / NAMES[1]).write_bytes(journal[:8] + bytes(16))
        said, _ = traced.run("save", ride, out, end=0)
        no_commit = "fitrec: NothingRecorded\nfitrec: activity.frj states no commit; salvage copies what is readable of activity.fit\n"
        yield "a tail that cannot be read: nothing recorded", differs(said, (1, "", no_commit))


def files_byte_by_byte(traced, seed):
    """Whatever a file is refused for, it is refused for the same if it is read byte by byte."""
    pick, kinds = random.Random(seed), set()
    with tempfile.TemporaryDirectory() as folder:
        file = pathlib.Path(folder) / "in.fit"
        for _ in range(150):
            data = made(pick)
            data = damaged(pick, data) if pick.random() < 0.7 else data
            file.write_bytes(data)
            said, _ = traced.run("show", file, call="read", number=0, most=1)
            kinds.add(wanted(data)[2].replace("(", " ").split(" ")[1:2][0] if wanted(data)[0] else "shown")
            yield "byte by byte", differs(said, wanted(data), data)
    must_be = {"shown", "Truncated", "HeaderSize", "Protocol", "Magic", "HeaderCrc", "UndefinedLocal", "SplitMessage", "FileCrc", "TrailingBytes"}
    yield "refusals byte by byte", differs(must_be - kinds, set())


def check(given):
    yield from given.checks(limits, given.fitrec)
    with tracing(given.fitrec) as traced:
        yield from given.checks(known_to_be_too_large, traced)
        yield from given.checks(calls_that_go_wrong, traced, given.small)
        yield from given.checks(tails_that_cannot_be_read, traced)
        yield from given.checks(files_byte_by_byte, traced, given.seed)
