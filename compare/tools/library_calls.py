"""Compares a program that makes the calls of the library for C with fitrec, byte for byte: compare/library.c over the library, or
compare/module.mjs over the module of the page."""

import itertools
import pathlib
import random
import re
import shutil
import tempfile

import joining
from finishing import Maker, recorded, ride
from tools import reader
from tools.checks import differs
from tools.described_files import described_file
from tools.fit_files import compressed_ride, damaged, framed, long_content, made, widest
from tools.holes import messages as found_in, numbers
from tools.program import NAMES, bytes_of, holds, room, run
from tools.reader import checksum, names_of
from tools.rides import damaged_pair, script_of, uncommitted

# The most bytes that a repair and a salvage may add.
CLOSING, FRAME = 254, 16
# The answer that each line of the program on standard error stands for: of a recording, and of a file.
ANSWERS = {"NothingRecorded": 7, "Damaged": 8, "Truncated": 1, "HeaderSize": 2, "Magic": 3, "Protocol": 4, "HeaderCrc": 5, "UndefinedLocal": 6,
           "SplitMessage": 7, "FileCrc": 8, "TrailingBytes": 9, "NoFileId": 11, "NotActivity": 12, "NoLap": 13, "NoSession": 14, "NoActivity": 15,
           "TooLong": 21, "TooLarge": 21, "NoSample": 26, "NoTime": 27,
           "TimeTooFar": 28}


def answer_of(said):
    """The answer that corresponds to what the program prints."""
    if "have changed" in said[2]:
        return 16
    return 0 if said[0] == 0 else ANSWERS[re.match(r"fitrec: (\w+)", said[2])[1]]


def repaired(fitrec, program, folder, spare=CLOSING):
    """What differs between a repair by the library and one by the program."""
    with tempfile.TemporaryDirectory() as scratch:
        copy, out = scratch + "/copy", pathlib.Path(scratch, "out.fit")
        shutil.copytree(folder, copy)
        mine = run(program, "repair", spare, *[pathlib.Path(folder, name) for name in NAMES], out)
        said = run(fitrec, "repair", copy)
        expected = 0, "%d\n%s" % (answer_of(said), said[1]), ""
        return differs((mine, bytes_of(out)), (expected, bytes_of(pathlib.Path(copy, "activity.fit"))))


def saved(fitrec, program, folder):
    """What differs between a save by the library and one by the program."""
    with tempfile.TemporaryDirectory() as scratch:
        out, its = pathlib.Path(scratch, "out.fit"), pathlib.Path(scratch, "its.fit")
        mine = run(program, "save", *[pathlib.Path(folder, name) for name in NAMES], out)
        said = run(fitrec, "save", folder, its)
        return differs((mine, bytes_of(out)), ((0, "%d\n%s" % (answer_of(said), said[1]), ""), bytes_of(its)))


def left_out(fitrec, program, folder):
    """What differs between the library and the program in what they leave out: whole messages after the last commit, and, if what it counts
    has changed, the commit itself."""
    with tempfile.TemporaryDirectory() as scratch:
        out, its = pathlib.Path(scratch, "out.fit"), pathlib.Path(scratch, "its.fit")
        files = [pathlib.Path(folder, name) for name in NAMES]
        more = run(program, "uncommitted", *files)
        said = run(fitrec, "save", "--earlier", folder, its)
        found = re.search(r"(\d+) bytes of the last commit", said[2])
        left = "0\nleft out %s\n" % found[1] if found else "17\n"
        mine = run(program, "earlier", *files, out)
        mine = mine if found or said[0] == 0 else (mine[0], re.sub(r"^0\nleft out \d+\n", "17\n", mine[1]), mine[2])
        counts, saves = (0, "%d\n" % uncommitted(*holds(folder)), ""), (0, "%s%d\n%s" % (left, answer_of(said), said[1]), "")
        return differs((more, mine, bytes_of(out)), (counts, saves, bytes_of(its)))


def of_recordings(fitrec, program, count, seed):
    """A ride after each of its lines, stopped, repaired and resumed; and pairs of files that are damaged at random."""
    pick = random.Random(seed)
    with room() as (script, new):
        lines = script_of(20, 4).splitlines()
        for most in range(len(lines) + 1):
            folder = new()
            script.write_text("\n".join(lines[:most]))
            run(fitrec, "replay", script, folder)
            yield "a ride", repaired(fitrec, program, folder)
            yield "a ride that is saved", saved(fitrec, program, folder)
            yield "what a ride leaves out", left_out(fitrec, program, folder)
        whole = holds(folder)
        for _ in range(count):
            for name, content in zip(NAMES, damaged_pair(pick, whole)):
                pathlib.Path(folder, name).write_bytes(content)
            yield "a damaged pair", repaired(fitrec, program, folder)
            yield "a damaged pair that is saved", saved(fitrec, program, folder)
            yield "what a damaged pair leaves out", left_out(fitrec, program, folder)
        for name, content in zip(NAMES, whole):
            pathlib.Path(folder, name).write_bytes(content)
        said = run(program, "repair", CLOSING - 1, *[pathlib.Path(folder, name) for name in NAMES], pathlib.Path(folder, "out.fit"))
        yield "a buffer with too little room", differs((said, bytes_of(pathlib.Path(folder, "out.fit"))), ((0, "10\n", ""), whole[0]))
        script.write_text(script_of(20, 4))
        run(fitrec, "replay", "--checked", script, folder := new())
        changed = bytearray(holds(folder)[0])
        changed[100] ^= 1
        pathlib.Path(folder, NAMES[0]).write_bytes(changed)
        yield "a changed body that is saved", saved(fitrec, program, folder)
        yield "what a changed body leaves out", left_out(fitrec, program, folder)
        changed[100] ^= 1
        changed[-1] ^= 1
        pathlib.Path(folder, NAMES[0]).write_bytes(changed)
        yield "what a changed end leaves out", left_out(fitrec, program, folder)
        changed[-1] ^= 1
        changed[100] ^= 1
        pathlib.Path(folder, NAMES[0]).write_bytes(changed)
        said = run(program, "repair", CLOSING, *[pathlib.Path(folder, name) for name in NAMES], pathlib.Path(folder, "out.fit"))
        yield "a changed body", differs((said, bytes_of(pathlib.Path(folder, "out.fit"))), ((0, "16\n", ""), bytes(changed)))
        said = run(program, "lengths", *[pathlib.Path(folder, name) for name in NAMES])
        yield "lengths that do not fit", differs(said, (0, "9 9 9 7 9 9\n", ""))


def of_files(fitrec, program, count, seed):
    """Files without a journal, whole and damaged."""
    pick = random.Random(seed)
    with tempfile.TemporaryDirectory() as folder:
        source, mine, its = (pathlib.Path(folder, name) for name in ("in.fit", "mine.fit", "its.fit"))
        for at in range(count):
            source.write_bytes(damaged(pick, made(pick)) if at % 4 else made(pick))
            for every in (False, True):
                said = run(program, "salvage", FRAME, source, mine, int(every))
                wanted = run(fitrec, "salvage", *["--all"] * every, source, its)
                kept = re.match(r"\d+\n(kept \d+ of \d+), (\d+) not looked at\n$", said[1]) or ["", said[1], "0"]
                left = re.match(r"fitrec: (\d+) bytes after", wanted[2]) if wanted[0] == 0 else None
                found = said[1].split("\n")[0], kept[1] + "\n" if wanted[0] == 0 else "", int(kept[2]), bytes_of(mine)
                expected = str(answer_of(wanted)), wanted[1], int(left[1]) if left else 0, bytes_of(its)
                yield "a salvage", differs(found, expected)
                mine.unlink(missing_ok=True)
                its.unlink(missing_ok=True)
        source.write_bytes(made(pick))
        # The new header may have two bytes more.
        said = run(program, "salvage", 2, source, mine, 0)
        yield "a salvage of a whole file needs two bytes more", differs(said[1].split("\n")[0], "0")


def skipped(fitrec, program, source, mine, its, every):
    """What differs between a file of which a fault is skipped by the library and one by the program, with the lines of its pieces."""
    said = run(program, "skip", source, mine, int(every))
    wanted = run(fitrec, "salvage", "--skip", *["--all"] * every, source, its)
    answer, _, lines = said[1].partition("\n")
    kept = re.match(r"(kept \d+ of \d+), (\d+) not looked at\n", lines)
    pieces = re.findall(r"(?m)^(kept|left out) (\d+) to (\d+)$", lines)
    places = [(int(start), int(end)) for _, start, end in pieces]
    printed = "%s, parts %d\n" % (kept[1], sum(word == "kept" for word, _, _ in pieces)) if kept else ""
    printed += "".join("left out %d at %d\n" % (end - start, start) for (word, _, _), (start, end) in zip(pieces, places) if word != "kept")
    data, file = source.read_bytes(), bytes_of(mine)
    joined = b"".join(data[start:end] for (word, _, _), (start, end) in zip(pieces, places) if word == "kept")
    left = re.match(r"fitrec: (\d+) bytes after", wanted[2]) if wanted[0] == 0 else None
    found = answer, printed, int(kept[2]) if kept else 0, file, file and file[14:-2], all(a[1] == b[0] for a, b in zip(places, places[1:]))
    new = bytes_of(its)
    difference = differs(found, (str(answer_of(wanted)), wanted[1], int(left[1]) if left else 0, new, new and joined, True), data)
    mine.unlink(missing_ok=True)
    its.unlink(missing_ok=True)
    return difference


def splits(fitrec, program, source, folder):
    """What differs between the files that the library and the program find in a chained one. The program refuses what has none."""
    said, wanted = run(program, "split", source), run(fitrec, "split", source, folder)
    lines = ["%s.fit: %s bytes" % (number, size) for number, size in enumerate(said[1].split(), 1)]
    found = (0, "") if lines else (1, "fitrec: no FIT file in %s\n" % source)
    return differs((said[0], said[2], lines), (0, "", [line.partition(",")[0] for line in wanted[1].splitlines()])) \
        or differs((wanted[0], wanted[2]), found)


def with_a_hole(pick, data):
    """Bytes with some of them replaced, taken out or put in."""
    at = pick.randrange(len(data) + 1)
    end = min(len(data), at + pick.randrange(40))
    return data[:at] + pick.choice([b"", pick.randbytes(end - at), bytes(end - at), pick.randbytes(pick.randrange(40))]) + data[end:]


def of_mended(fitrec, program, count, seed):
    """Files whose faults are skipped, and chained files."""
    pick = random.Random(seed)
    with room() as (script, new):
        folder = pathlib.Path(new())
        source, mine, its = (folder / name for name in ("in.fit", "mine.fit", "its.fit"))
        script.write_text(script_of(60, 4))
        run(fitrec, "replay", script, ride := new())
        whole = holds(ride)[0]
        files = [b"", whole, whole[14:], whole[:14], whole + whole, bytes(100), pick.randbytes(3000)]
        for _ in range(count):
            data = with_a_hole(pick, whole)
            files += [data, with_a_hole(pick, data), damaged(pick, made(pick)), with_a_hole(pick, made(pick))]
        for data in files:
            source.write_bytes(data)
            for every in (False, True):
                yield "a file whose faults are skipped", skipped(fitrec, program, source, mine, its, every)
        for at in range(count + 1):
            chain = [made(pick) for _ in range(at % 4)]
            source.write_bytes(b"".join(chain) + pick.choice([b"", b"\0\1\2", whole[:100]]))
            yield "chained files", splits(fitrec, program, source, new())


def finishing(program, source, mine, wanted, refusal, its):
    """What differs between the finished file of a file by the library and what the program answers with --finish, whose file is `its`.
    `refusal` is what a check of the file answers."""
    said, place = run(program, "finish", source, mine), place_in(refusal)
    if place:
        lines, its = "%d\nat %s\n" % (answer_of(refusal), place[1]), None
    else:
        lines = "%d\n%s" % (answer_of(wanted), "".join(wanted[1].splitlines(True)[1:]).replace(", file_id added", ""))
    difference = differs((said, bytes_of(mine)), ((0, lines, ""), its))
    mine.unlink(missing_ok=True)
    return difference


def short_header(data):
    """A file of the same records with a header of 12 bytes."""
    start = b"\x0c" + data[1:12] + data[14:-2]
    return start + checksum(start).to_bytes(2, "little")


def of_finished(fitrec, program, count, seed):
    """Activities of other makers and rides of our own, whole, cut off, plain and damaged, and files that are made at random: what the
    program makes of them with --finish, the library makes of what a salvage keeps."""
    pick = random.Random(seed)
    with room() as (script, new):
        folder = pathlib.Path(new())
        source, kept, mine, its = (folder / name for name in ("in.fit", "kept.fit", "mine.fit", "its.fit"))
        whole = [Maker(pick).activity() for _ in range(count)]
        whole += [(recorded(fitrec, script, new, ride(pick)) / "activity.fit").read_bytes() for _ in range(count // 2)]
        files = whole + [it[:pick.randrange(len(it) + 1)] for it in whole] + [damaged(pick, it) for it in whole] + [made(pick) for _ in range(count)]
        for content in files:
            for words in (), ("--plain",):
                source.write_bytes(content)
                wanted = run(fitrec, "salvage", "--finish", *words, source, its)
                done = bytes_of(its)
                if run(fitrec, "salvage", *words, source, kept)[0] == 0:
                    yield "a finished activity", finishing(program, kept, mine, wanted, run(fitrec, "check", kept), done)
                    source.write_bytes(short_header(kept.read_bytes()))
                    yield "one with a short header", finishing(program, source, mine, wanted, (0, "", ""), done and short_header(done))
                if done:
                    yield "a finished file again", finishing(program, its, mine, run(fitrec, "salvage", "--finish", its, source), (0, "", ""), done)
                its.unlink(missing_ok=True)
                kept.unlink(missing_ok=True)
            source.write_bytes(content)
            refusal = run(fitrec, "check", source)
            if place_in(refusal):
                yield "no file to be finished", finishing(program, source, mine, None, refusal, None)


def place_in(said):
    """The place that the first line of the program's standard error gives for a fault, or None."""
    return re.match(r"fitrec: \w+(?:\(\d+\))? at (\d+)$", said[2].partition("\n")[0])


def answers_that_differ(fitrec, program, source, mine):
    """What differs between the answers of the library and of the program about a file: its text and its JSON, with dates and without, and
    its check."""
    for words, part in (((), "show"), (("--utc",), "show"), (("--json",), "json"), (("--json", "--utc"), "json"), ((), "check")):
        wanted = run(fitrec, "check" if part == "check" else "show", *words, source)
        said = run(program, "check", source) if part == "check" else run(program, part, source, int("--utc" in words), mine)
        place = place_in(wanted)
        lines = "%d\n%s" % (answer_of(wanted), "at %s\n" % place[1] if place else wanted[1] if part == "check" else "")
        yield part, differs((said, bytes_of(mine)), ((0, lines, ""), wanted[1].encode() if part != "check" and not wanted[0] else None))
        mine.unlink(missing_ok=True)


def in_columns(fitrec, program, source, message, fields):
    """What differs between the columns of a file by the library and its table by the program."""
    name, names = names_of(message)
    names = ",".join(names.get(it, "field_%d" % it) for it in fields)
    wanted = run(fitrec, "table", "--raw", "--message", name or "message_%d" % message, "--fields", names, source)
    said = run(program, "columns", source, message, ",".join(map(str, fields)))
    place = place_in(wanted)
    lines = "at %s\n" % place[1] if place else wanted[1].replace("\r\n", "\n").partition("\n")[2]
    return differs(said, (0, "%d\n%s" % (answer_of(wanted), lines), ""))


def plainly(fitrec, program, source, mine, its):
    """What differs between the plain form by the library, which gives a place only for a fault of the file, and by the program."""
    said, wanted = run(program, "plain", source, mine), run(fitrec, "plain", source, its)
    answer = answer_of(wanted)
    place = place_in(wanted)
    lines = "%d\n%s" % (answer, "at %s\n" % place[1] if 1 <= answer <= 9 else "")
    difference = differs((said, bytes_of(mine)), ((0, lines, ""), bytes_of(its)))
    mine.unlink(missing_ok=True)
    its.unlink(missing_ok=True)
    return difference


def shifted(fitrec, program, source, mine, its, how, number):
    """What differs between a file whose times are moved by the library, which gives a place only for a fault of the file and for a time that
    is too far, and by the program."""
    said, wanted = run(program, how, number, source, mine), run(fitrec, "shift", "--start" if how == "start" else "--by", number, source, its)
    answer, place = answer_of(wanted), place_in(wanted)
    lines = "%d\n%s" % (answer, "at %s\n" % place[1] if 1 <= answer <= 9 or answer == ANSWERS["TimeTooFar"] else "")
    difference = differs((said, bytes_of(mine)), ((0, lines, ""), bytes_of(its)), (how, number))
    mine.unlink(missing_ok=True)
    its.unlink(missing_ok=True)
    return difference


def beyond(program, source, mine):
    """What differs, for a file with a time, from the answer to more seconds than there are times: the place of the first message that has one."""
    least = run(program, "shift", 4294967294, source, mine), run(program, "shift", -4294967294, source, mine)
    for seconds, said in (1 << 62, least[0]), (-(1 << 63), least[1]):
        yield differs(run(program, "shift", seconds, source, mine), said, seconds)


def of_shifted(fitrec, program, count, seed):
    """Files that are made at random, whole and damaged, rides, and files at their limits, whose times are moved by seconds and to a start;
    and by more seconds than the program takes, which no time of a ride is moved by."""
    pick = random.Random(seed)
    with room() as (script, new):
        folder = pathlib.Path(new())
        source, mine, its = (folder / name for name in ("in.fit", "mine.fit", "its.fit"))
        files = [made(pick) for _ in range(2 * count)] + [damaged(pick, made(pick)) for _ in range(count // 2)]
        script.write_text(script_of(20, 4))
        run(fitrec, "replay", script, new_ride := new())
        rides = [holds(new_ride)[0], compressed_ride(40)]
        # a definition that announces developer fields and has none, before the message that is refused
        record = bytes([0x41, 0, 0, 20, 0, 2, 253, 4, 0x86, 3, 1, 2])
        longer = framed(bytes([0x60, 0, 0, 20, 0, 0, 0]) + record + b"\1" + (100).to_bytes(4, "little") + b"d\1" + (5).to_bytes(4, "little") + b"d")
        for content in files + rides + [longer, widest(254), widest(255), long_content(65536), framed(b""), b""]:
            source.write_bytes(content)
            for how, numbers in ("shift", [pick.choice([0, 1, -1, -6, 31, -32, 3600, 1 << 31, 4294967294, -4294967294])]), ("start", [5000, 1100000000]):
                for number in numbers:
                    yield "times that are moved", shifted(fitrec, program, source, mine, its, how, number)
        for content in rides:
            source.write_bytes(content)
            for difference in beyond(program, source, mine):
                yield "more seconds than there are times", difference


def refused_of(program, chain, source, as_given):
    """The answer to a join of these bytes by the second reader, and the place that it names, if it names one. The places at which the files
    are cut are the library's."""
    source.write_bytes(chain)
    parts, at = [], 0
    for size in [int(it) for it in run(program, "split", source)[1].split()] or [0]:
        own = chain[at:at + size]
        if len(parts) == 64:
            return 32, None
        try:
            parts.append(joining.stated(own))
        except reader.Refused as refused:
            kind, place = re.match(r"(\w+).* at (\d+)", str(refused)).groups()
            return ANSWERS[kind], at + int(place)
        row = numbers(own[:-2])[1]
        if any(row[it.start] & 0x80 for it in found_in(row)):
            return 31, at
        at += size
    found = None if as_given else joining.misfit(parts)
    if found:
        sizes = [int(it) for it in run(program, "split", source)[1].split()]
        return {"OtherSport": 29, "Overlap": 30}[found[1]], sum(sizes[:found[0]])
    return 0, list(joining.texts(joining.joined(parts)))


def joined(program, chain, source, mine, as_given):
    """What differs between the parts that the library joins and the second reader's."""
    answer, known = refused_of(program, chain, source, as_given)
    said = run(program, "join", int(as_given), source, mine)
    lines = "%d\n%s" % (answer, "at %d\n" % known if answer and known is not None else "")
    new = bytes_of(mine)
    mine.unlink(missing_ok=True)
    return differs((said, new and joining.shown_of(new)), ((0, lines, ""), None if answer else known), (chain, as_given))


def of_joined(fitrec, program, count, seed):
    """The first times of files, and parts that are joined: activities of other makers in any order, cut rides, damaged ones, more than 64 and
    none."""
    pick = random.Random(seed)
    with room() as (_, new):
        folder = pathlib.Path(new())
        source, mine, its = (folder / name for name in ("in.fit", "mine.fit", "its.fit"))
        chains = [b"", framed(b""), framed(b"") * 64, framed(b"") * 65, compressed_ride(40)]
        for _ in range(max(count, 4)):
            parts, time = [], 1000000000
            for _ in range(pick.choice([1, 2, 2, 3])):
                maker = Maker(pick)
                maker.time = time
                parts.append(reader.plained(maker.activity())[1])
                time = maker.time + pick.choice([0, 1, 600, 600, -40])
            if pick.random() < 0.3:
                pick.shuffle(parts)
            chains += [b"".join(parts), damaged(pick, b"".join(parts)), b"".join(parts) + compressed_ride(5)]
            for part in parts + [damaged(pick, parts[0]), framed(b"")]:
                source.write_bytes(part)
                try:
                    time = joining.first_time(joining.stated(part))
                    wanted = "27\n" if time is None else "0\n%d\n" % time
                except reader.Refused as refused:
                    kind, place = re.match(r"(\w+).* at (\d+)", str(refused)).groups()
                    wanted = "%d\nat %s\n" % (ANSWERS[kind], place)
                yield "the first time of a file", differs(run(program, "first", source), (0, wanted, ""), part)
        for chain in chains:
            for as_given in False, True:
                yield "parts that are joined", joined(program, chain, source, mine, as_given)
        parts = joining.halves(recorded_ride(fitrec, new, pick), 7, 12)
        plains = []
        for at, part in enumerate(parts):
            (folder / ("%d.fit" % at)).write_bytes(part)
            run(fitrec, "plain", folder / ("%d.fit" % at), its)
            plains.append(its.read_bytes())
        source.write_bytes(b"".join(plains))
        run(program, "join", 0, source, mine)
        finished = run(program, "finish", mine, folder / "whole.fit")[1].partition("\n")[0], bytes_of(folder / "whole.fit")
        said = run(fitrec, "join", its, *[folder / ("%d.fit" % at) for at in range(len(parts))])
        yield "a ride that is joined and finished", differs(finished, (str(answer_of(said)), bytes_of(its)))


def recorded_ride(fitrec, new, pick):
    """A ride of our own, saved."""
    folder = pathlib.Path(new())
    script = folder / "script"
    script.write_text(script_of(20, 4))
    run(fitrec, "replay", script, ride_in := new())
    run(fitrec, "save", ride_in, folder / "saved.fit")
    return (folder / "saved.fit").read_bytes()


def all_fields(data, message):
    """For each message with this number, by the second reader, its place in the file, and by the codes of its fields, in their order, where
    each begins, its size, its base type byte, its byte order and its bytes."""
    rows = []
    for place, (number, fields, developer) in enumerate(reader.messages(data, False, lambda *it: it, lambda time: None)[3]):
        coded = [(field, *it) for field, it in fields if it]
        coded += [(256 * (index + 1) + field, 255, big, content) for index, field, big, content in developer]
        ends = itertools.accumulate((len(content) for *_, content in coded), initial=0)
        row = [(code, (at, len(content), base, int(big and content != b""), content)) for at, (code, base, big, content) in zip(ends, coded)]
        if number == message:
            rows.append((place, row))
    return rows


def refusal_of(data):
    """The lines of the answer for bytes that are no file; None for a file."""
    try:
        reader.messages(data, False, lambda *it: it)
    except reader.Refused as refused:
        kind, place = re.match(r"(\w+)(?:\(\d+\))? at (\d+)$", str(refused)).groups()
        return "%d\nat %s\n" % (ANSWERS[kind], place)
    return None


def holding(size, base):
    """What a field of this size and type holds: 1 for nothing, 2 for one whole number of at most 4 bytes, 3 for other values."""
    name, own, _ = reader.BASE_TYPES.get(base, ("", 0, 0))
    return 1 if size == 0 else 2 if size == own <= 4 and name not in ("string", "float32") else 3


def value_line(place, value):
    """A line of a value: the place of its message, where it begins, its size, base type byte and byte order, and its bytes."""
    return "%d %d %d %d %d %s\n" % (place, *value[:4], value[4].hex())


def of_values(_, program, count, seed):
    """Which fields the messages of files have, and their values of every type, against the second reader."""
    pick = random.Random(seed)
    with tempfile.TemporaryDirectory() as folder:
        source = pathlib.Path(folder, "in.fit")
        for at in range(4 * count):
            data = damaged(pick, made(pick)) if at % 4 == 0 else described_file(pick) if at % 4 == 1 else made(pick)
            source.write_bytes(data)
            refusal = refusal_of(data)
            numbers = [] if refusal else [it[0] for it in reader.messages(data, False, lambda *it: it)[3]]
            for message in sorted({20, 206, *pick.sample(numbers, min(3, len(numbers)))}):
                rows, held = [] if refusal else all_fields(data, message), {}
                for code, (_, size, base, *_) in (it for _, row in rows for it in row):
                    held[code] = max(held.get(code, 0), holding(size, base))
                wanted = refusal or "0\n" + "".join("%d %d\n" % it for it in sorted(held.items()))
                yield "the fields of a file", differs(run(program, "held", source, message), (0, wanted, ""), data)
                codes = [*pick.sample([*held], min(pick.choice([0, 1, 5, 127]), len(held))), pick.randrange(65792)]
                firsts = [(place, dict(reversed(row))) for place, row in rows]
                lines = [value_line(place, row.get(code, (0, 0, 0, 0, b""))) for place, row in firsts for code in codes]
                said = run(program, "values", source, message, ",".join(map(str, codes)))
                yield "the values of a file", differs(said, (0, refusal or "0\n" + "".join(lines), ""), data)


def of_shown_and_checked(fitrec, program, count, seed):
    """Files that are shown and checked: whole, damaged, cut short and continued."""
    pick = random.Random(seed)
    with room() as (script, new):
        folder = pathlib.Path(new())
        source, mine = folder / "in.fit", folder / "mine.txt"
        files = [made(pick) for _ in range(count)]
        files += [damaged(pick, made(pick)) for _ in range(3 * count)]
        script.write_text(script_of(20, 4))
        run(fitrec, "replay", script, new_ride := new())
        ride = holds(new_ride)[0]
        files += [ride[:length] for length in range(0, len(ride), max(1, len(ride) // 60))] + [ride, ride + b"\0", b""]
        for content in files:
            source.write_bytes(content)
            for part, difference in answers_that_differ(fitrec, program, source, mine):
                yield "a file by the library: " + part, difference
            yield "columns of records", in_columns(fitrec, program, source, 20, [253, 3, 0, 13])
            yield "a plain form", plainly(fitrec, program, source, mine, folder / "its.fit")
        yield "its version", differs(run(program, "version"), (0, "1\n", ""))
