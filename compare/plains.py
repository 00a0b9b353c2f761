"""Compares `fitrec plain` with the second reader, over random files, whole and damaged, over a ride, and at its limits."""

import pathlib
import random
import re
import tempfile

from tools.checks import differs, unless
from tools.fit_files import damaged, kind_of, long_content, made, many_messages, too_long_at_792, widest
from tools.places import OLD, Place
from tools.program import bytes_of, may_take, room, run
from tools.reader import Refused, plained
from tools.rides import script_of

NEEDS = ("fitrec",)


def said_of(data):
    """The status and the line of a run over these bytes, and the file that it has to make."""
    try:
        count, file = plained(data)
        return (0, "messages %d\n" % count, ""), file
    except Refused as refused:
        return (1, "", refused.lines), None


def messages_of(fitrec, file):
    """What is shown of a file, without the line of its header."""
    status, text, fault = run(fitrec, "show", file)
    return status, text.partition("\n")[2], fault


def judge(fitrec, folder, number, data):
    """How a run ends, and how it differs from the second reader. The new file is shown as the file that it was made of, and is its own
    plain form."""
    source, out, again = (pathlib.Path(folder) / ("%d.%s" % (number, name)) for name in ("in", "out", "again"))
    source.write_bytes(data)
    said, file = said_of(data)
    is_, expected = [(run(fitrec, "plain", source, out), bytes_of(out))], [(said, file)]
    if file is not None:
        is_ += [messages_of(fitrec, out), run(fitrec, "plain", out, again), bytes_of(again)]
        expected += [messages_of(fitrec, source), said, file]
    for path in (source, out, again):
        path.unlink(missing_ok=True)
    return "made" if file is not None else kind_of(said[2], ""), differs(is_, expected, data)


def made_files(given):
    """Random files, whole and damaged."""
    pick, count = random.Random(given.seed), given.files // 4
    inputs = [made(pick) for _ in range(count)]
    inputs += [damaged(pick, made(pick)) for _ in range(count // 3)]
    with room() as (place, _):
        yield from given.judged(lambda number, data: judge(given.fitrec, place.parent, number, data), inputs)


def a_ride(fitrec):
    """A ride of the recorder."""
    with room(*script_of(40, 7).splitlines()) as (script, new):
        folder = new()
        run(fitrec, "replay", script, folder)
        yield judge(fitrec, folder, 0, pathlib.Path(folder, "activity.fit").read_bytes())


def limits(fitrec):
    """A definition that has room for one more field, and one that has none; long content; a million messages; and little memory."""
    with tempfile.TemporaryDirectory() as folder:
        for fields in (254, 255):
            yield "the widest definition", judge(fitrec, folder, fields, widest(fields))[1]
        place = Place(folder, too_long_at_792())
        said = run(fitrec, "plain", place.source, place.out)
        yield "the place of an item", differs(said, (1, "", "fitrec: TooLong at 792\n"))
        for size in (65535, 65536, 130050):
            yield "long content", judge(fitrec, folder, size, long_content(size))[1]
        place = Place(folder, widest(255))
        said = run(fitrec, "plain", place.source, place.out)
        expected = (1, "", "fitrec: TooLong at 2062\n"), (OLD, ["in.fit", "out.fit"])
        yield "refused, and nothing made", differs((said, place.left()), expected)
        data = many_messages(1000000)
        place = Place(folder, data)
        said = run(fitrec, "plain", place.source, place.out)
        yield "a million messages", differs((said, place.out.read_bytes() == data), ((0, "messages 1000000\n", ""), True))
        said = run(fitrec, "plain", place.source, place.source)
        yield "made in its own place", differs((said, place.source.read_bytes() == data), ((0, "messages 1000000\n", ""), True))
    yield "little memory", little_memory(fitrec)


def little_memory(fitrec):
    """With more and more memory: nothing is made and one line reports why, until the file is made."""
    data, reported, limit = many_messages(300000), set(), 1 << 20
    while True:
        limit += 1 << 16
        with tempfile.TemporaryDirectory() as folder:
            place = Place(folder, data)
            status, text, fault = run(fitrec, "plain", place.source, place.out,
                                      preexec_fn=may_take(limit))
            if status == 0:
                return differs((text, bytes_of(place.out) == data, reported), ("messages 300000\n", True, {"at once", "at an item"}))
            line = re.fullmatch(r"fitrec: (?:NoMemory|Memory at (\d+))\n", fault)
            # Without memory for the program itself, it does not start, or the system ends it.
            if status == 1:
                reported.add("at an item" if line and line[1] not in (None, "0") else "at once")
                if not line or text or place.left() != (OLD, ["in.fit", "out.fit"]):
                    return unless(False, (limit, status, text, fault, place.left()), "one line on the want of memory")


def check(given):
    yield from given.checks(made_files, given)
    for group in (a_ride, limits):
        yield from given.checks(group, given.fitrec)
