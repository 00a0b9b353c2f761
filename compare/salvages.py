"""Compares `fitrec salvage` with the second reader, over random files, whole and damaged, and at its limits. With --plain its file is
the plain form of the file without it."""

import random
import tempfile

from tools.checks import differs
from tools.fit_files import MOST, damaged, framed, kind_of, made, many_messages, too_long_at_792
from tools.places import OLD, Place
from tools.program import bytes_of, room, run
from tools.reader import Refused, plained, wanted, wanted_salvage

NEEDS = ("fitrec",)


def plain_of(said, file):
    """What a plain salvage has to give, where one without --plain gives this."""
    try:
        return said, plained(file)[1] if file is not None else None
    except Refused as refused:
        return (1, "", refused.lines), None


def judge(fitrec, folder, number, data, everything):
    """How a salvage ends, and how it differs from the second reader. The new file is valid, and its own salvage."""
    source, out, plain, again = (folder / ("%d.%s" % (number, name)) for name in ("in", "out", "plain", "again"))
    source.write_bytes(data)
    (status, line, fault), file = wanted_salvage(data, everything)
    words = ["salvage", *["--all"] * everything, source]
    is_, expected = [(run(fitrec, *words, out), bytes_of(out))], [((status, line, fault), file)]
    is_.append((run(fitrec, *words, "--plain", plain), bytes_of(plain)))
    expected.append(plain_of(*expected[0]))
    if file is not None:
        is_ += [run(fitrec, "show", out), run(fitrec, "salvage", out, again), bytes_of(again)]
        size = len(file) - 16
        # The new file is shown, not refused.
        expected += [(0, *wanted(file)[1:]), (0, "kept %d of %d\n" % (size, size or 2), ""), file]
    for path in (source, out, plain, again):
        path.unlink(missing_ok=True)
    kind = ("kept, not all read" if fault else "kept") if status == 0 else kind_of(fault, "")
    return kind, differs(is_, expected, data)


def made_files(given):
    """Random files, whole and damaged once or twice."""
    pick = random.Random(given.seed)
    inputs = []
    for _ in range(given.files // 6):
        data = made(pick)
        for _ in range(pick.choice([0, 1, 1, 2])):
            data = damaged(pick, data) or data
        inputs += [(data, False), (data, True)]
    with room() as (place, _):
        yield from given.judged(lambda number, row: judge(given.fitrec, place.parent, number, *row), inputs)


def limits(fitrec):
    """Many messages, and the largest file."""
    with tempfile.TemporaryDirectory() as folder:
        place = Place(folder, many_messages(1000000))
        said = run(fitrec, "salvage", place.source, place.out)
        same = place.out.read_bytes() == place.source.read_bytes()
        yield "a million messages", differs((said, same), ((0, "kept 1000006 of 1000006\n", ""), True))
        # The place is in the file that is made without --plain, whose header has two bytes more.
        data = too_long_at_792()
        place = Place(folder, bytes([12]) + data[1:12] + data[14:-2])
        said = run(fitrec, "salvage", "--plain", place.source, place.out), place.left()
        yield "no plain form", differs(said, ((1, "", "fitrec: TooLong at 792\n"), (OLD, ["in.fit", "out.fit"])))
        # Zeros after a definition without fields are messages, up to the last byte.
        with open(place.source, "wb") as file:
            file.write(framed(bytes([0x40, 0, 0, 20, 0, 0]))[:-2])
            file.seek(4)
            file.write(bytes(4))
            file.truncate(MOST)
        said = run(fitrec, "salvage", place.source, place.out)
        expected = (0, "kept %d of %d\n" % (MOST - 14, MOST - 14), ""), MOST + 2
        yield "the largest file", differs((said, place.out.stat().st_size), expected)


def check(given):
    yield from given.checks(made_files, given)
    yield from given.checks(limits, given.fitrec)
