"""Compares `fitrec show` with the second reader, over each change of one byte of two small files, and over random files, whole and
damaged."""

import random

from tools.checks import differs
from tools.fit_files import changes, damaged, framed, kind_of, made
from tools.program import room, run
from tools.reader import wanted

NEEDS = ("fitrec",)


def made_files(given):
    """Each change of one byte of a small file, and of one with developer fields; and random files, shown with dates too."""
    pick = random.Random(given.seed)
    developer = framed(bytes.fromhex("60 00 00 14 00 01 03 01 02 01 00 02 00 00 64 AB CD"))
    inputs = [(data, False) for whole in (given.small, developer) for data in changes(whole)]
    for _ in range(given.files):
        data = made(pick)
        data = data if pick.random() < 0.5 else damaged(pick, data)
        inputs += [(data, False), (data, True)]
    with room() as (place, _):
        def judge(number, row):
            data, utc = row
            path = place.parent / ("%d.fit" % number)
            path.write_bytes(data)
            said, expected = run(given.fitrec, "show", *["--utc"] * utc, path), wanted(data, utc)
            path.unlink()
            return kind_of(expected[2], "shown with dates" if utc else "shown"), differs(said, expected, data)

        yield from given.judged(judge, inputs)


def check(given):
    yield from given.checks(made_files, given)
