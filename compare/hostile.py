"""Checks what hostile files cost, by counts that do not depend on the machine: instructions, by valgrind, and bytes that are written.
Each family of files is made in three sizes. What is added from one size to the next costs so many instructions for each byte that is read,
at most, and not more for the second half than for the first. The bytes that are written of it are bounded by the longest texts of the form."""

import math
import os
import pathlib
import re
import tempfile
from typing import NamedTuple

from tools.checks import Difference
from tools.fit_files import framed
from tools.program import run

NEEDS = ("fitrec", "valgrind")

# The most instructions for each byte that a command reads.
INSTRUCTIONS = {"check": 600, "check --each --json": 600, "show --json": 1000, "show --json --profile": 1700, "show --gpx": 1000,
                "table": 4000, "table --profile": 6000}
# The same for each byte that `show` writes: most of its text are names, which a byte can have it copy.
OF_TEXT = 40
# The longest line of a message without fields in JSON, with the longest name of the Profile and the time of a compressed timestamp.
LINE = '{"number":268435455,"message":65535,"name":"exd_data_concept_configuration","fields":{"timestamp":"2021-09-08T01:46:40Z"},"developer":[]}\n'
# The longest fields of one byte: a developer field by its bytes, and one whose name and units have as many control characters as the Profile
# has bytes. A number of one byte with eight decimals in a cell of several.
BY_ITS_BYTES = '{"index":255,"number":255,"bytes":"0xFF"},'
DESCRIBED = '{"index":255,"number":255,"name":"%s","units":"%s","value":-127.99607843},' % (64 * r"\u0001", 16 * r"\u0001")
DECIMAL = "-127.99607843|"
# The line of a table of 128 columns and its end, with a date in the first one; with as many columns of developer fields.
ROW, WIDE_ROW = (len("2021-09-08T01:46:40Z") + commas + len("\r\n") for commas in (127, 255))
# The longest point for the bytes of its record: one with its time, eight for its position, and one for each sensor.
POINT = ('<trkpt lat="-180.00000000" lon="-180.00000000"><time>2021-09-08T01:46:40Z</time><extensions><gpxtpx:TrackPointExtension>'
         '<gpxtpx:atemp>-128</gpxtpx:atemp><gpxtpx:hr>255</gpxtpx:hr><gpxtpx:cad>255</gpxtpx:cad></gpxtpx:TrackPointExtension></extensions>'
         '</trkpt>\n')
POINT_SIZE = 12
# The most bytes that are written: for each byte of the content of a message, and for each message. A file has one line in the JSON of `check`,
# whose numbers grow.
WRITTEN = {"check --each --json": (0, 0), "show --json": (len(BY_ITS_BYTES), len(LINE)), "show --json --profile": (len(DESCRIBED), len(LINE)),
           "show --gpx": (len(POINT) / POINT_SIZE, len(POINT) / POINT_SIZE), "table": (len(DECIMAL), ROW),
           "table --profile": (len(DECIMAL), WIDE_ROW)}
RECORD, DESCRIPTION = 20, 206
UINT8, STRING = 2, 7


def definition(local, message, fields, developer=()):
    """Fields are numbers, sizes and types; developer fields numbers, sizes and indices."""
    head = bytes([(0x60 if developer else 0x40) | local, 0, 0]) + message.to_bytes(2, "little")
    return head + b"".join(bytes([len(it)]) + b"".join(map(bytes, it)) for it in ([fields, developer] if developer else [fields]))


def descriptions(count, name, units, letter=b"n"):
    """Descriptions of the developer fields 0, 1 and so on of the index 0: each a uint8 with its own name and its own units."""
    fields = [(0, 1, UINT8), (1, 1, UINT8), (2, 1, UINT8), (3, name, STRING), (8, units, STRING)]
    told = [bytes([2, 0, at, UINT8]) + (b"%03d" % at).ljust(name, letter) + letter * units for at in range(count)]
    return definition(2, DESCRIPTION, fields) + b"".join(told)


def numbers(size):
    """255 fields of this size, each with its own number; and as many developer fields."""
    return [(at, size, UINT8) for at in range(255)], [(at, size, 0) for at in range(255)]


class Family(NamedTuple):
    """What stands first in a file, what is there many times, and how many messages that has."""

    first: bytes
    many: bytes
    messages: int


SHORT, FEW, LONG = descriptions(255, 3, 0), descriptions(255, 4, 1), descriptions(255, 250, 250)
# As long as in the Profile, and of control characters.
LONGEST, ESCAPED = descriptions(255, 64, 16), descriptions(255, 64, 16, b"\1")
# Each field of records from 0 on, so that a table has as many columns as it may have.
WIDE = SHORT + definition(1, RECORD, [(at, 1, UINT8) for at in range(128)]) + b"\1" + bytes(128)
# A time, after which the header of a message may have one.
TIMED = definition(1, RECORD, [(253, 4, 0x86)]) + b"\1" + (1_000_000_000).to_bytes(4, "little")
FAMILIES = {
    "255 fields of size 0": Family(definition(0, RECORD, numbers(0)[0]), b"\0", 1),
    "255 fields of size 0 of a message without a name": Family(definition(0, 0xFF00, numbers(0)[0]), b"\0", 1),
    "255 fields of size 0 with a compressed timestamp": Family(definition(0, RECORD, numbers(0)[0]), b"\x80", 1),
    "254 fields of size 0 and one of size 4": Family(
        definition(0, RECORD, [*numbers(0)[0][:254], (254, 4, UINT8)]), b"\0" + bytes(range(4)), 1),
    "one field 255 times": Family(definition(0, RECORD, [(3, 1, UINT8)] * 255), b"\0" + bytes(range(255)), 1),
    "255 fields of size 1": Family(definition(0, RECORD, numbers(1)[0]), b"\0" + bytes(range(255)), 1),
    "three definitions by turns": Family(
        definition(0, RECORD, numbers(0)[0]) + definition(1, 18, numbers(0)[0]) + definition(3, 19, [(at, 1, UINT8) for at in range(200)]),
        b"\0\1" * 50 + b"\3" + bytes(200), 101),
    "two definitions of 129 fields by turns": Family(
        definition(0, RECORD, numbers(1)[0][:129]) + definition(1, 18, numbers(1)[0][:129]), b"\0" + bytes(129) + b"\1" + bytes(129), 2),
    "255 developer fields of size 0": Family(FEW + definition(0, RECORD, [], numbers(0)[1]), b"\0", 1),
    "255 developer fields of size 0 with long names": Family(LONG + definition(0, RECORD, [], numbers(0)[1]), b"\0", 1),
    "255 developer fields with long names": Family(LONG + definition(0, RECORD, [], numbers(1)[1]), b"\0" + bytes(range(255)), 1),
    "255 developer fields with the longest names": Family(LONGEST + definition(0, RECORD, [], numbers(1)[1]), b"\0" + bytes(range(255)), 1),
    "255 developer fields with names of control characters": Family(ESCAPED + definition(0, RECORD, [], numbers(1)[1]), b"\0" + bytes(range(255)), 1),
    "255 developer fields with short names": Family(SHORT + definition(0, RECORD, [], numbers(1)[1]), b"\0" + bytes(range(255)), 1),
    "developer fields by turns": Family(
        FEW + definition(0, RECORD, [], numbers(1)[1]) + definition(1, RECORD, [], numbers(1)[1][::-1]),
        b"\0" + bytes(range(255)) + b"\1" + bytes(range(255)), 2),
    "255 empty cells": Family(WIDE + definition(0, RECORD, [], numbers(0)[1]), b"\0", 1),
    "a time and 254 empty cells": Family(WIDE + TIMED + definition(0, RECORD, [], numbers(0)[1]), b"\x81\x80", 2),
    "a value in the first, a middle and the last of 256 cells": Family(
        WIDE + definition(0, RECORD, [(0, 1, UINT8), (127, 1, UINT8)], [(127, 1, 0)]), b"\0\1\2\3", 1),
    "points": Family(
        TIMED + definition(0, RECORD, [(0, 4, 0x85), (1, 4, 0x85), (13, 1, 1), (3, 1, UINT8), (4, 1, UINT8)]),
        b"\x81" + (0x80000000).to_bytes(4, "little") * 2 + b"\x80\xfe\xfe", 1),
    "definitions alone": Family(b"", definition(0, RECORD, *numbers(0)), 0),
    "definitions without fields with one message each": Family(WIDE, definition(0, RECORD, []) + b"\0", 1),
    "definitions with one message each": Family(b"", definition(0, RECORD, [], [(0, 1, 0)]) + b"\0\0", 1),
    "descriptions": Family(b"", LONG, 255),
}
# How often what is there many times is there: at least so many bytes of it, once, twice and four times.
SIZE, STEPS = 2048, (1, 2, 4)


def files(family):
    """The files of a family, by their sizes."""
    count = -(-SIZE // len(family.many))
    return [framed(family.first + family.many * (count * step)) for step in STEPS]


# The C library clears and copies by instructions that valgrind counts once for each byte, unless it is told not to.
WIDE_STORES = os.environ | {"GLIBC_TUNABLES": "glibc.cpu.x86_rep_stosb_threshold=1000000000:glibc.cpu.x86_rep_movsb_threshold=1000000000"}


def cost(*words):
    """The instructions of a run, the bytes that it writes, and its status. A run that does not end has no number of instructions."""
    with tempfile.NamedTemporaryFile("r") as log, tempfile.TemporaryFile() as out:
        counting = ["--tool=cachegrind", "--cache-sim=no", "--cachegrind-out-file=/dev/null", "--log-file=" + log.name]
        status = run("valgrind", *counting, *words, stdout=out, env=WIDE_STORES)[0]
        found = re.search(r"I +refs: +([\d,]+)", log.read())
        return int(found[1].replace(",", "")) if found else math.inf, out.seek(0, 2), status


def over(command, family, sizes, came):
    """What is over the bounds of a command: None, or a difference."""
    if {status for _, _, status in came} - {0, 1}:
        return Difference("it ends", came)
    steps = [after - before for before, after in zip(sizes, sizes[1:])]
    taken, wrote = ([after[at] - before[at] for before, after in zip(came, came[1:])] for at in (0, 1))
    each = [count / step for count, step in zip(taken, steps)]
    allowed = [max(INSTRUCTIONS[command] * step, OF_TEXT * count if "show" in command else 0) for step, count in zip(steps, wrote)]
    if any(count > limit for count, limit in zip(taken, allowed)):
        return Difference("%s instructions at most" % allowed, taken)
    # What so few bytes take besides is not counted.
    if each[1] > 1.1 * each[0] + 100:
        return Difference("no more for the second half than for the first", each)
    if command in WRITTEN:
        byte, message = WRITTEN[command]
        messages = [step // len(family.many) * family.messages for step in steps]
        # The digits of the numbers that grow.
        most = [byte * (step - count) + message * count + 40 for step, count in zip(steps, messages)]
        if any(count > limit for count, limit in zip(wrote, most)):
            return Difference("%s bytes at most" % most, wrote)
    return None


def of_the_program(given):
    """Each command over each family."""
    rows = [(name, command) for name in FAMILIES for command in INSTRUCTIONS]
    with tempfile.TemporaryDirectory() as folder:
        def judge(number, row):
            name, command = row
            sources, made = [], files(FAMILIES[name])
            for at, data in enumerate(made):
                sources.append(pathlib.Path(folder, "%d-%d.fit" % (number, at)))
                sources[-1].write_bytes(data)
            came = [cost(given.fitrec, *command.split(), it) for it in sources]
            return "%s: %s" % (command, name), over(command, FAMILIES[name], list(map(len, made)), came)

        yield from given.judged(judge, rows)


# What is there many times after a record with a time, in a file whose checksum is wrong: a salvage judges each item by what follows it.
RECORD_AT = definition(0, RECORD, [(253, 4, 0x86)]) + b"\0" + (1_000_000_000).to_bytes(4, "little")
JUDGED = {
    "definitions": definition(0, RECORD, [(253, 4, 0x86)]),
    "definitions of another local number": definition(1, RECORD, [(3, 1, UINT8)]),
    "messages without a time": definition(1, RECORD, [(3, 1, UINT8)]) + b"\1\x50" * 200,
    "records at one time": RECORD_AT[-5:],
}
# The most instructions for each byte that a salvage judges.
OF_SALVAGE = 16000


def of_a_salvage(given):
    """A salvage that goes on after faults takes no more for the second half than for the first."""
    with tempfile.TemporaryDirectory() as folder:
        def judge(number, row):
            name, many = row
            sizes, came = [], []
            for step in STEPS:
                source, out = pathlib.Path(folder, "%d-%d.fit" % (number, step)), pathlib.Path(folder, "%d-%d.out" % (number, step))
                data = framed(RECORD_AT + many * (-(-SIZE // len(many)) * step))
                source.write_bytes(data[:-1] + bytes([data[-1] ^ 1]))
                sizes.append(len(data))
                came.append(cost(given.fitrec, "salvage", "--skip", source, out)[0])
            each = [(after - before) / (end - start) for before, after, start, end in zip(came, came[1:], sizes, sizes[1:])]
            well = max(each) <= OF_SALVAGE and each[1] <= 1.1 * each[0] + 100
            return "salvage --skip: " + name, None if well else Difference("%d instructions a byte, and no more for the second half" % OF_SALVAGE, each)

        yield from given.judged(judge, list(JUDGED.items()))


def check(given):
    yield from given.checks(of_the_program, given)
    yield from given.checks(of_a_salvage, given)
