"""`fitrec show`, with --json too, and `fitrec plain` over an activity file of 64 MiB, which a small proved program writes with the encoder of
the tree; beside gpsbabel on the same file, if it is there."""

import collections
import itertools
import os
import shutil
import subprocess

from tools import Took, launched, proved, run


def last_line(*words):
    """The last line of what is printed, of which no more is kept: the peak of a child's memory is at least that of this process."""
    with subprocess.Popen([str(it) for it in words], stdout=subprocess.PIPE, text=True) as child:
        return collections.deque(child.stdout, 1).pop().rstrip("\n")


def messages_of(program, file):
    """The lines that are shown of a file, without that of its header."""
    with subprocess.Popen([program, "show", file], stdout=subprocess.PIPE, text=True) as child:
        next(child.stdout)
        yield from child.stdout


def figures(work):
    program, file, wrong, plain = launched(), work / "activity.fit", work / "wrong.fit", work / "plain.fit"
    messages = run(proved(work, "show", "fit_base", "fit_grammar", "arrayvec"), file).strip()
    size = file.stat().st_size
    for word, wanted in (((), "messages " + messages), (("--json",), '{"messages":%s}' % messages)):
        if last_line(program, "show", *word, file) != wanted:
            raise SystemExit("show: the last line is another")
    # A file whose closing checksum is wrong is read and checked whole, and then refused: reading without showing.
    shutil.copy(file, wrong)
    with open(wrong, "r+b") as out:
        out.seek(-1, os.SEEK_END)
        last = out.read(1)[0]
        out.seek(-1, os.SEEK_END)
        out.write(bytes([255 - last]))

    def speed(took):
        return "%.0f MB/s" % (size / 1e6 / took.clock)

    shown, json, judged = Took([program, "show", file]), Took([program, "show", "--json", file]), Took([program, "show", wrong], status=1)
    if not judged.said.startswith("fitrec: FileCrc at "):
        raise SystemExit("show: " + judged.said)
    yield "`fitrec show`, %.1f million records of ten fields, %.1f MB" % (int(messages) / 1e6, size / 1e6), speed(shown)
    yield "`show --json`", speed(json)
    yield "reading and judging; memory", "%s; %.2f of the file" % (speed(judged), judged.peak / size)
    made = Took([program, "plain", file, plain])
    if any(one != other for one, other in itertools.zip_longest(messages_of(program, plain), messages_of(program, file))):
        raise SystemExit("show: the plain file is shown otherwise")
    yield "`fitrec plain`; memory", "%s; %.2f of both files" % (speed(made), made.peak / (size + plain.stat().st_size))
    if not shutil.which("gpsbabel"):
        yield "gpsbabel", "not here: Debian's package gpsbabel"
        return
    # Without -t it reads the records and writes none of them. With them it takes about a minute, so it runs once.
    read = Took(["gpsbabel", "-i", "garmin_fit", "-f", file, "-o", "unicsv", "-F", "/dev/null"])
    rows = Took(["gpsbabel", "-t", "-i", "garmin_fit", "-f", file, "-o", "unicsv", "-F", "/dev/null"], 1)
    yield "gpsbabel, reading; with a row for each record; memory", "%.1f; %.1f MB/s; %.1f of the file" % (
        size / 1e6 / read.clock, size / 1e6 / rows.clock, rows.peak / size)
