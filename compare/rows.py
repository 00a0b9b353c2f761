"""Runs the rows of compare/rows over the built program: what a folder holds, a command, and what it has to do (tools/row_files.py)."""

import pathlib
import shlex
import tempfile

from tools import program
from tools.checks import Difference, differs
from tools.fit_files import framed
from tools.row_files import ROWS, rows_of

NEEDS = ("fitrec",)


def run(fitrec, folder, step):
    """None if the program does what a step expects."""
    words = shlex.split(step.about)
    status, out, err = program.run(fitrec, *words, cwd=folder)
    text, printed, reported = step.text(), out, step.named or step.error
    if words[:1] == ["table"]:
        text = text.replace("\n", "\r\n")
    if step.lines[:1] == ["..."] and ("\n" + out).endswith(text[3:]):
        printed = text
    if not step.named or not all(part in err for part in step.named):
        reported = err
    return differs((status, printed, reported), (step.status, text, step.named or step.error))


def size_of(path):
    return path.stat().st_size if path.is_file() else 0


def put_or_compare(folder, step):
    """Puts into the folder what a step describes, or answers what differs there."""
    match step.word:
        case "bytes":
            (folder / step.about).write_bytes(step.bytes())
        case "records":
            (folder / step.about).write_bytes(framed(step.bytes()))
        case "lines":
            (folder / step.about).write_bytes(step.text().encode())
        case "text":
            name, _, text = step.about.partition(" ")
            (folder / name).write_bytes(text.encode("ascii").decode("unicode_escape").encode("latin-1"))
        case "folder":
            (folder / step.about).mkdir()
        case "remove":
            (folder / step.about).unlink()
        case "left":
            return differs((program.bytes_of(folder / step.about) or b"").hex(" "), step.bytes().hex(" "))
        case "size":
            size, _, name = step.about.partition(" ")
            return differs(size_of(folder / name), int(size))
        case "there" | "absent":
            return differs((folder / step.about).exists(), step.word == "there")
        case _:
            raise ValueError("line %d: no step of a row: %s" % (step.number, step.word))


def difference(fitrec, steps):
    """The first difference in a row, with the number of its line. None if there is none."""
    with tempfile.TemporaryDirectory() as folder:
        folder = pathlib.Path(folder)
        for step in steps:
            found = run(fitrec, folder, step) if step.word == "run" else put_or_compare(folder, step)
            if found:
                return Difference(found.wanted, found.came, "line %d: %s %s" % (step.number, step.word, step.about))
    return None


def in_file(fitrec, path):
    for name, steps in rows_of(path.read_text()):
        yield "%s: %s" % (path.name, name), difference(fitrec, steps)


def check(given):
    for path in sorted(ROWS.iterdir()):
        yield from given.checks(in_file, given.fitrec, path)
