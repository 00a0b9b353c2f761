"""Checks the program itself: what it prints on which stream and how it ends, for each kind of answer, at the limits, with
output that fails and with little memory."""

import csv
import io
import json
import os
import pathlib
import re
import socket
import tempfile

from tools.checks import differs, unless
from tools.fit_files import MOST, framed, long_content, many_messages
from tools.program import bytes_of, may_not_grow, may_take, run
from tools.reader import wanted

NEEDS = ("fitrec",)


class Program:
    """The program, and a folder for its files."""

    def __init__(self, program, folder):
        self.program, self.folder = program, pathlib.Path(folder)

    def run(self, *words, **how):
        return run(self.program, *words, cwd=self.folder, **how)

    def write(self, name, data):
        (self.folder / name).write_bytes(data)
        return name


def answers(fitrec, small):
    """Each kind of answer: shown, refused, not opened, not read."""
    name = fitrec.write("small.fit", small)
    yield "a file is shown", differs(fitrec.run("show", name), wanted(small))
    yield "a file is refused", differs(fitrec.run("show", fitrec.write("cut.fit", small[:-1])), wanted(small[:-1]))
    yield "no such file", differs(fitrec.run("show", "none.fit"), (1, "", "fitrec: cannot open none.fit\n"))
    yield "no name", differs(fitrec.run("show", ""), (1, "", "fitrec: cannot open \n"))
    yield "a folder", differs(fitrec.run("show", "."), (1, "", "fitrec: cannot read .\n"))
    yield "a file that is named -", differs(fitrec.run("show", "-"), (1, "", "fitrec: cannot open -\n"))
    yield "words that are no text", differs(fitrec.run("show", b"a\xff"), (1, "", "fitrec: cannot open a\\xFF\n"))
    yield "a file that is no activity", differs(fitrec.run("check", name), (1, "", "fitrec: NoLap\n"))
    yield "a refused file is no activity either", differs(fitrec.run("check", "cut.fit"), wanted(small[:-1]))


# Names, and how a message shows them: a letter, a blank and a backslash as they are; bytes that move the cursor or begin a line, controls
# of two bytes, and characters that turn the direction of the text or are invisible, by their bytes.
NAMES = {"Größe 東\\京.fit": "Größe 東\\京.fit", "a\x1b[2Jb": r"a\x1B[2Jb", "a\nfitrec: b\r": r"a\x0Afitrec: b\x0D", "\x01\x7f\t": r"\x01\x7F\x09",
         "\x80\x9f\xa0": "\\xC2\\x80\\xC2\\x9F\xa0", "a\u202eb\u2066": r"a\xE2\x80\xAEb\xE2\x81\xA6", "\ufeff\u200b\u061c": r"\xEF\xBB\xBF\xE2\x80\x8B\xD8\x9C",
         "\u2028\U0001f6b4\u200d": "\\xE2\\x80\\xA8\U0001f6b4\u200d"}


def names(fitrec, small):
    """A name as each command prints it."""
    fitrec.write("small.fit", small)
    fitrec.write("script", b"recover\n")
    (fitrec.folder / "ride").mkdir()
    fitrec.run("replay", fitrec.write("start", b"start 1000000000 7 running\n"), "ride")
    for name, shown in NAMES.items():
        for words in (["show"], ["show", "--json"], ["table"], ["check"], ["plain", name, "out"], ["salvage", name, "out"],
                      ["replay", name, "ride"], ["simulate"], ["replay", "script"], ["record"], ["repair"], ["repair", "--verify"],
                      ["save", name, "out"]):
            said = fitrec.run(*words, *[name] * (name not in words))
            yield "a name that is not opened: " + words[0], differs(said, (1, "", "fitrec: cannot open %s\n" % shown))
        for words in (["plain", "small.fit"], ["salvage", "small.fit"], ["save", "ride"]):
            said = fitrec.run(*words, "none/" + name)
            yield "a name that is not written: " + words[0], differs(said, (1, "", "fitrec: cannot write none/%s\n" % shown))
        (fitrec.folder / name).mkdir()
        for words in (["show"], ["check"], ["plain", name, "out"], ["salvage", name, "out"], ["replay", name, "ride"], ["simulate"]):
            said = fitrec.run(*words, *[name] * (name not in words))
            yield "a name that is not read: " + words[0], differs(said, (1, "", "fitrec: cannot read %s\n" % shown))
        (fitrec.folder / name).rmdir()
        for words in (["show", "small.fit", name], [name], ["show", "--" + name], ["simulate", "--choices", name, "script"],
                      ["record", "--commit", name, "ride"]):
            status, out, fault = fitrec.run(*words)
            yield "a word that is wrong", differs((status, out, shown in fault, name in fault), (2, "", True, name == shown))


# Messages without fields after a file_id that says activity: a lap, and a session.
LAP, SESSION = (bytes([0x40, 0, 0, number, 0, 0, 0]) for number in (19, 18))

# The lines that are wrong in a script, and why.
WRONG_LINES = {"ride": "UnknownWord", "lap": "MissingWord", "commit now": "ExtraWord", "sample 1 hr": "UnknownKey", "sample 1 hr=1 hr=2": "RepeatedKey",
               "start 1 2 walking": "UnknownWord", "fail 0": "BadNumber", "sample 1 hr=x": "BadNumber"}


def refused_files(small):
    """Files that are refused, by their line: those of `show`, and then those of `check` alone."""
    changed = lambda at, byte: small[:at] + bytes([byte]) + small[at + 1:]
    records = small[14:-2]
    faults = {"HeaderSize at 0": changed(0, 13), "Protocol at 1": changed(1, 0x30), "Magic at 8": changed(8, 0), "HeaderCrc at 12": changed(12, 0),
              "UndefinedLocal(5) at 14": framed(b"\5"), "SplitMessage at 14": framed(b"\x40"), "Truncated at 33": small[:-1],
              "FileCrc at 32": changed(20, 9), "TrailingBytes at 34": small + small}
    return faults, {"NoFileId": framed(b""), "NotActivity": framed(records[:13] + b"\6" + records[14:]), "NoLap": small,
                    "NoSession": framed(records + LAP), "NoActivity": framed(records + LAP + SESSION)}


def refused_commands(fitrec, small):
    """Commands that are refused, and the line of each."""
    files, others = refused_files(small)
    for line, data in [*files.items(), *others.items()]:
        name = fitrec.write(line.split("(")[0].split()[0] + ".fit", data)
        yield ["check", name], line
        for words in (["show"], ["show", "--json"], ["table"], ["plain"], ["shift", "--by", "1"]) if line in files else ():
            yield [*words, name, *["out"] * (words[0] in ("plain", "shift"))], line
    for line in ("HeaderSize at 0", "Protocol at 1", "Magic at 8"):
        yield ["salvage", line.split()[0] + ".fit", "out"], line
    for size in range(14):
        yield ["salvage", fitrec.write("%d.fit" % size, small[:size]), "out"], "Truncated at %d" % size
    for wrong, fault in WRONG_LINES.items():
        script = fitrec.write("script.%s.%d" % (fault, len(wrong)), wrong.encode())
        yield ["simulate", script], "line 1: " + fault
        yield ["replay", script, "refused"], "line 1: " + fault
    yield ["replay", fitrec.write("only", b"power"), "refused"], "line 1: OnlySimulate"
    yield ["replay", fitrec.write("twice", b"commit\ncommit\n"), "refused"], "2 refused"
    latin = fitrec.write("latin", b"# \xFC\n")
    yield ["replay", latin, "refused"], "cannot read latin"
    yield ["simulate", latin], "cannot read latin"
    (fitrec.folder / "torn").mkdir()
    fitrec.write("torn/activity.fit", small)
    fitrec.write("torn/activity.frj", b"FRJ3" + bytes(20))
    for words in (["repair"], ["repair", "--verify"]):
        yield [*words, "torn"], "Damaged"
        yield [*words, "empty"], "NothingRecorded"
    for words in (["salvage"], ["salvage", "--all"], ["salvage", "--plain"], ["plain"], ["shift", "--by", "1"]):
        yield [*words, "NoLap.fit", "."], "cannot write ."


def refusals(fitrec, small):
    """Each refusal of a command is one line, whatever the fault, and nothing is printed but the answers of a script."""
    for name in ("refused", "empty"):
        (fitrec.folder / name).mkdir()
    large = fitrec.folder / "large"
    large.touch()
    os.truncate(large, MOST + 1)
    everything = [*refused_commands(fitrec, small)]
    for words in (["show"], ["check"], ["replay", "refused"], ["simulate"], ["salvage", "out"], ["plain", "out"], ["shift", "--by", "1", "out"], ["table"]):
        for name, line in (("none", "cannot open none"), (".", "cannot read ."), ("large", "TooLarge")):
            everything.append(([*words[:1], name, *words[1:]], line))
    everything += [([*words, "none"], "cannot open none") for words in (["repair"], ["repair", "--verify"], ["replay", "twice"])]
    for words, line in everything:
        status, out, said = fitrec.run(*words)
        answers = "1 commit: NoRecorder\n2 commit: NoRecorder\n" * (line == "2 refused")
        yield "a refusal of " + " ".join(words[:-1]), differs((status, out, said), (1, answers, "fitrec: %s\n" % line), words)
    # What a salvage left out is said only of one that is done.
    fitrec.write("start", b"start 1000000000 7 running\nstop 1000000001\n")
    fitrec.run("replay", "start", "refused")
    with open("/dev/full", "wb") as full:
        for words in (["show", "refused/activity.fit"], ["check", "refused/activity.fit"], ["replay", "start", "empty"], ["simulate", "start"], ["repair", "refused"],
                      ["salvage", "NoLap.fit", "out"], ["salvage", "TrailingBytes.fit", "out"], ["plain", "NoLap.fit", "out"],
                      ["shift", "--by", "1", "NoLap.fit", "out"]):
            yield "output that is full, of " + words[0], differs(fitrec.run(*words, stdout=full), (1, "", "fitrec: cannot write -\n"), words)


def beginnings(fitrec, small):
    """Each prefix of a file is refused at its end as cut short."""
    for size in range(len(small)):
        said = fitrec.run("show", fitrec.write("cut.fit", small[:size]))
        yield "a beginning of a file", differs(said, (1, "", "fitrec: Truncated at %d\n" % size))


def sizes(fitrec):
    """Long content and many messages."""
    for size in (1, 255, 256, 5000, 65025, 65026, 130050):
        data = long_content(size)
        yield "content of %d bytes" % size, differs(fitrec.run("show", fitrec.write("long.fit", data)), wanted(data))
    data = many_messages(1000001)
    yield "a million messages", differs(fitrec.run("show", fitrec.write("many.fit", data)), wanted(data))


def developer_fields(fitrec):
    """As many fields and developer fields as possible, and a definition that is cut at each of its bytes."""
    for fields, more in ((0, 255), (255, 0), (255, 255)):
        definition = bytes([0x60, 0, 0, 20, 0, fields]) + fields * bytes([99, 1, 2]) + bytes([more]) + more * bytes([7, 1, 2])
        data = framed(definition + b"\0" + fields * b"\5" + more * b"\x2A")
        # an announcement of none is not written
        head = "header 14 protocol 1.0 profile 100 data %d\n" % (len(data) - 16 - (more == 0))
        text = head + "0 record" + fields * " field_99=5" + more * " developer_2_7=0x2A" + "\nmessages 1\n"
        said = fitrec.run("show", fitrec.write("many.fit", data))
        yield "%d fields and %d developer fields" % (fields, more), differs(said, (0, text, ""))
    definition = bytes.fromhex("60 00 00 14 00 01 03 01 02 02 00 02 00 01 01 00")
    for size in range(1, len(definition) + 1):
        # how many of its bytes show that it does not fit into data of this size
        shows = 1 if size < 6 else 6 if size < 10 else 10 if size < 16 else 17
        for there in range(size + 1):
            data = bytes([12, 0x10, 100, 0]) + size.to_bytes(4, "little") + b".FIT" + definition[:there]
            line = "SplitMessage at 12" if there >= shows else "Truncated at %d" % (12 + there)
            said = fitrec.run("show", fitrec.write("cut.fit", data))
            yield "a beginning of a definition", differs(said, (1, "", "fitrec: %s\n" % line))


def choices(fitrec):
    """More than 512 choice bytes: each power cut takes eight for two files without bytes. The 65th takes those after them."""
    script = fitrec.write("script", b"power\n" * 64 + b"cut 10\nstart 1000000000 7 running\npower\nrecover\n")
    for before, line in ((512, "ok records=0 laps=1 sessions=1 start=1000000000 elapsed_ms=0 timer_ms=0 distance_cm=-"), (511, "NothingRecorded"),
                         (513, "NothingRecorded")):
        status, out, fault = fitrec.run("simulate", "--choices", "00" * (before + 8) + "A5", script)
        yield "%d choice bytes" % (before + 9), differs((status, out.splitlines()[-1:], fault), (0, ["68 recover: " + line], ""))


def many(fitrec):
    """Files and names of files that standard input holds, and names as a list of files shows them."""
    ride = framed(bytes.fromhex("40 00 00 14 00 01 03 01 02 00 64"))
    table = "heart_rate_bpm\r\n100\r\n"
    words = "table", "--fields", "heart_rate"
    yield "a table of standard input", differs(fitrec.run(*words, "-", input=ride), (0, table, ""))
    for count, wanted in (128, (0, ",".join(128 * ["heart_rate_bpm"]) + "\r\n" + ",".join(128 * ["100"]) + "\r\n")), (129, (2, "")):
        said = fitrec.run("table", "--fields", ",".join(count * ["heart_rate"]), "-", input=ride)
        yield "a table of %d columns" % count, differs(said[:2], wanted)
    yield "why a table has no more columns", unless("at most 128 columns" in said[2], said[2], "at most 128 columns")
    said = fitrec.run(*words, "-", input=ride[:-1])
    yield "a table of a part of a file", differs(said, (1, "", "fitrec: Truncated at %d\n" % (len(ride) - 1)))
    fitrec.write("-", ride)
    yield "a file that is named - by its folder", differs(fitrec.run(*words, "./-"), (0, table, ""))
    for name in ("a.fit", "b\n.fit", "c\x1b.fit"):
        fitrec.write(name, ride)
    every = "a.fit: NoFileId\nc\\x1B.fit: NoFileId\nnone: cannot open none\n"
    for given in ("a.fit\nc\x1b.fit\nnone\n", "\na.fit\nc\x1b.fit\n\nnone"):
        yield "names by lines", differs(fitrec.run("check", "--each", "-", input=given.encode()), (1, every, "fitrec: 3 refused\n"))
    for options in (["--each", "-0"], ["-0", "--each"], ["--each", "--null"]):
        said = fitrec.run("check", *options, "a.fit", "-", input=b"b\n.fit\0a.fit\0")
        yield "names by zero bytes", differs(said, (1, "a.fit: NoFileId\nb\\x0A.fit: NoFileId\na.fit: NoFileId\n", "fitrec: 3 refused\n"))
    yield "a list that is not read", differs(fitrec.run("check", "--each", "-", stdin=os.open(fitrec.folder, os.O_RDONLY)), (1, "", "fitrec: cannot read -\n"))
    yield "a list that is named twice", differs(
        fitrec.run("check", "--each", "-", "none", "-", input=b"a.fit\n"), (1, "a.fit: NoFileId\nnone: cannot open none\n", "fitrec: 2 refused\n"))
    yield "no names", differs(fitrec.run("check", "--each", "-", input=b"\n\n"), (0, "", ""))
    yield "no names for a table", differs(fitrec.run(*words, "--each", "-", input=b""), (0, "file,heart_rate_bpm\r\n", ""))
    said = fitrec.run(*words, "--each", "-", input=b"none\na.fit\n.\nc\x1b.fit\ngone.fit")
    lines = 'file,heart_rate_bpm\r\n"a.fit",100\r\n"c\x1b.fit",100\r\n'
    reasons = "fitrec: none: cannot open none\nfitrec: .: cannot read .\nfitrec: gone.fit: cannot open gone.fit\nfitrec: 3 refused\n"
    yield "a table of names by lines, and why some are left out, in order", differs(said, (1, lines, reasons))
    name = fitrec.write('"d",".fit', ride)
    cells = list(csv.reader(io.StringIO(fitrec.run(*words, "--each", name, "a.fit")[1])))
    yield "a name with quotation marks", differs(cells, [["file", "heart_rate_bpm"], [name, "100"], ["a.fit", "100"]])


def names_without_text(fitrec):
    """A name that is not UTF-8 is refused alone, from the command line and from a list. Nothing else is opened for it."""
    ride = framed(bytes.fromhex("40 00 00 14 00 01 03 01 02 00 64"))
    shown = {b"\xff.fit": r"\xFF.fit", b"Gr\xf6\xc3\x9fe\xe6": "Gr\\xF6ße\\xE6", b"\xf0\x9f\x9a": r"\xF0\x9F\x9A", b"\x1b\x80": r"\x1B\x80"}
    for name, text in [*shown.items(), (b"a.fit", "a.fit")]:
        for it in (name, text.encode()):
            (fitrec.folder / os.fsdecode(it)).write_bytes(ride)
    names = [*shown, b"a.fit"]
    checked = "".join("%s: cannot open %s\n" % (text, text) for text in shown.values()) + "a.fit: NoFileId\n"
    left_out = "".join("fitrec: %s: cannot open %s\n" % (text, text) for text in shown.values())
    for how in ({"words": names}, {"input": b"\n".join(names)}, {"words": ["-0"], "input": b"\0".join(names)}):
        more = how.pop("words", []) + ["-"] * ("input" in how)
        yield "names that are no text", differs(fitrec.run("check", "--each", *more, **how), (1, checked, "fitrec: 5 refused\n"))
        said = fitrec.run("table", "--fields", "heart_rate", "--each", *more, **how)
        yield "a table of names that are no text", differs(said, (1, 'file,heart_rate_bpm\r\n"a.fit",100\r\n', left_out + "fitrec: 4 refused\n"))
    said = fitrec.run("check", "--each", "-", input=b"a\0b\n\0\n")
    yield "names with zero bytes", differs(said, (1, "a\\x00b: cannot open a\\x00b\n\\x00: cannot open \\x00\n", "fitrec: 2 refused\n"))
    yield "a word as long as may be", differs(fitrec.run("show", b"\xff" * 131071)[::2], (1, "fitrec: cannot open %s\n" % (r"\xFF" * 131071)))
    for words, fault in ((["plain", "a.fit", b"\xff"], "write"), (["repair", b"\xff"], "open"), (["record", b"\xff"], "open"), (["split", "a.fit", b"\xff"], "write"),
                         (["simulate", b"\xff"], "open"), (["save", b"\xff", "out"], "open"), (["replay", b"\xff", "."], "open")):
        yield "a word that is no text", differs(fitrec.run(*words), (1, "", "fitrec: cannot %s \\xFF\n" % fault), words)
    for words in ([b"\xff"], ["show", b"--\xff"], ["record", "--commit", b"1\xff", "."], ["table", "--message", b"\xff", "a.fit"]):
        status, out, said = fitrec.run(*words)
        yield "a word that is no text and wrong", differs((status, out, r"\xFF" in said), (2, "", True), words)


def other_kinds(fitrec):
    """Of several names only regular files are opened, also by a link. A named pipe, a folder or a device is a line, and nothing is waited for."""
    fitrec.write("a.fit", framed(b""))
    os.mkfifo(fitrec.folder / "pipe")
    for name, to in (("link", "a.fit"), ("to_pipe", "pipe"), ("lost", "none")):
        os.symlink(to, fitrec.folder / name)
    with socket.socket(socket.AF_UNIX) as bound:
        bound.bind(bytes(fitrec.folder / "socket"))
        names = {"pipe": "cannot read pipe", ".": "cannot read .", "/dev/zero": "cannot read /dev/zero", "to_pipe": "cannot read to_pipe",
                 "socket": "cannot read socket", "lost": "cannot open lost", "a.fit/": "cannot open a.fit/"}
        said = fitrec.run("check", "--each", *names, "link", timeout=10)
        lines = "".join("%s: %s\n" % it for it in names.items())
        yield "names of other kinds", differs(said, (1, lines + "link: NoFileId\n", "fitrec: 8 refused\n"))
        said = fitrec.run("table", "--fields", "heart_rate", "--each", *names, "link", timeout=10)
        lines = "".join("fitrec: %s: %s\n" % it for it in names.items())
        yield "a table of names of other kinds", differs(said, (1, "file,heart_rate_bpm\r\n", lines + "fitrec: 7 refused\n"))


def in_json(fitrec):
    """With --json each file is one object on a line, whatever its name is, with the values of its line."""
    fitrec.write("script", b"start 1000000000 7 running\nsample 1000000001 dist=310\nlap 1000000002\nstop 1000000003\n")
    (fitrec.folder / "stated").mkdir()
    fitrec.run("replay", "script", "stated")
    ride = (fitrec.folder / "stated/activity.fit").read_bytes()
    wanted, names = [], ['a\nb.fit: ok records=9', '{"file":"x"}', "\\u0041", "Größe \U0001f6b4", "\x01\x7f\t'\"", "\u2028\u202e"]
    for name in names:
        fitrec.write(name, ride)
        wanted.append({"file": name, "records": 1, "laps": 2, "sessions": 1, "start": 1000000000, "elapsed_ms": 3000, "timer_ms": 3000, "distance_cm": 310})
    bare = bytes.fromhex("40 00 00 00 00 01 00 01 00 00 04 41 00 00 13 00 00 01 42 00 00 12 00 00 02 43 00 00 22 00 00 03")
    empty = dict.fromkeys(("start", "elapsed_ms", "timer_ms", "distance_cm"))
    wanted.append({"file": fitrec.write("bare", framed(bare)), "records": 0, "laps": 1, "sessions": 1} | empty)
    wanted.append({"file": fitrec.write("cut", ride[:9]), "fault": "Truncated at 9"})
    wanted += [{"file": "no\nne", "fault": r"cannot open no\x0Ane"}, {"file": r"\xFF", "fault": r"cannot open \xFF"}, {"file": ".", "fault": "cannot read ."}]
    given = [os.fsencode(it["file"].replace(r"\xFF", "\udcff")) for it in wanted]
    for how in ({"words": given}, {"words": ["-0", "-"], "input": b"\0".join(given)}):
        status, out, said = fitrec.run("check", "--json", "--each", *how.pop("words"), **how)
        lines = out.split("\n")
        found = [json.loads(line, object_pairs_hook=lambda pairs: pairs) for line in lines[:-1]]
        yield "objects of several files", differs((status, found, lines[-1], said), (1, [[*it.items()] for it in wanted], "", "fitrec: 4 refused\n"))
    yield "an object of one file", differs(fitrec.run("check", "--each", "--json", "cut"), (1, '{"file":"cut","fault":"Truncated at 9"}\n', "fitrec: 1 refused\n"))
    status, out, said = fitrec.run("check", "--json", "cut")
    yield "--json without --each", differs((status, out, "--each" in said), (2, "", True))


def full_outputs(fitrec):
    """Output that is full at the first byte, or in the lines of a later file: the command ends there, with one line."""
    ride = framed(bytes.fromhex("40 00 00 14 00 01 03 01 02 00 64"))
    for name in ("a.fit", "b.fit", "c.fit"):
        fitrec.write(name, ride)
    table = "file,heart_rate_bpm\r\n" + "".join('"%s.fit",100\r\n' % name for name in "abc")
    checked = "".join("%s.fit: NoFileId\n" % name for name in "abc")
    objects = "".join('{"file":"%s.fit","fault":"NoFileId"}\n' % name for name in "abc")
    out = fitrec.folder / "out"
    for words, text in ((["table", "--fields", "heart_rate"], table), (["check"], checked), (["check", "--json"], objects)):
        for size in range(len(text)):
            with open(out, "wb") as file:
                said = fitrec.run(*words, "--each", "a.fit", "b.fit", "c.fit", stdout=file, preexec_fn=may_not_grow(size))
            expected = (1, "", "fitrec: cannot write -\n"), text[:size].encode()
            yield "output that is full, of " + words[0] + " --each", differs((said, bytes_of(out)), expected, (words, size))


def outputs(fitrec, small):
    """Output that takes nothing, or that nobody reads."""
    name, line = fitrec.write("small.fit", small), "fitrec: cannot write -\n"
    long = fitrec.write("many.fit", many_messages(20000))
    for file in (name, long):
        with open("/dev/full", "wb") as full:
            yield "output that is full, of " + file, differs(fitrec.run("show", file, stdout=full), (1, "", line))
            yield "errors that are full, of " + file, differs(fitrec.run("show", file + "x", stderr=full), (1, "", ""))
        read, write = (open(end, mode) for end, mode in zip(os.pipe(), ("rb", "wb")))
        read.close()
        yield "output that nobody reads, of " + file, differs(fitrec.run("show", file, stdout=write), (1, "", line))
        write.close()


def memory(fitrec):
    """With more and more memory: nothing is shown and one line reports why, at places that never decrease, until the file is shown."""
    data = many_messages(300000)
    name, expected = fitrec.write("many.fit", data), wanted(data)
    place, limit, reported = 0, 1 << 20, set()
    while True:
        limit += 1 << 15
        said = fitrec.run("show", name, preexec_fn=may_take(limit))
        if said[0] != 1:
            # without memory for the program itself, it does not start
            if said[0] == 0:
                break
            continue
        line = re.fullmatch(r"fitrec: (?:(NoMemory)|Memory at (\d+))\n", said[2])
        good = line and said[1] == "" and int(line[2] or 0) >= place
        place = int(line[2] or 0) if line else place
        reported.add("at an item" if place else "at once")
        if not good:
            yield "memory of %d bytes" % limit, differs(said, "one line on the want of memory")
    yield "memory enough", differs(said, expected)
    yield "want of memory", differs(reported, {"at once", "at an item"})


def check(given):
    with tempfile.TemporaryDirectory() as folder:
        fitrec = Program(given.fitrec, folder)
        for group in (answers, names, refusals, beginnings, outputs):
            yield from given.checks(group, fitrec, given.small)
        for group in (sizes, developer_fields, choices, many, names_without_text, other_kinds, in_json, full_outputs, memory):
            yield from given.checks(group, fitrec)
