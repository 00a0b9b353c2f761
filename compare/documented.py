"""Runs what README and docs/ show: each command as it is, the script, the rides that are given byte by byte, and the pair of files that
is recovered by hand. Also checks that docs/PROGRAM.md names exactly the faults of the program, and that the sizes in the pages are those
of the sources."""

import itertools
import pathlib
import re
import tempfile

from tools.checks import differs, unless
from tools.program import ROOT, bytes_of, holds, run
from tools.rides import LEFT_OUT, uncommitted

NEEDS = "fitrec", "cc"

# A ride that is cut off after its commit.
RIDE = "start 1000000000 7 running\nsample 1000000001 hr=100\nlap 1000000002\ncommit\nsample 1000000003 hr=101\n"
# Lines of a block that are commands. Those of the kit are not run here: the gate runs them.
COMMAND = re.compile(r"(?:\./fitrec|examples/\S+|mkdir|head|rt) ")
KIT = re.compile(r"rt ")
# The enums whose names the program prints.
FAULTS = {"fit_grammar/src/file/fault.rt": "FaultKind", "fit_grammar/src/plain/fault.rt": "PlainFaultKind",
          "fit_activity/src/activity.rt": "ActivityFault", "fit_activity/src/recording/refusal.rt": "Refusal",
          "fit_recorder/src/fault.rt": "RecFault", "fit_scripts/src/script/fault.rt": "ScriptFaultKind", "fit_joining/src/misfit.rt": "MisfitKind"}
# What stands for a word of a command that is shown by its kind.
FILLED = {"HEX": "A5", "SECONDS": "10", "TIME": "2026-05-01T08:00:00Z", "NAMES": "heart_rate", "NAME": "record"}
# What else it reports: for the command line, for a replay, and for a script that can only be simulated.
OTHERS = {"NoRecorder", "OnlySimulate"}
# Lines on standard error with status 0.
LINES = "fit_files/src/salvage.rt", "fit_commands/src/save.rt", "fit_commands/src/input.rt", "fit_commands/src/table.rt"
# Constants, and the pages that give their values.
SIZES = {("fit_recorder/src/limits.rt", "MOST_RECORDS"): ["RECORDING", "JOURNAL-FORMAT"],
         ("fit_recorder/src/limits.rt", "MOST_BEFORE_STOP"): ["RECORDING", "JOURNAL-FORMAT"],
         ("fit_journal/src/slots.rt", "ROW_SLOTS"): ["RECORDING", "JOURNAL-FORMAT"],
         ("fit_grammar/src/item/writing.rt", "LONGEST_DEFINITION"): ["FORMAT", "DECISIONS"],
         ("fit_files/src/reading.rt", "CHUNK"): ["ARCHITECTURE"],
         ("fit_commands/src/input.rt", "MOST_BYTES"): ["PROGRAM", "DECISIONS"],
         ("fit_commands/src/chosen.rt", "MOST_COLUMNS"): ["PROGRAM"],
         ("fit_runs_tests/src/random.rt", "HISTORIES"): ["PROOFS"]}


def page(name):
    return (ROOT / name).read_text()


def blocks(text):
    """The indented blocks, each as its lines. Yields one list for each section."""
    for section in re.split(r"(?m)^#+ .*$", text):
        found = re.findall(r"(?m)(?:^    .*\n)+", section)
        yield [[line[4:] for line in block.splitlines()] for block in found]


def section(text, title):
    """The blocks after a heading, up to the next one."""
    return next(blocks(re.split(r"(?m)^#+ %s$" % re.escape(title), text)[1]))


def bytes_in(lines):
    """The bytes of a block: the digits before the remark of each line."""
    return bytes.fromhex("".join(re.split(r"   ", line)[0] for line in lines if not line.startswith("..")))


class Scratch:
    """A folder in which the words of the pages name something: parts of the tree, a recording, a FIT file and a script."""

    def __init__(self, fitrec, folder):
        self.fitrec, self.folder = fitrec, pathlib.Path(folder)
        for part in ("fitrec", "examples", "crates"):
            (self.folder / part).symlink_to(ROOT / part)
        (self.folder / "ride").write_text(RIDE)
        (self.folder / "SCRIPT").write_text("recover\n")
        (self.folder / "FOLDER").mkdir()
        run(fitrec, "replay", self.folder / "ride", self.folder / "FOLDER")
        for name in ("FILE", "IN"):
            run(fitrec, "save", self.folder / "FOLDER", self.folder / name)
        # The part of an activity that comes a day after the one in IN.
        run(fitrec, "shift", "--by", "86400", self.folder / "IN", self.folder / "IN..")
        (self.folder / "activity.fit").write_bytes(holds(self.folder / "FOLDER")[0])

    def shell(self, lines):
        return run("sh", "-ec", "\n".join(lines), cwd=self.folder)

    def program(self, words):
        return run(self.fitrec, *words, cwd=self.folder)

    def replayed(self, script, *options):
        """What a replay of this script prints, and the files that it leaves."""
        (self.folder / "script").write_text(script)
        (self.folder / "new").mkdir()
        return self.program(["replay", *options, "script", "new"]), holds(self.folder / "new")

    def recovered(self, data, journal):
        """What a repair of these files prints, the data file that it leaves, and whether a save makes the plain form of that file, and says
        what it leaves out."""
        (self.folder / "pair").mkdir()
        (self.folder / "pair/activity.fit").write_bytes(data)
        (self.folder / "pair/activity.frj").write_bytes(journal)
        saved = self.program(["save", "pair", "saved"])
        said = self.program(["repair", "pair"])
        self.program(["plain", "pair/activity.fit", "plain"])
        count = uncommitted(data, journal)
        is_reported = saved == (*said[:2], said[2] + LEFT_OUT % count * bool(count))
        is_saved = is_reported and bytes_of(self.folder / "saved") == bytes_of(self.folder / "plain")
        return said, holds(self.folder / "pair")[0], is_saved


def scratch(fitrec, do):
    """Does something in a new folder, and returns its result."""
    with tempfile.TemporaryDirectory() as folder:
        return do(Scratch(fitrec, folder))


def shape(text):
    """A text without its numbers: how far a run gets differs from time to time."""
    return re.sub(r"\d+", "N", text)


def shown_commands(fitrec, name, text):
    """The blocks of commands. What one prints is the block after it, if that is in the same section and has no commands."""
    for found in blocks(text):
        for lines, printed in itertools.zip_longest(found, found[1:]):
            if not all(map(COMMAND.match, lines)) or any(map(KIT.match, lines)):
                continue
            status, out, fault = scratch(fitrec, lambda here: here.shell(lines))
            shown = [] if not printed or all(map(COMMAND.match, printed)) else shape("\n".join(printed)).splitlines()
            # A line on what is left out is shown, and may be missing.
            noted = [it for it in shown if it.startswith("fitrec: ")]
            is_noted = set(shape(fault).splitlines()) <= set(noted)
            # Help has status 2.
            yield "%s: %s" % (name, lines[0]), differs((status, is_noted), (2, False) if "--help" in lines[0] else (0, True), fault)
            if shown:
                yield "%s: what is printed" % name, differs(shape(out).splitlines(), [it for it in shown if it not in noted])


def forms(command):
    """Yields the words of a command, with each choice of its options."""
    parts = [["", part[1:-1]] if part.startswith("[") else [part] for part in re.findall(r"\[[^]]*\]|\S+", command)]
    for choice in itertools.product(*parts):
        line = " ".join(choice)
        for word, value in FILLED.items():
            line = line.replace(word, value)
        yield line.split()[1:]


def cited_commands(fitrec, name, text):
    """The commands in the prose, with the words that they take."""
    for command in sorted(set(re.findall(r"`((?:\./)?fitrec [a-z]+ [^`]+)`", text))):
        for words in forms(command):
            status, _, fault = scratch(fitrec, lambda here: here.program(words))
            if "--help" in words:
                yield "%s: %s" % (name, command), differs(status, 2)
            else:
                yield "%s: %s" % (name, command), differs((status, fault), (0, ""))


def script(fitrec):
    """The script of docs/PROGRAM.md: each line is answered ok."""
    lines = section(page("docs/PROGRAM.md"), "replay")[0]
    expected = "".join("%d %s: ok\n" % (number, line.split()[0]) for number, line in enumerate(lines, 1) if line[0] != "#")
    said, _ = scratch(fitrec, lambda here: here.replayed("\n".join(lines) + "\n"))
    yield "the script of docs/PROGRAM.md", differs(said, (0, expected, ""))


def spelled(fitrec):
    """The bytes of the ride of docs/FORMAT.md, after the 86 of its header and its start."""
    expected = bytes_in(section(page("docs/FORMAT.md"), "What is written")[0])
    ride = RIDE.splitlines()[0] + "\nsample 1000000031 hr=100\nsample 1000000063 hr=101\nsample 1000000063 hr=102\ncommit\n"
    _, (data, _) = scratch(fitrec, lambda here: here.replayed(ride))
    yield "the ride of docs/FORMAT.md", differs(data[86:].hex(" "), expected.hex(" "))


def torn_slots(text):
    """The slots of a table of torn ones, with several values for the torn bytes, and the length that counts then."""
    for slot, length, with_gate in re.findall(r"(?m)^\|[^|]*\| `([0-9A-F? ]{26})` \| (\d+)(?:, but (\d+) if the gate is A5)?", text):
        for byte in ("00", "25", "A5", "FF"):
            torn = bytes.fromhex(slot.replace("??", byte))
            yield torn, int(with_gate if with_gate and torn[0] == 0xA5 else length)


def torn_pair(fitrec):
    """The pair of docs/JOURNAL-FORMAT.md: it is what a recorder leaves, with and without checksums, and each torn journal gives the length
    that the page states."""
    text = page("docs/JOURNAL-FORMAT.md")
    data = bytes_in(section(text, "A torn commit, worked by hand")[0])
    torn, finished, nothing = section(text, "The length is torn")
    whole, all_of_it = section(text, "The gate is written")
    ride = "start 1000000000 7 running\nsample 1000000000 hr=100\nsample 1000000001 hr=101\n"
    ride += "lap 1000000002\nsample 1000000002 hr=110\ncommit\n"
    said, left = scratch(fitrec, lambda here: here.replayed(ride, "--checked"))
    yield "the torn pair: recorded", differs((said[0], *left), (0, data, bytes_in(whole)))
    unchecked = b"FRJ2" + bytes(4) + b"".join(bytes_in(whole)[at:at + 5] + bytes(3) for at in (8, 24))
    said, left = scratch(fitrec, lambda here: here.replayed(ride))
    yield "the torn pair: without checksums", differs((said[0], *left), (0, data, unchecked))
    finished = bytes_in(finished)
    finished = finished[:14] + data[14:86] + finished[14:]
    journal = bytes_in(whole)
    said = scratch(fitrec, lambda here: here.recovered(data, bytes_in(torn)))
    yield "the torn pair: its length", differs(said, ((0, nothing[0] + "\n", ""), finished, True))
    wants = {72: (nothing[0] + "\n", len(finished)), 174: (all_of_it[0] + "\n", 442)}
    for slot, length in torn_slots(text):
        said, file, is_saved = scratch(fitrec, lambda here: here.recovered(data, journal[:24] + slot + journal[33:]))
        yield "the torn pair: a slot", differs((said, len(file), is_saved), ((0, wants[length][0], ""), wants[length][1], True))


def names_of(file, enum):
    """The names of an enum."""
    body = re.search(r"pub enum %s\b[^{]*\{(.*?)\n\}" % enum, page("crates/" + file), re.S)[1]
    return re.findall(r"(?m)^    (\w+)", body)


def messages():
    """The faults in the tables of docs/PROGRAM.md are those of the program; the refusals in docs/FORMAT.md are those of the reader."""
    rows = re.findall(r"(?m)^\| (`.*?`) \|", page("docs/PROGRAM.md").partition("## Messages")[2])
    named = {re.sub(r"\([A-Z]\)", "", name) for row in rows for name in re.findall(r"`([^`]*)`", row)}
    texts = re.findall(r'#\[error\("(.*?)"', page("crates/fit_commands/src/fault.rt"))
    # A text that is a fault of a library alone, as {0} or {} at {}, or that after a name, is among those of FAULTS.
    texts = [it for it in texts if "fitrec: " not in it and not re.fullmatch(r"(\{\}: )?\{0?\}( at \{\})?", it)]
    texts = [re.sub(r"\(N\)", "", it.replace("{}", "NAME").replace("{0}", "N")) for it in texts]
    wanted = {it for it in texts if "{" not in it and "line" not in it} | {"cannot write -", "cannot read -"} | OTHERS
    for file in LINES:
        wanted |= {re.sub(r"\{\w+\}", "N", it.replace("{}", "NAME")) for it in re.findall(r'"fitrec: (\{.*?)(?:\\n)?"', page("crates/" + file))}
    for file, enum in FAULTS.items():
        names = names_of(file, enum)
        wanted |= {"Refused(%s)" % it for it in names} if enum == "Refusal" else set(names) - {"Refused"}
    yield "the messages of docs/PROGRAM.md", differs(sorted(named), sorted(wanted))
    kinds = re.findall(r"(?m)^\| (\w+)(?:\(l\))? \|", page("docs/FORMAT.md").partition("## What is refused")[2])[1:]
    yield "the refusals of docs/FORMAT.md", differs(sorted(kinds), sorted(names_of("fit_grammar/src/file/fault.rt", "FaultKind")))


def sizes():
    """The sizes in the pages are those of the sources."""
    for (file, name), names in SIZES.items():
        value = int(re.search(r"const %s: \w+ = ([\d_]+)" % name, page("crates/" + file))[1])
        for it in names:
            yield "%s in docs/%s.md" % (name, it), differs("{:,}".format(value) in page("docs/%s.md" % it), True)
    names = int(re.search(r"const NAMES: u32 = (\d+)", page("crates/fit_places/src/replacing.rt"))[1])
    stated = re.search(r"the next free number up to (\d+)", page("docs/PROGRAM.md"))
    yield "the names beside OUT in docs/PROGRAM.md", differs(stated and int(stated[1]), names - 1)
    for name, about in re.findall(r"`release/(\w+\.a)` [^.]*?some (\d+) KB", page("docs/EMBEDDING.md")):
        size = (ROOT / "release" / name).stat().st_size
        yield "the size of " + name, unless(abs(size / 1000 - int(about)) < 3, size, "about %s KB" % about)
    stated = re.search(r"`include/fitrec_device.h` declares all of it, in (\d+) lines", page("docs/EMBEDDING.md"))
    yield "the lines of include/fitrec_device.h", differs(stated and int(stated[1]), page("include/fitrec_device.h").count("\n"))
    for file, lines in re.findall(r"`(examples/device/\w+\.c)`\s[^`]*?of (\d+)\b", page("docs/EMBEDDING.md")):
        yield "the lines of " + file, unless(
            abs(page(file).count("\n") - int(lines)) <= 5, page(file).count("\n"), "%s and 5 more or less" % lines)


def structs():
    """The sizes of the structs in the pages, and the number of calls for a device, are those of the header."""
    names = "recorder", "plan", "recovery"
    with tempfile.TemporaryDirectory() as folder:
        source = "".join('printf("%%zu\\n", sizeof(struct fitrec_%s));' % it for it in names)
        pathlib.Path(folder, "sizes.c").write_text("#include <stdio.h>\n#include <fitrec.h>\nint main(void) { %s }\n" % source)
        run("cc", "-I", ROOT / "include", "-o", folder + "/sizes", folder + "/sizes.c")
        found = dict(zip(names, map(int, run(folder + "/sizes")[1].split())))
    text = page("docs/EMBEDDING.md")
    stated = {it: re.search(r"static struct fitrec_\w+ %s; +/\* ([\d,]+) bytes" % it, text)[1] for it in names}
    yield "the structs of docs/EMBEDDING.md", differs(stated, {it: "{:,}".format(size) for it, size in found.items()})
    whole = "The other RAM is {:,} bytes: handle {:,}, plan {:,}, a recovery by windows {:,}.".format(sum(found.values()), *found.values())
    yield "their sum in docs/EMBEDDING.md", differs(whole in text.replace("\n", " "), True)
    session = "static struct fitrec_session session; /* {:,} bytes on 32 bits".format(sum(found.values()) + 80)
    yield "the session of docs/EMBEDDING.md", differs(session in text, True)
    row = "| {:,}; {:,}; {:,} bytes |".format(*found.values())
    yield "the structs of docs/PERFORMANCE.md", differs(row in page("docs/PERFORMANCE.md"), True)
    short = "The recorder takes %.1f KB, a plan %.1f KB;" % (found["recorder"] / 1000, found["plan"] / 1000)
    yield "the structs of README.md", differs(short in page("README.md"), True)
    calls = re.findall(r"^FITREC_CHECKED uint8_t fitrec_\w+\(", page("include/fitrec_device.h"), re.M)
    yield "the calls for a device in docs/EMBEDDING.md", differs((len(calls), "fifteen calls" in text), (15, True))


def of_pages(fitrec):
    """The commands that README and docs/ show and cite."""
    for path in [ROOT / "README.md", *sorted((ROOT / "docs").glob("*.md"))]:
        yield from shown_commands(fitrec, path.name, path.read_text())
        yield from cited_commands(fitrec, path.name, path.read_text())


def check(given):
    for group in (of_pages, script, spelled, torn_pair):
        yield from given.checks(group, given.fitrec)
    for group in (messages, sizes, structs):
        yield from given.checks(group)
