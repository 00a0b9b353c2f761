"""Checks what the built program costs, by counts that do not depend on the machine. A library that is compiled from faults.c counts
system calls, requests for memory, and the most bytes that were held at once. valgrind counts instructions."""

import pathlib
import re
import struct
import tempfile

from tools.checks import differs, unless
from tools.fit_files import framed, long_content, many_messages
from tools.program import room
from tools.reader import wanted
from tools.rides import START, script_of
from tools.traced import Traced, requests, tracing

NEEDS = ("fitrec", "cc", "valgrind")

# What the program holds beyond its input, and its room for the longest word of a command line, in bytes.
SMALL, WORD = 1 << 16, 1 << 17
# How many bytes are read at once.
CHUNK = 65536

# The fields of a record: number, size, base type.
FIELDS = [(0, 4, 0x85), (1, 4, 0x85), (2, 2, 0x84), (3, 1, 2), (4, 1, 2), (5, 4, 0x86), (6, 2, 0x84), (7, 2, 0x84), (13, 1, 1)]
# Instructions for each byte of a file of records, and for each sample of a script. Who changes one by more than a fiftieth states it here.
INSTRUCTIONS = {"show": 45.9, "show --json": 57.3, "check": 12.2, "plain": 21.8, "replay": 8880}


def peak(traced, *words, **how):
    """What a run prints, and the most bytes that it held."""
    said, log = traced.run(*words, call="peak", **how)
    return said, int(log[-1].split()[1])


def instructions(traced, *words, **how):
    """How many instructions a run takes. The C library copies by those that each processor has."""
    with tempfile.NamedTemporaryFile("r") as log:
        counting = ["--tool=cachegrind", "--cache-sim=no", "--cachegrind-out-file=/dev/null", "--log-file=" + log.name]
        same = "GLIBC_TUNABLES=glibc.cpu.hwcaps=-AVX2,-AVX_Fast_Unaligned_Load,-ERMS,-FSRM"
        Traced("env", traced.library).run(same, "valgrind", *counting, traced.fitrec, *words, **how)
        return int(re.search(r"I +refs: +([\d,]+)", log.read())[1].replace(",", ""))


def a_file_byte_by_byte(traced):
    """The longest item has 130,051 bytes. Read whole or byte by byte, it costs memory in proportion to its bytes: it is copied while its
    buffer grows by doubling, and once more into the file. It costs instructions in proportion too."""
    with room() as (_, new):
        source = pathlib.Path(new()) / "in.fit"
        taken = []
        for size in (65025, 130050):
            data = long_content(size)
            source.write_bytes(data)
            for most in (CHUNK, 1):
                said, held = peak(traced, "show", source, most=most)
                yield "shown by %d bytes" % most, differs(said, wanted(data))
                yield "held by %d bytes" % most, unless(held <= 4 * size + SMALL, held, "%d bytes at most" % (4 * size + SMALL))
                asked = requests(traced, "show", source, most=most)
                yield "asked by %d bytes" % most, unless(sum(asked) <= 6 * size + SMALL + WORD, asked, "%d bytes at most" % (6 * size + SMALL + WORD))
            taken.append(instructions(traced, "show", source, call="read", number=0, most=1))
        yield "instructions by 1 byte", unless(taken[1] <= 2.2 * taken[0], taken, "2.2 times as many at most")


def what_a_header_promises(traced):
    """Memory is taken for bytes that came, and none for bytes that a header promises."""
    with room() as (_, new):
        source = pathlib.Path(new()) / "in.fit"
        made = source.parent / "out.fit"
        for command in ("show", "check", "salvage", "plain"):
            asked = []
            for promised in (b"\x20\0\0\0", b"\xFF\xFF\xFF\xFF"):
                source.write_bytes(bytes([12, 0x10, 100, 0]) + promised + b".FIT" + bytes([0x40, 0, 0, 20, 0, 0, 0]))
                asked.append(requests(traced, command, source, *[made] * (command in ("salvage", "plain"))))
                # Where OUT exists already, its names take other requests.
                made.unlink(missing_ok=True)
            yield "what a header promises", differs(asked[0], asked[1])


def reads_of_a_file(traced):
    """A file is read in pieces of 65,536 bytes, and once more at its end."""
    with room() as (_, new):
        source = pathlib.Path(new()) / "in.fit"
        source.write_bytes(many_messages(1000000))
        for command in ("show", "check", "salvage", "plain"):
            _, log = traced.run(command, source, *[source.parent / "out.fit"] * (command in ("salvage", "plain")))
            reads = sum(line.startswith("read in") for line in log)
            yield "reads of a file", unless(
                reads <= source.stat().st_size // CHUNK + 2, reads, "%d at most" % (source.stat().st_size // CHUNK + 2))


def calls_of_a_ride(traced):
    """Most entries make no call. The page is written when it has 416 bytes or more, and at a commit."""
    with room(*script_of(3000, 100).splitlines()) as (script, new):
        folder = new()
        _, log = traced.run("replay", script, folder)
        commits, size = 31, (pathlib.Path(folder) / "activity.fit").stat().st_size
        writes = sum(line.startswith("write data") for line in log)
        yield "writes of a ride", unless(writes <= size // 416 + commits + 1, writes, "%d at most" % (size // 416 + commits + 1))
        # A commit makes five calls beside the write of the page, and two more if it closes a gate: its write and its sync.
        calls = sum(not line.startswith(("open", "lock")) for line in log)
        yield "calls of a ride", unless(calls <= writes + 7 * commits + 16, calls, "%d at most" % (writes + 7 * commits + 16))


def long_simulations(traced):
    """A simulation costs memory in proportion to its events: more than 65,536 of them, and a power cut after a million writes."""
    held = []
    for commits in (35000, 70000, 340000):
        with room(START, *["commit"] * commits, "power", "recover") as (script, _):
            said, most = peak(traced, "simulate", script)
            line = "%d recover: ok records=0 laps=1 sessions=1 start=1000000000 elapsed_ms=0 timer_ms=0 distance_cm=-\n" % (commits + 3)
            well = said[0] == 0 and said[1].count(" commit: ok\n") == commits and said[1].endswith(line)
            yield "a simulation of %d events" % (commits + 3), unless(well, said, "an ok for each commit, and " + line)
            held.append(most / commits)
    yield "memory for each event", unless(max(held) <= 2.5 * min(held), held, "2.5 times the least at most")


def answers_of_a_simulation(traced):
    """An answer to a recovery keeps its line, not the recovered file of 24 KB. The disk keeps a record of its calls."""
    held = []
    for recoveries in (10, 200):
        with room(*script_of(4000, 4000).splitlines(), *["recover"] * recoveries) as (script, _):
            said, most = peak(traced, "simulate", script)
            yield "a simulation of %d recoveries" % recoveries, differs((said[0], said[1].count("recover: ok")), (0, recoveries))
            held.append(most)
    yield "memory for each recovery", unless(held[1] - held[0] <= 190 * 8192, held, "8192 bytes more for each at most")


def values_of(at):
    """The values of a record, in the order of its fields."""
    return (600000000 + at * 37, -100000000 - at * 53, 2500 + at % 1000, 100 + at % 80, 80 + at % 20, at * 700, 5000 + at % 4000,
            200 + at % 200, at % 40 - 10)


def records(count):
    """A file of so many records. Every other one has a compressed timestamp, the others a whole one."""
    items = []
    for local, fields in enumerate(([(253, 4, 0x86)] + FIELDS, FIELDS)):
        items.append(bytes([0x40 | local, 0, 0, 20, 0, len(fields)]) + b"".join(map(bytes, fields)))
    for at in range(count):
        time = 1000000000 + at
        items.append(bytes([0xA0 | time % 32]) if at % 2 else b"\0" + struct.pack("<I", time))
        items.append(struct.pack("<iiHBBIHHb", *values_of(at)))
    return framed(b"".join(items))


def samples(count):
    """A script of so many samples."""
    keys = "lat={} long={} alt={} hr={} cad={} dist={} speed={} power={} temp={}"
    lines = ["sample %d " % (1000000000 + at) + keys.format(*values_of(at)) for at in range(count)]
    return ["start 1000000000 7 cycling", *lines, "commit"]


def instructions_of_records(traced):
    """What each byte of a file of records costs, and each sample of a script: by two of them, without what a run costs in any case."""
    # Without the library, whose reports of calls would count too.
    alone = Traced(traced.fitrec, "")
    with room(*samples(2000)) as (few, new), room(*samples(8000)) as (many, _):
        source, out = pathlib.Path(new()) / "in.fit", pathlib.Path(new()) / "out.fit"
        taken = {"replay": [(count, instructions(alone, "replay", script, new())) for count, script in ((2000, few), (8000, many))]}
        for count in (2000, 8000):
            data = records(count)
            source.write_bytes(data)
            for command in ("show", "show --json", "check", "plain"):
                words = [*command.split(), source, *[out] * (command == "plain")]
                taken.setdefault(command, []).append((len(data), instructions(alone, *words)))
        for command, (first, second) in taken.items():
            each, stated = (second[1] - first[1]) / (second[0] - first[0]), INSTRUCTIONS[command]
            yield "instructions of " + command, unless(abs(each - stated) <= stated / 50, each, "%s, and a fiftieth more or less" % stated)
        json, text = (taken[command][1][1] - taken[command][0][1] for command in ("show --json", "show"))
        yield "instructions of JSON by those of the text", unless(json <= 1.3 * text, json / text, "1.3 at most")


def check(given):
    groups = (a_file_byte_by_byte, what_a_header_promises, reads_of_a_file, calls_of_a_ride, long_simulations, answers_of_a_simulation,
              instructions_of_records)
    with tracing(given.fitrec) as traced:
        for group in groups:
            yield from given.checks(group, traced)
