"""Refuses each request for memory of the built program in turn, and lets each of its writes to standard output fail in turn. Checks what
is reported then, and what is left. The library that is compiled from faults.c makes the requests and writes go wrong. If room for several
things is refused and then room for one is granted, all is as with ample memory."""

import errno
import pathlib
import re
import tempfile

from tools.checks import differs, unless
from tools.fit_files import compressed_ride, framed
from tools.program import holds, room, run
from tools.reader import item_size, read_header, wanted
from tools.rides import EXAMPLE, committed, script_of
from tools.row_files import ROWS, rows_of
from tools.traced import requests, tracing

NEEDS = ("fitrec", "cc")

NO_MEMORY = (1, "", "fitrec: NoMemory\n")
DEVICE = (1, "", "fitrec: Device\n")
NO_OUTPUT = "fitrec: cannot write -\n"
CUT_OFF = script_of(40, 7)
# A definition that announces developer fields and has none. It is written without that announcement.
EMPTY_LIST = bytes([0x60, 0, 0, 20, 0, 0, 0])


def each(traced, call, *words, new=None):
    """Runs in which each call of this kind fails, alone and with all after it. Yields the number of the call, the outcome, and what `new`
    gave, which is the last word. The number is 0 if all is as with ample memory. The last two runs have no such call."""
    number, is_made = 0, True
    whole = run(traced.fitrec, *words, *([new()] if new else []))
    while is_made:
        number += 1
        for after in (0, 1):
            place = new and new()
            said, log = traced.run(*words, *([place] if place else []), call=call, number=number, errno=errno.ENOMEM, after=after)
            is_made = any(line.endswith(" failed") for line in log)
            is_asked_again = call == "memory" and is_made and not log[-1].endswith(" failed") and said == whole
            yield number if is_made and not is_asked_again else 0, said, place


def items_of(data):
    """Where each item of a file begins and ends."""
    at, size = read_header(data)
    end, sizes = at + size, {}
    while at < end:
        step = item_size(data[at:end], sizes)
        yield at, at + step
        at += step


def is_asked(traced, number, words, data):
    """Whether this request for memory is made for a file of just these bytes. The file is the last of these words, or comes before OUT."""
    with tempfile.TemporaryDirectory() as folder:
        file = pathlib.Path(folder) / "file"
        file.write_bytes(data)
        out = [file.parent / "out"] if words[0] == "plain" else []
        _, log = traced.run(*words, file, *out, call="memory", number=number, errno=errno.ENOMEM)
        return any(line.endswith(" failed") for line in log)


def is_of_reading(traced, number, words, place, data):
    """Whether the item at this place made this request: it is not made before the item's bytes, and is made with the last of them. If the
    place is 0, the program itself makes it, before any byte."""
    if not place:
        return is_asked(traced, number, words, b"")
    end = dict(items_of(data)).get(place)
    return end and is_asked(traced, number, words, data[:end]) and not is_asked(traced, number, words, data[:place])


def place_of(said):
    """Where memory was wanting, 0 if it was not at an item. None if anything else is reported."""
    found = re.fullmatch(r"fitrec: (?:NoMemory|Memory at (\d+))\n", said[2])
    return int(found[1] or 0) if found and said[:2] == (1, "") else None


def readings(traced, words, data, expected):
    """Nothing is shown of a file, and the want is reported at the item that made the request. Requests of the program itself come first."""
    places = [0]
    with tempfile.NamedTemporaryFile() as file:
        file.write(data)
        file.flush()
        for number, said, _ in each(traced, "memory", *words, file.name):
            if not number:
                yield "nothing wanting", differs(said, expected)
                continue
            place = place_of(said)
            well = place is not None and places[-1] <= place and is_of_reading(traced, number, words, place, data)
            places.append(place or 0)
            yield "a refused request", unless(well, (number, said), "one line with the place of the item that made it")
    yield "refused at an item, and at once", differs((0 in places[1:], places[-1] > 0), (True, True))


def lines_of(text):
    """The numbers of the lines that have words."""
    return {number for number, line in enumerate(text.splitlines(), 1) if line.split()}


def are_lines(found, text):
    """Whether wants were reported at lines in their order, at each line that has words, and at no other except the first."""
    return found == sorted(found) and lines_of(text) <= set(found) <= lines_of(text) | {1}


def replays(traced, text):
    """If a line is reported nothing is run. Else no more is run than the answers report and one event more."""
    found, later = [], 0
    with room() as (script, new):
        script.write_text(text)
        whole = run(traced.fitrec, "replay", script, new())
        for number, said, folder in each(traced, "memory", "replay", script, new=new):
            if not number:
                yield "nothing wanting", differs(said, whole)
                continue
            line = re.fullmatch(r"fitrec: line (\d+): Memory\n", said[2])
            if line:
                found.append(int(line[1]))
                yield "a refused request of the parser", differs((said[:2], list(pathlib.Path(folder).iterdir())), ((1, ""), []))
            else:
                later += bool(found)
                started, kept, _ = committed(said[1].splitlines())
                records = re.match(r"ok records=(\d+) ", run(traced.fitrec, "repair", folder)[1])
                is_kept = not started or records and int(records[1]) >= kept
                yield "a refused request", unless(
                    said[0] == 1 and said[2] == NO_MEMORY[2] and is_kept, said, "NoMemory, and what was committed is kept")
                yield "what was answered before", differs(whole[1].startswith(said[1]), True)
    yield "refused at each line, and after them", differs((are_lines(found, text), later > 0), (True, True))


def simulations(traced, text, choices=""):
    """If the parser was refused its line is reported. Else one word alone is."""
    found, others = [], 0
    with room() as (script, _):
        script.write_text(text)
        words = ["simulate", "--choices", choices, script]
        whole = run(traced.fitrec, *words)
        for number, said, _ in each(traced, "memory", *words):
            if not number:
                yield "nothing wanting", differs(said, whole)
                continue
            line = re.fullmatch(r"fitrec: line (\d+): Memory\n", said[2])
            found += [int(line[1])] if line else []
            others += bool(found) and not line
            yield "a refused request", differs(said, (1, "", said[2]) if line else NO_MEMORY)
    yield "refused at each line, and after them", differs((are_lines(found, text), others > 0), (True, True))


def places_of_making(traced, records, room_for):
    """How many requests a plain run makes until the file is read. For each request that making its plain form then adds, the place of the
    item that needs it: a file of the items up to that one makes it, and a file of the items before it does not. A file whose checksum is
    wrong is read and not made plain."""
    source = pathlib.Path(room_for()) / "source"
    # A file that is replaced takes more requests than one that is made.
    made = source.parent / "out"
    made.write_bytes(b"old")

    def count(size, is_right):
        data = framed(records[:size])
        source.write_bytes(data if is_right else data[:-1] + bytes([data[-1] ^ 1]))
        return len(requests(traced, "plain", source, made))

    ends = [(at, end - 14) for at, end in items_of(framed(records))]
    counts = [count(size, True) - count(size, False) for size in [0, *(size for _, size in ends)]]
    places = [at for (at, _), before, after in zip(ends, counts, counts[1:]) for _ in range(after - before)]
    return count(len(records), False), places


def replacements(traced, records):
    """A command that makes OUT and is refused memory leaves all as it was. For a plain file, also of a salvage, the place is that of the
    item that made the request."""
    data = framed(records)
    with room() as (source, new):
        folder = new()
        source.write_text(CUT_OFF)
        run(traced.fitrec, "replay", source, folder)
        recorded = holds(folder)
        source.write_bytes(data)

        def old():
            out = pathlib.Path(new()) / "out.fit"
            out.write_bytes(b"old")
            return out

        read, places = places_of_making(traced, records, new)
        kinds, items = set(), {}
        for *words, given in (["salvage", source], ["salvage", "--all", source], ["salvage", "--plain", source], ["plain", source],
                              ["save", folder]):
            name = " ".join(words)
            items[name] = []
            for number, said, out in each(traced, "memory", *words, given, new=old):
                if not number:
                    yield name + ": nothing wanting", differs(said[0], 0)
                    continue
                place = place_of(said)
                items[name] += [place] if place else []
                if name == "salvage --plain":
                    well = place is not None
                elif name != "plain":
                    well = said == NO_MEMORY
                elif number <= read:
                    well = place is not None and is_of_reading(traced, number, words, place, data)
                    kinds.add("read" if place else "at once")
                else:
                    well = place == (places[number - read - 1] if number - read <= len(places) else 0)
                    kinds.add("made" if place else "written")
                is_left = out.read_bytes() == b"old" and list(out.parent.iterdir()) == [out] and holds(folder) == recorded
                yield name + ": a refused request", unless(
                    well and is_left, (number, said, is_left), "one line with its place, and all as it was")
        yield "plain: refused at once, while it is read, made and written", differs(kinds, {"at once", "read", "made", "written"})
        yield "salvage --plain: refused at the items of a plain run", differs(items["salvage --plain"], items["plain"])


def finishings(traced, recorded):
    """A salvage that is to be finished and is refused memory leaves OUT as it was. The place, if it gives one, is that of an item."""
    with room() as (source, new):
        source.write_bytes(recorded)

        def old():
            out = pathlib.Path(new()) / "out.fit"
            out.write_bytes(b"old")
            return out

        for number, said, out in each(traced, "memory", "salvage", "--finish", source, new=old):
            if not number:
                yield "nothing wanting", differs(said[0], 0)
                continue
            is_left = out.read_bytes() == b"old" and list(out.parent.iterdir()) == [out]
            well = (said == NO_MEMORY or place_of(said)) and is_left
            yield "a refused request", unless(well, (number, said, is_left), "one line, and OUT as it was")


def repairs(traced):
    """A repair that is refused memory leaves both files, and succeeds when it is made again. With --verify this holds until both files are
    held in memory. From then on a refused request is a failed call."""
    with room() as (script, new):
        script.write_text(CUT_OFF)

        def cut_off():
            folder = new()
            run(traced.fitrec, "replay", script, folder)
            return folder

        before = holds(cut_off())
        for words, faults in ((["repair"], {NO_MEMORY}), (["repair", "--verify"], {NO_MEMORY, DEVICE})):
            found = set()
            for number, said, folder in each(traced, "memory", *words, new=cut_off):
                if number:
                    found.add(said)
                    well = said in faults and (said == DEVICE or holds(folder) == before)
                    yield "repair: a refused request", unless(well, (words, number, said), faults)
                    yield "repair: made again", differs(run(traced.fitrec, "repair", folder)[0], 0)
                else:
                    yield "repair: nothing wanting", differs(said[0], 0)
            yield "repair: what is said", differs(found, faults)


def promises(traced):
    """A header that promises much needs no memory except for the items that came."""
    data = bytes([12, 0x10, 100, 0, 0xFF, 0xFF, 0xFF, 0xFF]) + b".FIT" + bytes([0x40, 0, 0, 20, 0, 0])
    with tempfile.NamedTemporaryFile() as file:
        file.write(data)
        file.flush()
        for command in ("show", "check"):
            for number, said, _ in each(traced, "memory", command, file.name):
                well = place_of(said) in (0, 12) if number else said == (1, "", "fitrec: Truncated at 18\n")
                yield "a header that promises much", unless(well, (number, said), "NoMemory, at 12, or Truncated")


def wrong_words(traced):
    """A wrong command line is refused as such, or for want of memory."""
    for words in ([], ["shown"], ["show"], ["salvage", "one"], ["simulate", "--choices", "0", "none"], ["--help"]):
        whole = run(traced.fitrec, *words)
        for number, said, _ in each(traced, "memory", *words):
            yield "words: a refused request", unless(said in ((NO_MEMORY, whole) if number else (whole,)), (words, number, said), whole)


def failing_writes(traced, data, text):
    """What was printed is a prefix. No event of a script is run after the one whose answer failed."""
    with tempfile.NamedTemporaryFile() as file:
        file.write(data)
        file.flush()
        for words in (["show", file.name], ["show", "--utc", file.name], ["check", file.name]):
            whole = run(traced.fitrec, *words)
            for number, said, _ in each(traced, "print", *words):
                is_well = said == whole if not number else (said[0], said[2]) == (1, NO_OUTPUT) and whole[1].startswith(said[1])
                yield words[0] + ": a write that failed", unless(is_well, (number, said), "a beginning of the output, and one line")
    commands = sorted(lines_of(re.sub("#.*", "", text)))
    with room() as (script, new):
        script.write_text(text)
        whole = run(traced.fitrec, "replay", script, new())
        for number, said, folder in each(traced, "print", "replay", script, new=new):
            if not number:
                yield "replay: no write failed", differs(said, whole)
                break
            answers = "".join(whole[1].splitlines(True)[:number - 1])
            yield "replay: a write that failed", differs(said, (1, answers, NO_OUTPUT))
            with room(*text.splitlines()[:commands[number - 1]]) as (shorter, other):
                ridden = other()
                run(traced.fitrec, "replay", shorter, ridden)
                yield "replay: what was run", differs(holds(folder), holds(ridden))


def check(given):
    small, example = given.small, EXAMPLE.read_text()
    with tracing(given.fitrec) as traced, room() as (script, new):
        ride = pathlib.Path(new())
        run(given.fitrec, "replay", EXAMPLE, ride)
        recorded = (ride / "activity.fit").read_bytes()
        by_name = {name: steps for kind in ("simulated", "replayed") for name, steps in rows_of((ROWS / kind).read_text())}
        refusals = by_name["each event is answered"][0].text()
        power = by_name["what was committed is recovered"][0].text()
        goes_on = by_name["a ride that was recovered goes on"][0].text()
        for data in (small, recorded):
            yield from given.checks(readings, traced, ["show"], data, wanted(data), under="show")
        yield from given.checks(readings, traced, ["show", "--utc"], recorded, wanted(recorded, True), under="show --utc")
        yield from given.checks(readings, traced, ["check"], recorded, run(given.fitrec, "check", ride / "activity.fit"), under="check")
        for text in (example, CUT_OFF, refusals, goes_on):
            yield from given.checks(replays, traced, text, under="replay")
        for text in (power, refusals, CUT_OFF):
            yield from given.checks(simulations, traced, text, "A5" * 600, under="simulate")
        yield from given.checks(replacements, traced, EMPTY_LIST + compressed_ride(60)[14:-2])
        yield from given.checks(finishings, traced, recorded, under="salvage --finish")
        for group in (repairs, promises, wrong_words):
            yield from given.checks(group, traced)
        yield from given.checks(failing_writes, traced, recorded, example)
