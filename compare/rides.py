"""Rides that are replayed, stopped or cut off, repaired and resumed, compared with the second reader and, if present, with gpsbabel.
Also replays with a full disk, with files that cannot grow, with output that is full or closed, and with little
memory."""

import csv
import pathlib
import random
import re
import subprocess
import tempfile
import zlib

from tools import reader
from tools.checks import Skipped, differs, unless
from tools.needs import missing
from tools.program import may_not_grow, may_take, run, small_disk
from tools.rides import EXAMPLE, committed, script_of

NEEDS = ("fitrec", "gpsbabel")
SUMMARY = "ok records=7 laps=2 sessions=1 start=1000000000 elapsed_ms=600000 timer_ms=565000 distance_cm=160035\n"
COMMITTED = "ok records=5 laps=2 sessions=1 start=1000000000 elapsed_ms=380000 timer_ms=345000 distance_cm=101322\n"


def run_unread(*words):
    """The status and the errors of a run whose output nobody reads."""
    with subprocess.Popen(words, stdout=subprocess.PIPE, stderr=subprocess.PIPE, text=True) as running:
        running.stdout.close()
        said = running.stderr.read()
    return running.returncode, said


def rows_of(file):
    """The records that gpsbabel reads from a file, each by the names of its columns."""
    with tempfile.NamedTemporaryFile("r") as table:
        subprocess.run(["gpsbabel", "-t", "-i", "garmin_fit,allpoints", "-f", file, "-o", "unicsv", "-F", table.name])
        return list(csv.DictReader(table))


def on_a_full_disk(fitrec):
    """A disk that gets full: the recorder fails once. With room again, what was answered as committed is kept."""
    with tempfile.TemporaryDirectory() as folder, tempfile.NamedTemporaryFile("w") as script, small_disk(folder) as mounted:
        if not mounted:
            yield "full disk", Skipped("no disk can be mounted")
            return
        script.write(script_of(20000, 100))
        script.flush()
        status, out, _ = run(fitrec, "replay", script.name, folder)
        answers = out.splitlines()
        _, kept, handed = committed(answers)
        faults = [answer.split()[2] for answer in answers if not answer.endswith(" ok")]
        yield "full disk: one call fails, and each after it is refused", differs(
            (status, faults[0], set(faults[1:]), kept > 0), (1, "Device", {"Failed"}, True))
        run("mount", "-o", "remount,size=1m", folder)
        status, line, err = run(fitrec, "repair", folder)
        records = re.match(r"ok records=(\d+) ", line)
        yield "full disk: repaired", unless(records and kept <= int(records[1]) <= handed, (line, err), "%d to %d records" % (kept, handed))


def with_files_that_may_not_grow(fitrec):
    """Files that may have so many bytes and no more: the device has failed, and what was committed is kept."""
    with tempfile.TemporaryDirectory() as folder:
        script, ride, other = (pathlib.Path(folder) / name for name in ("script", "ride", "other"))
        ride.mkdir()
        other.mkdir()
        script.write_text("start 1000000000 7 running\nsample 1000000001\ncommit\nsample 1000000002\n")
        run(fitrec, "replay", script, ride)
        size = (ride / "activity.fit").stat().st_size
        said = run(fitrec, "repair", ride, preexec_fn=may_not_grow(size))
        yield "files that may not grow: not repaired", differs(said, (1, "", "fitrec: Device\n"))
        line = "ok records=1 laps=1 sessions=1 start=1000000000 elapsed_ms=1000 timer_ms=1000 distance_cm=-\n"
        yield "files that may not grow: repaired", differs(run(fitrec, "repair", ride), (0, line, ""))
        said = run(fitrec, "replay", script, other, preexec_fn=may_not_grow(86))
        answers = "1 start: ok\n2 sample: ok\n3 commit: Device\n4 sample: Failed\n"
        yield "files that may not grow: replayed", differs(said, (1, answers, "fitrec: 2 refused\n"))


def with_full_output(fitrec):
    """Output that takes nothing: this is reported, and what was done is kept."""
    with tempfile.TemporaryDirectory() as folder, tempfile.NamedTemporaryFile("w") as script:
        script.write(script_of(2, 1))
        script.flush()
        file = pathlib.Path(folder) / "activity.fit"
        for words in (["replay", script.name, folder], ["repair", folder], ["check", file], ["simulate", script.name]):
            with open("/dev/full", "w") as full:
                done = subprocess.run([fitrec, *words], stdout=full, stderr=subprocess.PIPE, text=True)
            yield "full output: reported", differs((done.returncode, done.stderr), (1, "fitrec: cannot write -\n"))
        # The event whose answer failed was run, and none after it.
        line = "ok records=0 laps=1 sessions=1 start=1000000000 elapsed_ms=0 timer_ms=0 distance_cm=-\n"
        yield "full output: kept", differs(run(fitrec, "repair", folder), (0, line, ""))


def with_closed_output(fitrec):
    """Output that is closed in the middle: no further event is run, and what was answered is kept."""
    with tempfile.TemporaryDirectory() as folder, tempfile.NamedTemporaryFile("w") as script:
        script.write(script_of(20000, 10))
        script.flush()
        words = [fitrec, "replay", script.name, folder]
        with subprocess.Popen(words, stdout=subprocess.PIPE, stderr=subprocess.PIPE, text=True) as running:
            answers = [running.stdout.readline() for _ in range(1000)]
            running.stdout.close()
            said = running.stderr.read()
        yield "closed output: reported", differs((running.returncode, said), (1, "fitrec: cannot write -\n"))
        kept = committed(map(str.rstrip, answers))[1]
        records = re.match(r"ok records=(\d+) ", run(fitrec, "repair", folder)[1])
        yield "closed output of a simulation: reported", differs(run_unread(fitrec, "simulate", script.name), (1, "fitrec: cannot write -\n"))
        yield "closed output: kept", unless(records and kept <= int(records[1]) < 20000, records, "%d to 19999 records" % kept)


def with_little_memory(fitrec):
    """With more and more memory: nothing is recorded and one line reports why, until everything is."""
    reported, last = set(), 0
    with tempfile.TemporaryDirectory() as folder, tempfile.NamedTemporaryFile("w") as script:
        script.write(script_of(5000, 5000))
        script.flush()
        file = pathlib.Path(folder) / "activity.fit"
        for limit in range(1 << 20, 1 << 26, 1 << 15):
            status, out, err = run(fitrec, "replay", script.name, folder,
                                   preexec_fn=may_take(limit))
            if status == 0:
                break
            # Without memory for the program itself, it does not start.
            if status == 1:
                line = re.fullmatch(r"fitrec: (NoMemory|line (\d+): Memory)\n", err)
                last = max(last, int(line[2]) if line and line[2] else 0)
                recorded = out != "" or file.exists() and file.stat().st_size > 0
                reported.add(line and (line[1] or "start").split()[0])
                if recorded or not line:
                    yield f"memory of {limit} bytes: nothing is recorded", unless(False, (out, err), "one line on the want of memory")
        yield "little memory: at the line that wants it", unless(last > 1, last, "a line after the first")
        yield "little memory: reported", differs(reported, {"NoMemory", "line"})
        yield "little memory: enough", differs((status, out.count(" ok\n"), err), (0, 5002, ""))


def with_little_memory_simulated(fitrec):
    """With more and more memory: no answer is printed and one line reports why, until all are."""
    reported = set()
    with tempfile.NamedTemporaryFile("w") as script:
        script.write(script_of(5000, 1000) + "power\nrecover\n")
        script.flush()
        for limit in range(1 << 20, 1 << 26, 1 << 15):
            status, out, err = run(fitrec, "simulate", script.name,
                                   preexec_fn=may_take(limit))
            if status == 0:
                break
            # Without memory for the program itself, it does not start.
            if status == 1:
                line = re.fullmatch(r"fitrec: (NoMemory|line \d+: Memory)\n", err)
                reported.add(line and (line[1] or "start").split()[0])
                if out or not line:
                    yield f"memory of {limit} bytes: nothing is simulated", unless(False, (out, err), "one line on the want of memory")
        yield "little memory, simulated: reported", differs(reported, {"NoMemory", "line"})
        records = out.splitlines()[-1:] == ["5008 recover: ok records=5000 laps=1 sessions=1 start=1000000000 elapsed_ms=4999000 timer_ms=4999000 distance_cm=3499300"]
        yield "little memory, simulated: enough", differs((status, out.count(": ok\n"), records, err), (0, 5007, True, ""))


# The fields of a sample: the key, a value and the size in bytes.
FIELDS = [("lat", 566012345, 4), ("long", 102345678, 4), ("alt", 2655, 2), ("hr", 92, 1), ("cad", 80, 1), ("dist", 310, 4),
          ("speed", 3100, 2), ("power", 210, 2), ("temp", -3, 1), ("espeed", 70000, 4), ("ealt", 2655, 4)]


def of_room_and_commits(fitrec):
    """A ride whose records have no more room, and one with more commits than a row of slots has room for."""
    lines, answers, length, kept = ["start 1000000000 7 cycling"], ["start: ok"], 72, 0
    while length + 96 <= 16776704 or len(lines) == kept + 1:
        # Five kinds of samples take turns. Each finds the definitions of four others in force, and is written with its own.
        left_out = 2 + len(lines) % 5
        fields = [field for at, field in enumerate(FIELDS) if at != left_out]
        words = " ".join("%s=%d" % field[:2] for field in fields)
        lines.append("sample %d %s" % (1000000000 + len(lines), words))
        is_taken = length + 96 <= 16776704
        answers.append("sample: ok" if is_taken else "sample: Full")
        kept += is_taken
        length += is_taken * (6 + 3 * len(fields) + 1 + sum(size for _, _, size in fields))
    lines += ["lap %d" % (1000000000 + len(lines)), "commit", "stop %d" % (1000000000 + len(lines))]
    answers += ["lap: Full", "commit: ok", "stop: ok"]
    with tempfile.TemporaryDirectory() as folder, tempfile.NamedTemporaryFile("w") as script:
        script.write("\n".join(lines))
        script.flush()
        expected = (1, "".join("%d %s\n" % row for row in enumerate(answers, 1)), "fitrec: 2 refused\n")
        yield "no room: answers", differs(run(fitrec, "replay", script.name, folder), expected)
        file = pathlib.Path(folder) / "activity.fit"
        # After the header come the records, the stop under the definition of the start, the closing messages and the checksum.
        yield "no room: size", differs(file.stat().st_size, 14 + length + 7 + 230 + 2)
        said = run(fitrec, "check", file)
        yield "no room: checked", differs((said[0], said[1].split()[:2]), (0, ["ok", "records=%d" % kept]))
    # Two slots take turns, so a journal never fills.
    commits = ["commit: ok"] * 5000
    with tempfile.TemporaryDirectory() as folder, tempfile.NamedTemporaryFile("w") as script:
        script.write("start 1000000000 7 running\n" + "commit\n" * len(commits) + "stop 1000000001\n")
        script.flush()
        answers = ["start: ok", *commits, "stop: ok"]
        expected = (0, "".join("%d %s\n" % row for row in enumerate(answers, 1)), "")
        yield "many commits: answers", differs(run(fitrec, "replay", script.name, folder), expected)
        said = run(fitrec, "repair", folder)
        yield "many commits: repaired", differs(said[1].split()[:2], ["ok", "records=0"])


def speed_text(speeds):
    """How a summary shows the greatest of some speeds."""
    return str(max(speeds)) if speeds and max(speeds) <= 65534 else "-"


def of_greatest_speeds(fitrec):
    """Random rides whose speeds are in one field, in the other or in both, some of them above what a summary can show: the greatest speed
    of each lap and of the ride."""
    chance = random.Random(1)
    for _ in range(40):
        lines, laps = ["start 1000000000 7 cycling"], [[]]
        for second in range(1000000001, 1000000001 + chance.randrange(60)):
            if chance.random() < 0.2:
                lines.append(f"lap {second}")
                laps.append([])
            said = {key: chance.choice((0, 5000, 6000, 65533, 65534)) for key in ("speed", "espeed") if chance.random() < 0.5}
            if chance.random() < 0.05:
                said["espeed"] = chance.choice((65535, 65536, 70000, 4294967294))
            laps[-1] += said.values()
            lines.append(" ".join([f"sample {second}", *("%s=%d" % pair for pair in said.items())]))
        lines.append("stop 1000000100")
        with tempfile.TemporaryDirectory() as folder, tempfile.NamedTemporaryFile("w") as script:
            script.write("\n".join(lines))
            script.flush()
            yield "greatest speeds: recorded", differs(run(fitrec, "replay", script.name, folder)[::2], (0, ""))
            file = pathlib.Path(folder) / "activity.fit"
            status, shown, err = run(fitrec, "show", file)
            yield "greatest speeds: shown", differs((status, shown, err), (0, reader.show(file.read_bytes()), ""))
            expected = [speed_text(speeds) for speeds in laps] + [speed_text(sum(laps, []))]
            yield "greatest speeds: of each lap and of the ride", differs(re.findall(r" max_speed=(\S+)", shown), expected)


def rate_texts(rates):
    """How a summary shows the average and the greatest of some heart rates."""
    return (str(sum(rates) // len(rates)), str(max(rates))) if rates else ("-", "-")


def of_rides_that_go_on(fitrec):
    """Random rides that are resumed in later replays, some of them after a repair: what was committed before each replay is kept, and
    nothing else of what was handed in before it."""
    chance = random.Random(1)
    for _ in range(40):
        # The heart rates of each lap.
        second, laps = 1000000000, [[]]
        with tempfile.TemporaryDirectory() as folder, tempfile.NamedTemporaryFile("w") as script:
            for part in range(chance.randrange(1, 6)):
                lines, handed = ["reopen" if part else "start 1000000000 7 running"], [list(lap) for lap in laps]
                for _ in range(chance.randrange(40)):
                    second += chance.randrange(40)
                    drawn = chance.random()
                    if drawn < 0.2:
                        lines.append("commit")
                        laps = [list(lap) for lap in handed]
                    elif drawn < 0.3:
                        lines.append(f"lap {second}")
                        handed.append([])
                    else:
                        handed[-1].append(chance.randrange(60, 200))
                        lines.append(f"sample {second} hr={handed[-1][-1]}")
                script.seek(0)
                script.truncate()
                script.write("\n".join(lines))
                script.flush()
                yield "rides that go on: recorded", differs(run(fitrec, "replay", script.name, folder)[::2], (0, ""))
                if chance.random() < 0.3:
                    yield "rides that go on: repaired", differs(run(fitrec, "repair", folder)[0], 0)
            script.seek(0)
            script.truncate()
            script.write(f"reopen\nstop {second}")
            script.flush()
            yield "rides that go on: stopped", differs(run(fitrec, "replay", script.name, folder), (0, "1 reopen: ok\n2 stop: ok\n", ""))
            file, elapsed = pathlib.Path(folder) / "activity.fit", (second - 1000000000) * 1000
            line = (f"ok records={len(sum(laps, []))} laps={len(laps)} sessions=1 start=1000000000 elapsed_ms={elapsed} "
                    f"timer_ms={elapsed} distance_cm=-\n")
            yield "rides that go on: checked", differs(run(fitrec, "check", file), (0, line, ""))
            shown = run(fitrec, "show", file)
            yield "rides that go on: shown", differs(shown, (0, reader.show(file.read_bytes()), ""))
            expected = [rate_texts(rates) for rates in laps] + [rate_texts(sum(laps, []))]
            found = re.findall(r" avg_heart_rate=(\S+) max_heart_rate=(\S+)", shown[1])
            yield "rides that go on: of each lap and of the ride", differs(found, expected)


def of_longer_fields(fitrec):
    """A sample with only the longer fields for speed and altitude, as gpsbabel reads it: 6 m/s, and 32 m, which are 2,660 fifths
    above -500 m. It keeps a speed in two bytes."""
    if missing("gpsbabel"):
        yield "longer fields: read by gpsbabel", missing("gpsbabel")
        return
    with tempfile.TemporaryDirectory() as folder, tempfile.NamedTemporaryFile("w") as script:
        script.write("start 1000000000 7 running\nsample 1000000001 lat=566012345 long=102345678 espeed=6000 ealt=2660\nstop 1000000002\n")
        script.flush()
        run(fitrec, "replay", script.name, folder)
        read = [(row["Altitude"], row["Speed"]) for row in rows_of(pathlib.Path(folder) / "activity.fit")]
        yield "longer fields: read by gpsbabel", differs(read, [("32.0", "6.00")])


def of_compressed_times(fitrec):
    """A ride of one sample a second, whose records have compressed timestamps. The second reader reads all of it; gpsbabel, if present,
    reads each record with its values. Times are not compared: gpsbabel takes an offset against the last full time."""
    samples = [(100 + second % 80, 80 + second % 7, 200 + second) for second in range(100)]
    lines = ["sample %d lat=%d long=%d hr=%d cad=%d power=%d" % (1000000000 + second, 566012345 + 100 * second, 102345678 - 50 * second, *sample)
             for second, sample in enumerate(samples)]
    with tempfile.TemporaryDirectory() as folder, tempfile.NamedTemporaryFile("w") as script:
        script.write("\n".join(["start 1000000000 7 running", *lines, "stop 1000000100"]))
        script.flush()
        said = run(fitrec, "replay", script.name, folder)
        yield "compressed times: answers", differs((said[0], said[1].count(": ok\n"), said[2]), (0, 102, ""))
        file = pathlib.Path(folder) / "activity.fit"
        # After the start come one definition of five fields, and records of thirteen bytes.
        yield "compressed times: size", differs(file.stat().st_size, 14 + 72 + 21 + 13 * 100 + 7 + 230 + 2)
        shown = run(fitrec, "show", file)
        yield "compressed times: shown", differs(shown, (0, reader.show(file.read_bytes()), ""))
        times = [int(time) for time in re.findall(r"record timestamp=(\d+)", shown[1])]
        yield "compressed times: the times", differs(times, list(range(1000000000, 1000000100)))
        yield "compressed times: values read by gpsbabel", missing("gpsbabel") or differs(
            [(int(row["Heartrate"]), int(row["Cadence"]), float(row["Power"])) for row in rows_of(file)], samples)


def of_stated_checksums(fitrec, seed, count):
    """What each open slot of a journal states is what zlib computes of so many bytes after the header. `count` rides of random samples."""
    chance = random.Random(seed)
    with tempfile.TemporaryDirectory() as folder, tempfile.NamedTemporaryFile("w") as script:
        for at in range(count):
            lines, second = ["start 1000000000 %d running" % chance.randrange(1 << 32)], 1000000000
            for _ in range(chance.randrange(1, 40)):
                second += chance.choice((0, 1, 1, 40))
                lines.append(chance.choice(("commit", "sample %d hr=%d" % (second, chance.randrange(255)),
                                            "sample %d hr=%d power=%d temp=%d" % (second, *map(chance.randrange, (255, 65535, 127))))))
            script.seek(0)
            script.truncate()
            script.write("\n".join([*lines, "commit"]))
            script.flush()
            ride = pathlib.Path(folder) / str(at)
            ride.mkdir()
            yield "stated checksums: recorded", differs(run(fitrec, "replay", "--checked", script.name, ride)[::2], (0, ""))
            data, journal = (ride / "activity.fit").read_bytes(), (ride / "activity.frj").read_bytes()
            slots = [journal[place:place + 9] for place in (8, 24, 40) if journal[place] == 0xA5]
            lengths = [int.from_bytes(slot[1:5], "little") for slot in slots]
            yield "stated checksums: all bytes count", differs(14 + max(lengths), len(data))
            yield "stated checksums", differs([int.from_bytes(slot[5:], "little") for slot in slots],
                                              [zlib.crc32(data[14:14 + length]) for length in lengths])


def of_the_example(fitrec):
    script = EXAMPLE.read_text()
    commands = [(number, line.split()[0]) for number, line in enumerate(script.splitlines(), 1) if line[0] != "#"]
    with tempfile.TemporaryDirectory() as folder:
        said = run(fitrec, "replay", EXAMPLE, folder)
        yield "ride: answers", differs(said, (0, "".join(f"{number} {word}: ok\n" for number, word in commands), ""))
        file = pathlib.Path(folder) / "activity.fit"
        yield "ride: checked", differs(run(fitrec, "check", file), (0, SUMMARY, ""))
        stopped = file.read_bytes()
        yield "ride: shown", differs(run(fitrec, "show", file), (0, reader.show(stopped), ""))
        yield "ride: repaired", differs(run(fitrec, "repair", folder), (0, SUMMARY, ""))
        yield "ride: the same bytes", differs(file.read_bytes(), stopped)
        yield "ride: read by gpsbabel", missing("gpsbabel") or differs(len(rows_of(file)), 7)
    with tempfile.TemporaryDirectory() as folder, tempfile.NamedTemporaryFile("w", suffix=".txt") as cut_off:
        # After the second commit two samples are handed in, and the stop never comes.
        cut_off.write("\n".join(script.splitlines()[:-1]))
        cut_off.flush()
        run(fitrec, "replay", cut_off.name, folder)
        yield "ride: cut off and repaired", differs(run(fitrec, "repair", folder), (0, COMMITTED, ""))
        file = pathlib.Path(folder) / "activity.fit"
        yield "ride: cut off and shown", differs(run(fitrec, "show", file), (0, reader.show(file.read_bytes()), ""))


def check(given):
    for group in (of_the_example, of_rides_that_go_on, of_greatest_speeds, of_longer_fields, of_compressed_times, of_room_and_commits, on_a_full_disk,
                  with_files_that_may_not_grow, with_full_output, with_closed_output, with_little_memory, with_little_memory_simulated):
        yield from given.checks(group, given.fitrec)
    yield from given.checks(of_stated_checksums, given.fitrec, given.seed, given.files // 30)
