"""Compares many files by the Python package with the program and with the second reader. compare/python_package.py runs it where NumPy,
pandas and the package are, with the name of a group, the program, the number of files and the seed:

    typed       values of every type that is asked for, over random files, with the second reader
    rows        the rows and the faults of rides, some of them damaged, with `table --each`; also through a folder
    checked     `check_many` with `check --each --json`
    whole       what is salvaged, skipped over, finished, shifted, split and joined, with the program's files, byte by byte
    cluster     the rows by a cluster of Dask of which workers are killed, with those of one process

It prints what differs first, or how much it compared."""

import contextlib
import csv
import io
import itertools
import json
import math
import os
import pathlib
import random
import re
import signal
import struct
import sys
import tempfile
import threading
import time
from unittest import mock

import numpy as np

import fitrec
from fitrec import _many
from tools import reader
from tools.described_files import described_file
from tools.fit_files import damaged, framed, made
from tools.package import NONES, value_of, wanted_of
from tools.profile_table import enums_of, titles_of
from tools.program import run

EPOCH = np.datetime64("1989-12-31T00:00:00")
NAMES = ["timestamp", "position_lat", "position_long", "altitude", "heart_rate", "cadence", "distance", "speed", "power", "temperature"]


def named(folder, contents):
    """The names of files with these contents."""
    names = [os.path.join(folder, "%05d.fit" % at) for at in range(len(contents))]
    for name, content in zip(names, contents):
        pathlib.Path(name).write_bytes(content)
    return names


def rides(fitrec_program, pick, many, share=0.3):
    """Rides of several lengths, of which each field is there or not; and so many of them are damaged."""
    found = []
    with tempfile.TemporaryDirectory() as folder:
        for at in range(8):
            lines, distance = ["start 1000000000 7 cycling"], 0
            fields = pick.sample(["lat long", "alt", "hr", "cad", "dist", "speed", "power", "temp"], 5)
            for second in range(pick.choice([1, 20, 300, 700])):
                distance += pick.randrange(1200)
                values = {"lat": pick.randrange(-10**9, 10**9), "long": pick.randrange(-2 * 10**9, 2 * 10**9), "alt": pick.randrange(20000),
                          "hr": pick.randrange(255), "cad": pick.randrange(255), "dist": distance, "speed": pick.randrange(65535),
                          "power": pick.randrange(65535), "temp": pick.randrange(-128, 127)}
                words = ["%s=%d" % (name, values[name]) for it in fields if pick.random() < 0.9 for name in it.split()]
                lines.append(" ".join(["sample %d" % (1_000_000_001 + second), *(words or ["hr=60"])]))
            pathlib.Path(folder, "script").write_text("\n".join([*lines, "stop 1000000800\n"]))
            ride = pathlib.Path(folder, str(at))
            ride.mkdir()
            run(fitrec_program, "replay", os.path.join(folder, "script"), ride)
            found.append((ride / "activity.fit").read_bytes())
    picked = [pick.choice(found) for _ in range(many)]
    return [damaged(pick, it) if pick.random() < share else it for it in picked]


def taken(kind, value):
    """A value of this type; None for none. The second is whether the type takes it."""
    if value is None or (isinstance(value, float) and math.isnan(value)) or (isinstance(value, int) and value in NONES.values()):
        return None, True
    if kind in (str, bytes):
        return value, isinstance(value, kind)
    if isinstance(value, (str, bytes)):
        return value, False
    if kind is list:
        return value if isinstance(value, list) else [value], True
    if isinstance(value, list):
        return value, False
    if kind is float:
        return float(value), True
    limits = np.iinfo(np.int64 if kind is None else kind)
    return value, isinstance(value, int) and limits.min <= value <= limits.max


def file_of_enums(pick):
    """A file of messages whose fields are enums in the Profile: mostly of that type, some of a wider one or a float."""
    kinds = {number: pick.choice([(1, 0x00), (1, 0x00), (1, 0x02), (2, 0x84), (4, 0x88)]) for number in pick.sample(range(12), 6)}
    records = bytes([0x40, 0, 0, pick.choice([18, 19, 0]), 0, len(kinds)]) + b"".join(bytes([it, *kinds[it]]) for it in kinds)
    for _ in range(pick.randrange(4)):
        values = ((size, float(pick.choice([2, 7, 0.5, "nan", "inf", 1e20])) if base == 0x88 else pick.choice([pick.randrange(60), 255]))
                  for size, base in kinds.values())
        records += b"\0" + b"".join(struct.pack("<f", it) if size == 4 else it.to_bytes(size, "little") for size, it in values)
    return framed(records)


def named_as(value, names):
    """A number of an enum by its name, or as a text; None for none. The second is whether it can be one."""
    if value is None or (isinstance(value, float) and math.isnan(value)) or (isinstance(value, int) and value in NONES.values()):
        return None, True
    is_whole = not isinstance(value, (str, bytes, list)) and abs(value) < 2**53 and value == int(value)
    return (names.get(int(value), str(int(value))) if is_whole else value), is_whole


def same_values(column, wanted):
    """Whether a column has these values."""
    none = NONES.get(column.dtype.kind)
    for value, own in zip(column if column.dtype == object else column.tolist(), wanted):
        if own is None:
            if not (value is None or value == none or value != value):
                return False
        elif isinstance(own, list):
            if len(value) != len(own) or not all(a == b or (a != a and b != b) for a, b in zip(value.tolist(), own)):
                return False
        elif value != own:
            return False
    return len(column) == len(wanted)


def typed(_, many, seed):
    pick, same, texts, titles = random.Random(seed), 0, 0, titles_of()
    by_field = {field: values for its, values in enums_of().values() for field in its}
    makers = [lambda it: damaged(it, made(it)), lambda it: described_file(it, 0), file_of_enums, made, made]
    contents = [makers[at % 5](pick) for at in range(many)]
    read = []
    for data in contents:
        try:
            read.append(reader.messages(data, False, value_of)[3])
        except reader.Refused as refused:
            read.append(plain_fault(str(refused)))
    with tempfile.TemporaryDirectory() as folder:
        names = named(folder, contents)
        for at in range(12):
            # the first two ask for names of sessions
            message, enums = (pick.choice([20, 20, 20, 18, 19, 0]), pick.random() < 0.6) if at > 1 else (18, True)
            numbers = pick.sample([*range(12), 13, 73, 78, 253, 254], 6) + [pick.randrange(256)]
            developer = [(pick.randrange(3), pick.randrange(4)) for _ in range(pick.randrange(3))]
            kinds = {number: None if number == 253 else pick.choice([None, None, float, np.uint64, str, bytes, list]) for number in numbers}
            kinds.update(dict.fromkeys([0, 1, 5, 6] if enums else []))
            fields = {**kinds, **{"developer_%d_%d" % it: pick.choice([float, str, bytes, list]) for it in developer}}
            known = {it: list(fitrec.schema({it: fields[it]}, message, False))[0] for it in fields}
            named_by = {it: by_field.get("%s.%s" % (titles[message], known[it])) for it, kind in kinds.items() if enums and kind is None}
            found = list(fitrec.iter_many(names, fields, message, units=False, workers=pick.choice([1, 2]), enums=enums))
            for it, name, messages, data in itertools.zip_longest(found, names, read, contents):
                if isinstance(messages, str):
                    if it.file != name or not it.fault or "%s at %s" % it.fault[1:3] != messages:
                        return "%r and not %s of %s" % (it, messages, data.hex())
                    continue
                rows, is_taken = wanted_of(messages, message), True
                for field, kind in fields.items():
                    key = field if isinstance(field, int) else tuple(map(int, field.split("_")[1:]))
                    enum = named_by.get(field)
                    values = [named_as(row.get(key), enum) if enum else taken(kind, row.get(key)) for row in rows]
                    texts += sum(isinstance(value, str) for value, _ in values) if enum else 0
                    is_taken = is_taken and all(ok for _, ok in values)
                    if it.columns is not None and not same_values(it.columns[known[field]], [value for value, _ in values]):
                        return "%s of message %d as %s: %r of %s" % (field, message, kind, it.columns[known[field]], data.hex())
                    same += len(values)
                # Where a file has floats or 64 bits beside other numbers in one field, its whole numbers are floats too.
                if is_taken != (it.fault is None) and not (is_taken and "of float64, and not of" in it.fault.text):
                    return "%r of message %d with %s of %s" % (it, message, fields, data.hex())
    return "same %d" % same if texts else "no names of values"


def table_of(program, names, *words):
    """The rows of a table by the program, and why files have none."""
    said = run(program, "table", "--each", "--profile", "--fields", ",".join(NAMES), *words, *names)
    rows = list(csv.reader(io.StringIO(said[1], newline="")))[1:]
    return rows, [plain_fault(line.removeprefix("fitrec: ")) for line in said[2].splitlines()[:-1]]


def row_differs(row, cells, digits):
    for value, cell in zip(row, cells):
        if isinstance(value, str):
            is_same = value == cell
        elif cell == "":
            is_same = value is None or value == fitrec.NO_VALUE or value != value
        elif hasattr(value, "strftime"):
            is_same = value.strftime("%Y-%m-%dT%H:%M:%SZ") == cell
        else:
            is_same = str(value) == cell if digits is None else abs(value - float(cell)) <= digits * max(1, abs(value))
        if not is_same:
            return "%r and not %s" % (row, cells)
    return None if len(row) == len(cells) else "%r and not %s" % (row, cells)


def plain_fault(text):
    """A fault without the local number or the version that the program adds to its kind."""
    return re.sub(r"\(\d+\)", "", text)


def listed(found):
    """The rows and the faults of what iter_many gives."""
    rows, faults = [], []
    for it in found:
        if it.fault:
            faults.append(it.fault)
        else:
            rows += zip(itertools.repeat(it.file), *(column.tolist() for column in it.columns.values()))
    return rows, faults


def rows(program, many, seed):
    pick = random.Random(seed)
    with tempfile.TemporaryDirectory() as folder:
        names = [*named(folder, rides(program, pick, many)), os.path.join(folder, "none.fit"), folder]
        for units, words, digits in (False, ["--raw"], None), (True, ["--utc"], 1e-8):
            printed, refused = table_of(program, names, *words)
            for workers in 1, 2:
                came, faults = listed(fitrec.iter_many(names, NAMES, units=units, workers=workers))
                # a damaged definition may give a field another type
                others = {it.file for it in faults if it.kind == "OtherType"}
                for it in faults:
                    column = 1 + NAMES.index(it.text.split()[0]) if it.kind == "OtherType" else None
                    if column and all(re.fullmatch(r"-?\d+(\.\d+)?", row[column]) for row in printed if row[0] == it.file):
                        return "%r has numbers alone" % (it,)
                wanted = [row for row in printed if row[0] not in others]
                difference = next(filter(None, (row_differs(row, cells, digits) for row, cells in zip(came, wanted))), None)
                if difference or len(came) != len(wanted):
                    return difference or "%d rows and not %d" % (len(came), len(wanted))
                # the program says otherwise what it cannot open
                said = [it.text if it.place is not None else it.kind for it in faults if it.kind != "OtherType"]
                if said != [{"cannot open " + names[-2]: "FileNotFoundError", "cannot read " + names[-1]: "IsADirectoryError"}.get(
                        it.partition(": ")[2], it) for it in refused]:
                    return "%s and not %s" % (said, refused)
        for at, workers in enumerate((1, 2)):
            to = os.path.join(folder, "to%d" % at)
            # several batches make a partition
            with mock.patch.object(_many, "_MOST_FILES", 5):
                written = fitrec.write_many(names, to, NAMES, workers=workers, partition_bytes=100_000)
            table, faults = fitrec.read_folder(to)
            read = [tuple(None if it != it else it for it in row) for row in table.itertuples(index=False)]
            difference = next(filter(None, (row_differs(row, cells, 1e-8) for row, cells in zip(read, wanted))), None)
            if difference or (len(read), len(faults), written.rows) != (len(wanted), len(refused) + len(others), len(wanted)):
                return difference or "%d rows and %d faults of a folder" % (len(read), len(faults))
        return "same %d" % len(wanted) if faults["kind"].nunique() > 3 else "few faults: %s" % faults["kind"].unique()


def checked(program, many, seed):
    pick = random.Random(seed)
    with tempfile.TemporaryDirectory() as folder:
        contents = [*rides(program, pick, many), *(made(pick) for _ in range(many // 4))]
        names = [*named(folder, contents), os.path.join(folder, "none.fit")]
        said = run(program, "check", "--each", "--json", *names)[1].splitlines()
        found = fitrec.check_many(names, workers=2)
        for at, line in enumerate(said):
            wanted, own = json.loads(line), {name: column[at] for name, column in found.items()}
            fault = own["kind"] and own["kind"] + (" at %d" % own["place"] if own["place"] == own["place"] else "")
            if "fault" in wanted:
                came = {"file": own["file"], "fault": fault}
                wanted["fault"] = plain_fault(wanted["fault"].replace("cannot open " + own["file"], "FileNotFoundError"))
            else:
                start = None if own["start"] != own["start"] else int((own["start"] - EPOCH) // np.timedelta64(1, "s"))
                came = {name: None if own[name] != own[name] else own[name] for name in wanted} | {"start": start}
                summed = fitrec.check(names[at])
                if {name: value for name, value in summed._asdict().items() if name != "start"} != {
                        name: value for name, value in wanted.items() if name not in ("file", "start")}:
                    return "%r and not %s" % (summed, wanted)
                if summed.start and int(summed.start.timestamp()) - 631065600 != start:
                    return "%r and not %s" % (summed, start)
            if came != wanted:
                return "%s and not %s" % (came, wanted)
    return "same %d" % len(said) if len(said) == len(names) == len(found["file"]) else "%d lines" % len(said)


def whole(program, many, seed):
    pick, same = random.Random(seed), {"salvage": 0, "skip": 0, "finish": 0, "shift": 0, "split": 0, "join": 0}
    with tempfile.TemporaryDirectory() as folder:
        source, out = pathlib.Path(folder, "in.fit"), pathlib.Path(folder, "out.fit")
        inputs = [*rides(program, pick, many, 0.9), *(damaged(pick, made(pick)) for _ in range(many))]
        for data in inputs:
            if len(data) > 4000:
                hole = pick.randrange(100, len(data) - 600)
                data = data[:hole] + pick.choice([bytes(512), b"\xFF" * 512, pick.randbytes(512), b""]) + data[hole + 512:]
            source.write_bytes(data)
            for call, words in (fitrec.salvage, []), (lambda it: fitrec.salvage(it, all=True), ["--all"]), (fitrec.skip, ["--skip"]):
                out.unlink(missing_ok=True)
                said = run(program, "salvage", *words, source, out)
                try:
                    came = call(data)
                except fitrec.FitError as fault:
                    if out.exists() or "fitrec: %s\n" % fault != plain_fault(said[2]):
                        return "%s and not %s of %s" % (fault, said, data.hex())
                    continue
                counts = re.match(r"kept (\d+) of (\d+)", said[1])
                if came.data != out.read_bytes() or (came.kept, came.looked_at) != tuple(map(int, counts.groups())):
                    return "%r and not %s of %s" % (came[1:], said, data.hex())
                same["skip" if words == ["--skip"] else "salvage"] += 1
            for how in {"by": pick.choice([0, 1, -1, 86400, -10**9, 4294967294, pick.randrange(-10**6, 10**6)])}, {"start": pick.choice([0, 10**9])}:
                out.unlink(missing_ok=True)
                (word, number), = how.items()
                said = run(program, "shift", "--" + word, number, source, out)
                try:
                    came = fitrec.shift(data, **how)
                except fitrec.FitError as fault:
                    if out.exists() or fault.kind not in said[2] or fault.place is not None and "fitrec: %s\n" % fault != plain_fault(said[2]):
                        return "%s and not %s of %s" % (fault, said, data.hex())
                    continue
                if came != out.read_bytes():
                    return "%r and not %s of %s" % (came, said, data.hex())
                same["shift"] += 1
            try:
                kept = fitrec.salvage(data).data
            except fitrec.FitError:
                continue
            out.unlink(missing_ok=True)
            said = run(program, "salvage", "--finish", source, out)
            try:
                came = fitrec.finish(kept)
                heard = re.search(r"heard (\d+) entr\w+, (\d+) left out", said[1])
                if came.data != out.read_bytes() or (came.heard, came.left_out) != tuple(map(int, heard.groups())):
                    return "%r and not %s of %s" % (came[1:], said, data.hex())
                same["finish"] += 1
            except fitrec.FitError as fault:
                if out.exists() or fault.kind not in said[2]:
                    return "%s and not %s of %s" % (fault, said, data.hex())
        for _ in range(many // 8):
            chained = b"".join(pick.choices(inputs, k=3))
            to = pathlib.Path(tempfile.mkdtemp(dir=folder))
            source.write_bytes(chained)
            run(program, "split", source, to)
            if fitrec.split(chained) != [it.read_bytes() for it in sorted(to.iterdir(), key=lambda it: int(it.stem))]:
                return "files of %s" % chained.hex()
            same["split"] += 1
        for at in range(many):
            ride = pick.choice(inputs[:many])
            with contextlib.suppress(fitrec.FitError):
                inputs.append(fitrec.shift(ride, 86400 * (at + 1)))
            parts = [ride, inputs[-1]] if at % 3 else [pick.choice(inputs) for _ in range(pick.choice([2, 2, 3]))]
            names = [pathlib.Path(folder, "%d.fit" % number) for number in range(len(parts))]
            for name, data in zip(names, parts):
                name.write_bytes(data)
            out.unlink(missing_ok=True)
            said = run(program, "join", *["--as-given"] * (at % 2), out, *names)
            try:
                came = fitrec.join(names, as_given=bool(at % 2)).data
                same["join"] += 1
            except fitrec.FitError as fault:
                came = None
                if not plain_fault(said[2]).startswith("fitrec: %s" % fault):
                    return "%s and not %s of %s" % (fault, said, [it.hex() for it in parts])
            if came != (out.read_bytes() if out.exists() else None):
                return "another file than %s of %s" % (said, [it.hex() for it in parts])
    return "same %d" % min(same.values()) if min(same.values()) else "none of %s" % same


def cluster(program, many, seed):
    import dask as engine
    import distributed
    import pandas

    from fitrec import dask

    pick = random.Random(seed)
    with tempfile.TemporaryDirectory() as folder:
        names = [*named(folder, rides(program, pick, many)), os.path.join(folder, "none.fit")]
        # killed workers are what is tried, and not what is reported
        here = {"n_workers": 2, "threads_per_worker": 1, "processes": True, "dashboard_address": None, "silence_logs": 50}
        with engine.config.set({"distributed.scheduler.allowed-failures": 30}), distributed.LocalCluster(
                **here) as nodes, distributed.Client(nodes) as client:
            killed, is_over = [], threading.Event()

            def kill():
                # each worker once, the second one when another may have come in the place of the first
                for pid in workers:
                    if not is_over.wait(1.5):
                        os.kill(pid, signal.SIGKILL)
                        killed.append(pid)

            workers = list(client.run(os.getpid).values())
            killer = threading.Thread(target=kill)
            rows, faults = dask.from_paths(names, NAMES, partition_bytes=12_000)
            # each partition takes long enough that some are at work when a worker dies
            slow = rows.map_partitions(slowly, meta=rows)
            killer.start()
            table, refused = engine.compute(slow, faults)
            to = os.path.join(folder, "to")
            dask.write_many(names, to, NAMES, partition_bytes=12_000)
            is_over.set()
            killer.join()
            if not killed:
                return "no worker was killed"
        wanted = listed(fitrec.iter_many(names, NAMES, workers=1))
        for found, faulty in (table, refused), fitrec.read_folder(to):
            found["timestamp"] = found["timestamp"].dt.tz_localize(None)
            for came, own in (found, [[None if it != it else it for it in row] for row in wanted[0]]), (faulty, wanted[1]):
                came = [[None if it is pandas.NaT or it != it else it for it in row] for row in came.itertuples(index=False)]
                if came != list(map(list, own)):
                    return "%d rows and not %d: %s" % (len(came), len(own), next((it for it in zip(came, own) if it[0] != list(it[1])), ""))
    return "same %d" % len(table)


def slowly(frame):
    time.sleep(0.1)
    return frame


if __name__ == "__main__":
    print({"typed": typed, "rows": rows, "checked": checked, "whole": whole, "cluster": cluster}[sys.argv[1]](
        sys.argv[2], int(sys.argv[3]), int(sys.argv[4])))
