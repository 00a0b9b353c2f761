"""For bench/columns.py: run.py FITREC FOLDER prints a line for each measure, what it is and its figure."""

import json
import pathlib
import random
import shutil
import struct
import subprocess
import sys
import time

import numpy as np

import fitrec

PROGRAM, FOLDER = sys.argv[1], pathlib.Path(sys.argv[2])
RECORDS, RIDES = 2_800_000, 1000
TEN = ["timestamp", "position_lat", "position_long", "altitude", "heart_rate", "cadence", "distance", "speed", "power", "temperature"]


def definition(local, number, fields):
    return bytes([0x40 | local, 0, 0]) + struct.pack("<HB", number, len(fields)) + b"".join(map(bytes, fields))


def large():
    """Records of ten fields, in turn with the whole time and with a compressed one."""
    rest = [(0, 4, 0x85), (1, 4, 0x85), (2, 2, 0x84), (3, 1, 2), (4, 1, 2), (5, 4, 0x86), (6, 2, 0x84), (7, 2, 0x84), (13, 1, 1)]
    kinds = [("lat", "<i4"), ("long", "<i4"), ("alt", "<u2"), ("hr", "u1"), ("cad", "u1"), ("dist", "<u4"), ("speed", "<u2"),
             ("power", "<u2"), ("temp", "i1")]
    whole, short = np.dtype([("h", "u1"), ("time", "<u4"), *kinds]), np.dtype([("h", "u1"), *kinds])
    pairs, i = np.zeros(RECORDS // 2, [("whole", whole), ("short", short)]), np.arange(RECORDS)
    for name, at in (("whole", i[0::2]), ("short", i[1::2])):
        for kind, values in (("lat", 500_000_000 + at % 1_000_000 * 37), ("long", 100_000_000 - at % 1_000_000 * 119),
                             ("alt", 2500 + at // 3 % 3000), ("hr", 90 + at // 2 % 100), ("cad", 70 + at % 40), ("dist", at * 700 % 2**32),
                             ("speed", 2000 + at * 7 % 9000), ("power", 90 + at * 11 % 700), ("temp", 25 - at // 60 % 40)):
            pairs[name][kind] = values
    pairs["whole"]["h"], pairs["whole"]["time"] = 1, 1_000_000_000 + i[0::2]
    pairs["short"]["h"] = 0xC0 | (1_000_000_000 + i[1::2]) % 32
    records = definition(1, 20, [(253, 4, 0x86), *rest]) + definition(2, 20, rest) + pairs.tobytes()
    torn, file = FOLDER / "torn", FOLDER / "large.fit"
    torn.write_bytes(struct.pack("<BBHI4sH", 14, 0x20, 2132, len(records), b".FIT", 0) + records)
    subprocess.run([PROGRAM, "salvage", torn, file], check=True, stdout=subprocess.DEVNULL)
    return file


def rides():
    """Rides of 970 samples of nine fields, all from one that is recorded."""
    pick, lines = random.Random(1), ["start 1000000000 7 cycling"]
    distance = 0
    for at in range(970):
        distance += pick.randrange(300, 1200)
        lines.append("sample %d lat=%d long=%d alt=%d hr=%d cad=%d dist=%d speed=%d power=%d temp=%d" % (
            1_000_000_000 + at, 566012345 + pick.randrange(90000), 102345678 + pick.randrange(90000), 2655 + at % 500,
            100 + pick.randrange(80), 80 + pick.randrange(9), distance, 6000 + pick.randrange(3000), 150 + pick.randrange(300),
            pick.randrange(-5, 30)))
    (FOLDER / "script").write_text("\n".join([*lines, "stop 1000000970\n"]))
    (FOLDER / "ride").mkdir()
    subprocess.run([PROGRAM, "replay", FOLDER / "script", FOLDER / "ride"], check=True, stdout=subprocess.DEVNULL)
    names = [FOLDER / ("%04d.fit" % at) for at in range(RIDES)]
    for name in names:
        shutil.copy(FOLDER / "ride/activity.fit", name)
    return names


def runs(*words):
    return lambda: subprocess.run(words, stdout=subprocess.DEVNULL, stderr=subprocess.DEVNULL)


def by_json(file):
    said = subprocess.run([PROGRAM, "show", "--json", file], capture_output=True).stdout
    rows = [it["fields"] for it in map(json.loads, said.splitlines()) if it.get("message") == 20]
    return {name: np.array([row.get(name) for row in rows], float) for name in TEN}


def least(what, times=3):
    found = []
    for _ in range(times):
        at = time.perf_counter()
        what()
        found.append(time.perf_counter() - at)
    return min(found)


def main():
    file, names = large(), rides()
    size = file.stat().st_size / 1e6
    for name, what, times in (
            ("`fitrec check`, reading and judging %.1f MB, %d records of ten fields" % (size, RECORDS), runs(PROGRAM, "check", file), 3),
            ("`fitrec table`", runs(PROGRAM, "table", file), 3),
            ("`table --utc`", runs(PROGRAM, "table", "--utc", file), 3),
            ("`table --raw`", runs(PROGRAM, "table", "--raw", file), 3),
            ("`show --json`", runs(PROGRAM, "show", "--json", file), 3),
            ("`fitrec.read`, raw, 3 columns", lambda: fitrec.read(file, fields=["timestamp", "heart_rate", "power"], raw=True), 3),
            ("`fitrec.read`, raw, 10 columns", lambda: fitrec.read(file, fields=TEN, raw=True), 3),
            ("`fitrec.read`, 10 columns in units", lambda: fitrec.read(file, fields=TEN), 3),
            ("the same to pandas", lambda: fitrec.read(file, fields=TEN).to_pandas(), 3),
            ("`show --json`, Python's json, NumPy", lambda: by_json(file), 1)):
        print("%s\t%.1f MB/s" % (name, size / least(what, times)), flush=True)
    if shutil.which("gpsbabel"):
        rows = runs("gpsbabel", "-t", "-i", "garmin_fit", "-f", file, "-o", "unicsv", "-F", "/dev/null")
        print("gpsbabel, a row for each record\t%.1f MB/s" % (size / least(rows, 1)), flush=True)
    else:
        print("gpsbabel\tnot here: Debian's package gpsbabel")
    for name, what, times in (
            ("`check --each`, %d rides of %d bytes" % (RIDES, names[0].stat().st_size), runs(PROGRAM, "check", "--each", *names), 3),
            ("`table --each`", runs(PROGRAM, "table", "--each", *names), 3),
            ("`fitrec check`, one by one", lambda: [runs(PROGRAM, "check", it)() for it in names], 1),
            ("`fitrec.read_many`", lambda: fitrec.read_many(names), 3),
            ("`fitrec.read` of each", lambda: [fitrec.read(it) for it in names], 3)):
        print("%s\t%.0f files/s" % (name, RIDES / least(what, times)), flush=True)


main()
