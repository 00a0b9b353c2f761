"""Tests of what is done with whole files: python3 -m unittest discover python/tests. The files are made by hand, from docs/FORMAT.md."""

import datetime
import os
import pathlib
import tempfile
import unittest
from unittest import mock
from xml.etree import ElementTree

import numpy as np

import fitrec
from fitrec import _many
from test_fitrec import RIDE, checksum, framed

# A file_id of an activity; two records; a lap, a session from 1000000000 on with 2000 and 1500 ms and 1234 cm, and an activity.
START = "00 CA 9A 3B"
ACTIVITY = framed("""
    40 00 00 00 00 01 00 01 00  00 04
    41 00 00 14 00 02 FD 04 86 03 01 02  01 00 CA 9A 3B 5C  01 02 CA 9A 3B 5D
    42 00 00 13 00 01 02 04 86  02 %s
    43 00 00 12 00 04 02 04 86 07 04 86 08 04 86 09 04 86  03 %s D0 07 00 00 DC 05 00 00 D2 04 00 00
    44 00 00 22 00 01 FD 04 86  04 02 CA 9A 3B""" % (START, START))
SUMMED = fitrec.Summary(2, 1, 1, datetime.datetime(2021, 9, 8, 1, 46, 40, tzinfo=datetime.timezone.utc), 2000, 1500, 1234)
# The same up to the records, whole.
RECORDS = framed("40 00 00 00 00 01 00 01 00 00 04 41 00 00 14 00 02 FD 04 86 03 01 02 01 00 CA 9A 3B 5C 01 02 CA 9A 3B 5D")


class OfWholeFiles(unittest.TestCase):
    def refused(self, call, data, kind, place):
        with self.assertRaises(fitrec.FitError) as caught:
            call(data)
        self.assertEqual((caught.exception.kind, caught.exception.place), (kind, place))
        self.assertEqual(str(caught.exception), kind if place is None else "%s at %d" % (kind, place))

    def test_check(self):
        for form in ACTIVITY, bytearray(ACTIVITY), memoryview(ACTIVITY):
            self.assertEqual(fitrec.check(form), SUMMED)
        self.refused(fitrec.check, ACTIVITY[:-1], "Truncated", len(ACTIVITY) - 1)
        self.refused(fitrec.check, RIDE, "NoFileId", None)
        self.refused(fitrec.check, RECORDS, "NoLap", None)
        self.refused(fitrec.check, b"", "Truncated", 0)

    def test_finish(self):
        found = fitrec.finish(RECORDS)
        self.assertEqual((found.heard, found.left_out), (2, 0))
        summed = fitrec.check(found.data)
        self.assertEqual((summed.records, summed.laps, summed.sessions, summed.elapsed_ms), (2, 1, 1, 2000))
        self.assertEqual(fitrec.finish(ACTIVITY).data, ACTIVITY)
        self.refused(fitrec.finish, RECORDS[:-1] + b"\0", "FileCrc", len(RECORDS) - 2)
        self.refused(fitrec.finish, framed("40 00 00 00 00 01 00 01 00 00 06"), "NotActivity", None)
        self.refused(fitrec.finish, framed("40 00 00 00 00 01 00 01 00 00 04"), "NoSample", None)

    def test_salvage(self):
        # the last record is cut off, and all before it is kept
        found = fitrec.salvage(RECORDS[:-3])
        records = RECORDS[14:-8]
        head = RECORDS[:4] + len(records).to_bytes(4, "little") + b".FIT"
        wanted = head + checksum(head) + records
        self.assertEqual(found.data, wanted + checksum(wanted))
        self.assertEqual(found[1:], (len(records), len(records) + 5, 0))
        self.assertEqual(fitrec.salvage(RECORDS + b"12").not_looked_at, 2)
        self.refused(fitrec.salvage, b"\0" * 20, "HeaderSize", 0)
        self.refused(fitrec.salvage, RECORDS[:13], "Truncated", 13)

    def test_skip(self):
        # twenty records after the others, of which FF covers two in the middle
        later = "".join("01 %s 5E" % (1000000003 + at).to_bytes(4, "little").hex() for at in range(20))
        ride = framed(RECORDS[14:-2].hex() + later)
        start = ride.index(bytes.fromhex("01 0A CA 9A 3B"))
        damaged = ride[:start] + b"\xFF" * 12 + ride[start + 12:]
        found = fitrec.skip(damaged)
        left_out = [it for it in found.pieces if not it.kept]
        self.assertEqual([(it.start, it.end) for it in left_out], [(start, start + 12)])
        self.assertEqual((found.kept, found.looked_at), (len(ride) - 16 - 12, len(ride) - 16))
        times = fitrec.read(found.data, fields=["timestamp"], raw=True)["timestamp"].tolist()
        self.assertEqual(times, [1000000000, 1000000002, *range(1000000003, 1000000010), *range(1000000012, 1000000023)])
        self.assertEqual(fitrec.skip(ride).data, ride)
        self.refused(fitrec.skip, b"", "Truncated", 0)

    def test_more_pieces_than_the_first_guess(self):
        ride = framed_many(4000)
        damaged = bytearray(ride)
        for at in range(100):
            place = ride.index((1000000000 + 20 + 39 * at).to_bytes(4, "little")) - 1
            damaged[place:place + 6] = bytes(6)
        found = fitrec.skip(bytes(damaged))
        self.assertGreater(len(found.pieces), 64)
        self.assertEqual(sum(it.end - it.start for it in found.pieces if it.kept), found.kept)
        self.assertEqual(b"".join(bytes(damaged)[it.start:it.end] for it in found.pieces if it.kept), found.data[14:-2])

    def test_shift(self):
        # the times of the records, of the lap's and the session's start, and of the activity; no duration
        later = ACTIVITY[:-2].replace(bytes.fromhex("CA 9A 3B"), bytes.fromhex("CB 9A 3B"))
        later += checksum(later)
        new = datetime.datetime(2021, 9, 8, 1, 50, 56, tzinfo=datetime.timezone.utc)
        zone = datetime.timezone(datetime.timedelta(hours=2))
        for how in ({"by": 256}, {"by": datetime.timedelta(seconds=256)}, {"start": new}, {"start": new.astimezone(zone)}, {"start": 1000000256}):
            self.assertEqual(fitrec.shift(ACTIVITY, **how), later)
        self.assertEqual(fitrec.shift(memoryview(later), by=-256), ACTIVITY)
        self.assertEqual(fitrec.shift(ACTIVITY, 0), ACTIVITY)
        # a compressed timestamp, 5 after the record before it, is written out
        short = framed("40 00 00 14 00 02 FD 04 86 03 01 02 00 00 CA 9A 3B 5C 41 00 00 14 00 01 03 01 02 A5 5D")
        full = framed("40 00 00 14 00 02 FD 04 86 03 01 02 00 01 CA 9A 3B 5C 41 00 00 14 00 01 03 01 02"
                      " 41 00 00 14 00 02 FD 04 86 03 01 02 01 06 CA 9A 3B 5D")
        self.assertEqual(fitrec.shift(short, 1), full)
        # many definitions are written before messages
        many = framed("40 00 00 14 00 02 FD 04 86 03 01 02 00 00 CA 9A 3B 5C 41 00 00 14 00 00" + " A0 01" * 2000)
        self.assertGreater(len(fitrec.shift(many, 1)), 2 * len(many))

    def test_what_is_not_shifted(self):
        def refused(data, kind, place, **how):
            self.refused(lambda it: fitrec.shift(it, **how), data, kind, place)
        record = len(ACTIVITY[:14]) + 11 + 12
        for far in -1000000001, 4294967295 - 1000000002, 1 << 40, 1 << 100, -(1 << 100):
            with self.assertRaises(fitrec.FitError) as caught:
                fitrec.shift(ACTIVITY, far)
            self.assertEqual(caught.exception.kind, "TimeTooFar")
        refused(ACTIVITY, "TimeTooFar", record, by=-1000000001)
        refused(ACTIVITY, "TimeTooFar", record + 6, start=4294967294)
        refused(framed("40 00 00 00 00 01 00 01 00 00 04"), "NoTime", None, start=5)
        refused(RECORDS[:-1] + b"\0", "FileCrc", len(RECORDS) - 2, by=1)
        refused(b"", "Truncated", 0, start=1)
        for wrong in ({}, {"by": 1, "start": 1}, {"start": datetime.datetime(2021, 9, 8)}, {"start": -1}, {"start": 4294967295},
                      {"by": datetime.timedelta(milliseconds=1)}):
            self.assertRaises(ValueError, fitrec.shift, ACTIVITY, **wrong)
        self.assertRaises(TypeError, fitrec.shift, ACTIVITY, 1.5)

    def test_join(self):
        # 1000000000 and 10 m, then 1000000060 and 5 m, which becomes 15 m; between them the timer stands
        halves = [framed("40 00 00 14 00 02 FD 04 86 05 04 86 00 %s CA 9A 3B %s" % it) for it in (("00", "E8 03 00 00"), ("3C", "F4 01 00 00"))]
        joined = framed("40 00 00 14 00 02 FD 04 86 05 04 86 00 00 CA 9A 3B E8 03 00 00"
                        " 40 00 00 15 00 03 FD 04 86 00 01 00 01 01 00 00 00 CA 9A 3B 00 04"
                        " 40 00 00 15 00 03 FD 04 86 00 01 00 01 01 00 00 3C CA 9A 3B 00 00"
                        " 40 00 00 14 00 02 FD 04 86 05 04 86 00 3C CA 9A 3B DC 05 00 00")
        self.assertEqual(fitrec.join(halves), fitrec.finish(joined))
        self.assertEqual(fitrec.join(halves[::-1]), fitrec.finish(joined))
        self.assertEqual(fitrec.join(iter(halves), as_given=True), fitrec.finish(joined))
        self.assertEqual(fitrec.join(halves[:1]), fitrec.finish(halves[0]))
        self.assertEqual(fitrec.join([halves[0]] * 64).heard, 190)

    def test_what_is_not_joined(self):
        def refused(kind, place, path, sources, **how):
            with self.assertRaises(fitrec.FitError) as caught:
                fitrec.join(sources, **how)
            self.assertEqual((caught.exception.kind, caught.exception.place, caught.exception.path), (kind, place, path))
        running, cycling = (framed("40 00 00 0C 00 01 00 01 00 00 " + it) for it in ("01", "02"))
        late = framed("40 00 00 14 00 01 FD 04 86 00 3C CA 9A 3B 00 00 CA 9A 3B")
        refused("OtherSport", None, "file 2", [running, cycling])
        refused("NoSample", None, None, [running, cycling], as_given=True)
        refused("Truncated", 0, "file 2", [running, b""])
        refused("HeaderSize", 0, "file 1", [bytes(20), running])
        refused("TooManyFiles", None, None, [running] * 65)
        refused("OverLimit", 16, "file 1", [running], most_bytes=16)
        with tempfile.TemporaryDirectory() as folder:
            path = pathlib.Path(folder, "late.fit")
            path.write_bytes(late)
            early = framed("40 00 00 14 00 01 FD 04 86 00 32 CA 9A 3B 00 46 CA 9A 3B")
            refused("Overlap", None, str(path), [path, early])
        self.assertRaises(ValueError, fitrec.join, [])

    def test_split(self):
        self.assertEqual(fitrec.split(RIDE + ACTIVITY + b"rest"), [RIDE, ACTIVITY, b"rest"])
        self.assertEqual(fitrec.split(b""), [])

    def test_the_path_is_named(self):
        with tempfile.TemporaryDirectory() as folder:
            path = pathlib.Path(folder, "a.fit")
            path.write_bytes(b"\0" * 20)
            for call in fitrec.check, fitrec.salvage, fitrec.skip, fitrec.finish, lambda it: fitrec.shift(it, 1):
                with self.assertRaisesRegex(fitrec.FitError, "a.fit: HeaderSize at 0"):
                    call(path)
                self.assertRaises(FileNotFoundError, call, path.with_name("none.fit"))


def framed_many(records):
    data = bytes.fromhex("41 00 00 14 00 02 FD 04 86 03 01 02") + b"".join(
        b"\1" + (1000000000 + at).to_bytes(4, "little") + b"\x5C" for at in range(records))
    return framed(data.hex())


class OfManyChecked(unittest.TestCase):
    def test_a_row_for_each(self):
        with tempfile.TemporaryDirectory() as folder:
            names = [os.path.join(folder, "%d.fit" % at) for at in range(5)]
            for name, data in zip(names, (ACTIVITY, RIDE, ACTIVITY[:40], ACTIVITY)):
                pathlib.Path(name).write_bytes(data)
            for workers in 1, 2:
                with mock.patch.object(_many, "_MOST_FILES", 2):
                    found = fitrec.check_many(names, workers=workers)
                self.assertEqual(list(found), ["file", "records", "laps", "sessions", "start", "elapsed_ms", "timer_ms", "distance_cm",
                                               "kind", "place"])
                self.assertEqual(found["file"].tolist(), names)
                self.assertEqual(found["kind"].tolist(), [None, "NoFileId", "Truncated", None, "FileNotFoundError"])
                for name, value in zip(list(found)[1:8], (2, 1, 1, np.datetime64("2021-09-08T01:46:40"), 2000, 1500, 1234)):
                    none = np.datetime64("NaT") if name == "start" else np.nan
                    np.testing.assert_array_equal(found[name], [value, none, none, value, none])
                np.testing.assert_array_equal(found["place"], [np.nan, np.nan, 40, np.nan, np.nan])
            self.assertEqual(len(fitrec.check_many([])["records"]), 0)


class OfRepresentations(unittest.TestCase):
    def test_a_line_for_each_column(self):
        ride = fitrec.read(RIDE, fields=["timestamp", "heart_rate", "power"])
        title, *lines = repr(ride).splitlines()
        self.assertEqual(title, "<Columns of 3 rows>")
        self.assertEqual([line.split() for line in lines], [
            ["timestamp", "date", "datetime64[s]", "2", "of", "3", "2021-09-08T01:46:40", "..", "2021-09-08T01:46:41"],
            ["heart_rate", "bpm", "float64", "2", "of", "3", "92.0", "..", "93.0"], ["power", "W", "float64", "0", "of", "3"]])
        self.assertEqual(repr(fitrec.Columns()), "<Columns of 0 rows>")

    def test_in_a_notebook(self):
        shown = fitrec.Columns({"a<b": np.array(["x", None], object)}, {"a<b": ""})._repr_html_()
        self.assertIn("<td>a&lt;b</td>", shown)
        self.assertEqual(shown.count("<tr>"), 2)
        self.assertNotIn("a<b", shown)
        self.assertEqual(ElementTree.fromstring(shown).tag, "table")


if __name__ == "__main__":
    unittest.main()
