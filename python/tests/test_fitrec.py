"""Tests of the package: python3 -m unittest discover python/tests. The bytes and values are by hand, from docs/FORMAT.md."""

import pathlib
import pickle
import subprocess
import sys
import tempfile
import unittest
from unittest import mock

import numpy as np

import fitrec


def checksum(data):
    register = 0
    for byte in data:
        for bit in range(8):
            low = (register ^ byte >> bit) & 1
            register = register >> 1 ^ (0xA001 if low else 0)
    return register.to_bytes(2, "little")


def framed(records):
    data = bytes.fromhex(records)
    head = bytes.fromhex("0E 10 64 00") + len(data).to_bytes(4, "little") + b".FIT"
    whole = head + checksum(head) + data
    return whole + checksum(whole)


RIDE = framed("""
    40 00 00 14 00 06 FD 04 86 00 04 85 02 02 84 03 01 02 06 02 84 0D 01 01
    00 00 CA 9A 3B B9 A9 BC 21 5F 0A 5C 1C 0C FD
    00 01 CA 9A 3B FF FF FF FF FF FF FF 1D 0C 7F
    00 05 00 00 00 FF FF FF 7F C3 09 5D 00 00 80
    41 00 00 13 00 03 02 04 86 07 04 86 0F 01 02
    01 00 CA 9A 3B D8 23 09 00 5C""")


class OfARide(unittest.TestCase):
    def test_units(self):
        ride = fitrec.read(RIDE)
        self.assertEqual(list(ride)[:4], ["timestamp", "position_lat", "position_long", "altitude"])
        self.assertEqual(ride["timestamp"].dtype, np.dtype("M8[s]"))
        # a time below the first calendar time has no date
        self.assertEqual([str(it) for it in ride["timestamp"]], ["2021-09-08T01:46:40", "2021-09-08T01:46:41", "NaT"])
        np.testing.assert_allclose(ride["position_lat"], [47.4426067, -8.4e-8, np.nan], atol=1e-8)
        np.testing.assert_allclose(ride["altitude"], [31.0, np.nan, -0.2], atol=1e-9)
        np.testing.assert_allclose(ride["speed"], [3.1, 3.101, 0.0])
        np.testing.assert_array_equal(ride["heart_rate"], [92, np.nan, 93])
        np.testing.assert_array_equal(ride["temperature"], [-3, np.nan, -128])
        self.assertTrue(np.isnan(ride["power"]).all())
        self.assertEqual((ride.units["timestamp"], ride.units["speed"], ride.units["heart_rate"]), ("date", "m/s", "bpm"))

    def test_raw(self):
        raw = fitrec.read(RIDE, fields=["position_lat", 3, "field_39"], raw=True)
        self.assertEqual({name: column.tolist() for name, column in raw.items()}, {
            "position_lat": [566012345, -1, fitrec.NO_VALUE], "heart_rate": [92, fitrec.NO_VALUE, 93], "field_39": [fitrec.NO_VALUE] * 3})

    def test_laps(self):
        laps = fitrec.read(RIDE, message="lap", fields=["start_time", "total_elapsed_time", "avg_heart_rate"])
        found = str(laps["start_time"][0]), laps["total_elapsed_time"][0], laps["avg_heart_rate"][0]
        self.assertEqual(found, ("2021-09-08T01:46:40", 599.0, 92.0))
        self.assertEqual(len(fitrec.read(RIDE, message=4711, fields=[1])["field_1"]), 0)

    def test_more_rows_than_the_first_guess(self):
        many = framed("40 00 00 14 00 01 03 01 02" + "00 64" * 5000)
        self.assertEqual(fitrec.read(many, fields=["heart_rate"])["heart_rate"].tolist(), [100.0] * 5000)

    def test_wrong_names(self):
        for words in {"message": "laps"}, {"fields": ["heart"]}, {"fields": [256]}, {"message": 65536}:
            with self.assertRaises(ValueError):
                fitrec.read(RIDE, **words)
        self.assertEqual(len(fitrec.read(RIDE, fields=[])), 0)

    def test_one_field_by_its_name(self):
        self.assertEqual(list(fitrec.read(RIDE, fields="heart_rate")), ["heart_rate"])

    def test_bytes_in_any_form(self):
        data = framed("40 00 00 14 00 02 03 01 02 04 01 02  00 5C 50  00 5D 51")
        for form in bytearray(data), memoryview(data).cast("H"), memoryview(bytes(it for one in data for it in (one, 0)))[::2]:
            self.assertEqual(fitrec.read(form)["heart_rate"].tolist(), [92, 93])

    def test_digits(self):
        # each value is the float that is nearest to the exact one, as in a table: -499.8 m, -0.2 m, 62.6 m, and 180 / 2^31 degrees
        data = framed("40 00 00 14 00 02 02 02 84 00 04 85  00 01 00 01 00 00 00  00 C3 09 FF FF FF FF  00 FD 0A 03 00 00 00")
        ride = fitrec.read(data)
        self.assertEqual(ride["altitude"].tolist(), [-499.8, -0.2, 62.6])
        self.assertEqual(ride["position_lat"].tolist(), [180 / 2**31, -180 / 2**31, 540 / 2**31])

    def test_infinity_is_no_value(self):
        data = framed("40 00 00 14 00 02 C8 04 88 C9 08 88  00 00 00 80 7F 00 00 80 3F 00 00 80 FF")
        ride, raw = fitrec.read(data), fitrec.read(data, raw=True)
        self.assertTrue(np.isnan(ride["field_200"][0]))
        np.testing.assert_array_equal(ride["field_201"][0], [1, np.nan])
        self.assertEqual(raw["field_200"].tolist(), [np.inf])
        self.assertEqual(raw["field_201"][0].tolist(), [1, -np.inf])

    def test_equal_columns(self):
        ride = fitrec.read(WIDE)
        self.assertTrue(ride == fitrec.read(WIDE))
        self.assertEqual((ride == fitrec.read(WIDE, raw=True), ride != fitrec.read(WIDE, raw=True)), (False, True))
        self.assertEqual((ride == fitrec.read(RIDE), ride == dict(ride), ride == 1), (False, False, False))
        self.assertEqual(pickle.loads(pickle.dumps(ride)), ride)

    def test_names_of_the_profile(self):
        found = fitrec.read(RIDE, fields=["vertical_oscillation", 31, "field_39", 254])
        self.assertEqual(list(found), ["vertical_oscillation", "gps_accuracy", "field_39", "message_index"])
        self.assertEqual((found.units["vertical_oscillation"], found.units["gps_accuracy"]), ("mm", "m"))
        self.assertEqual(list(fitrec.read(RIDE, message="weather_conditions")), ["timestamp"])

    def test_more_columns_than_one_call_has(self):
        self.assertEqual(len(fitrec.read(RIDE, fields=range(256))), 256)
        self.assertEqual(fitrec.read(RIDE, fields=range(256))["heart_rate"].tolist()[::2], [92.0, 93.0])


# A developer, three descriptions of it, and records: a float, 64 bits with and without a sign, a string, an array, bytes, and developer
# fields, of which the last has no description. Numbers are in big-endian order.
WIDE = framed("""
    40 00 01 00 CF 01 03 01 02   00 00
    41 00 01 00 CE 07 00 01 02 01 01 02 02 01 02 03 06 07 06 01 02 07 01 01 08 04 07
    01 00 05 84 70 6F 77 65 72 00 0A 01 57 00 00 00
    01 00 06 88 6C 65 61 6E 00 00 FF 7F 72 61 64 00
    62 00 01 00 14 08 03 01 02 C8 04 88 C9 08 8E CA 08 8F CB 05 07 CC 04 84 CD 02 0D 27 02 84 03 05 02 00 06 04 00 09 01 00
    02 64 3FC00000 FFFFFFFFFFFFFFFE FFFFFFFFFFFFFFFE 6162006364 0001FFFF FF01 01F5 00C8 3E800000 07
    02 FF FFFFFFFF 7FFFFFFFFFFFFFFF FFFFFFFFFFFFFFFF 0000000000 FFFFFFFF FFFF FFFF FFFF FFFFFFFF 08""")


# The sports 2, none and 1, the sub-sports 7, 200 and none, and the events none, 8 and 9.
SESSIONS = framed("40 00 00 12 00 03 05 01 00 06 01 00 00 01 00  00 02 07 FF  00 FF C8 08  00 01 FF 09")
NAMED = {"sport": ["cycling", None, "running"], "sub_sport": ["road", "200", None], "event": [None, "session", "lap"]}


class OfEnums(unittest.TestCase):
    def test_names(self):
        for words in {}, {"raw": True}:
            found = fitrec.read(SESSIONS, "session", [*NAMED, "total_calories"], enums=True, **words)
            self.assertEqual({name: found[name].tolist() for name in NAMED}, NAMED)
            self.assertEqual(list(found.units.values()), [*["enum"] * 3, "" if words else "kcal"])
            self.assertEqual(found["total_calories"].dtype, np.dtype(np.int64 if words else float))
        self.assertEqual(fitrec.read(SESSIONS, "session", "sport")["sport"].tolist()[::2], [2.0, 1.0])
        self.assertEqual(fitrec.read(SESSIONS, "session", enums=True)["sub_sport"].tolist(), NAMED["sub_sport"])

    def test_other_types(self):
        # the sport as a float, and as two numbers, which have no names
        as_float = framed("40 00 00 12 00 01 05 04 88  00 00 00 00 40")
        self.assertEqual(fitrec.read(as_float, "session", "sport", enums=True)["sport"].tolist(), ["cycling"])
        # half a number, and no finite one
        for number in "3F000000", "7F800000", "7F000000":
            other = framed("40 00 01 00 12 01 05 04 88  00" + number)
            self.assertEqual(fitrec.read(other, "session", "sport", raw=True, enums=True)["sport"].dtype, np.dtype(float))
            # an infinity is none in units
            self.assertEqual(fitrec.read(other, "session", "sport", enums=True).units["sport"], "enum" if number == "7F800000" else "")
        as_several = framed("40 00 00 12 00 01 05 02 00  00 02 01")
        self.assertEqual(fitrec.read(as_several, "session", "sport", enums=True)["sport"][0].tolist(), [2, 1])

    def test_in_pandas(self):
        table = fitrec.read(SESSIONS, "session", enums=True).to_pandas()
        self.assertEqual([str(table[name].dtype) for name in NAMED], ["category"] * 3)
        self.assertEqual(table["sport"].value_counts().to_dict(), {"cycling": 1, "running": 1})


class OfLimits(unittest.TestCase):
    def refused(self, call, *words, **more):
        with self.assertRaises(fitrec.FitError) as caught:
            call(*words, **more)
        self.assertEqual(caught.exception.kind, "OverLimit")
        return caught.exception.place

    def test_bytes_of_a_file(self):
        many = len(RIDE)
        with tempfile.TemporaryDirectory() as folder:
            path = pathlib.Path(folder, "ride.fit")
            path.write_bytes(RIDE)
            for source in RIDE, memoryview(RIDE), path, str(path):
                for call in fitrec.read, fitrec.salvage, fitrec.skip, fitrec.split:
                    self.assertEqual(self.refused(call, source, most_bytes=many - 1), many - 1)
                for call in fitrec.salvage, fitrec.skip, fitrec.split:
                    self.assertTrue(call(source, most_bytes=many))
                for call in fitrec.check, fitrec.finish:
                    self.assertEqual(self.refused(call, source, most_bytes=many - 1), many - 1)

    def test_bytes_that_are_made(self):
        # three messages with columns of eight bytes a value
        fields = ["field_%d" % it for it in range(12)]
        self.assertIsNone(self.refused(fitrec.read, RIDE, fields=fields, most_bytes=8 * 12 * 3 - 1))
        self.assertEqual(len(fitrec.read(RIDE, fields=fields, most_bytes=8 * 12 * 3)), 12)
        self.assertIsNone(self.refused(fitrec.read, RIDE, most_bytes=8 * 12 * 3 - 1))
        self.assertEqual(len(fitrec.read(RIDE, most_bytes=8 * 12 * 3)), 12)
        # what is made has the closing checksum that is cut off
        whole = framed("40 00 00 14 00 02 FD 04 86 03 01 02" + "".join("00 %02X CA 9A 3B 64" % it for it in range(60)))
        for call in fitrec.salvage, fitrec.skip:
            self.assertIsNone(self.refused(call, whole[:-2], most_bytes=len(whole) - 1))
            self.assertEqual(call(whole[:-2], most_bytes=len(whole)).data, whole)
        finished = fitrec.finish(RIDE).data
        self.assertIsNone(self.refused(fitrec.finish, RIDE, most_bytes=len(finished) - 1))
        self.assertEqual(fitrec.finish(RIDE, most_bytes=len(finished)).data, finished)
        # a compressed timestamp is written out
        short = framed("40 00 00 14 00 02 FD 04 86 03 01 02 00 00 CA 9A 3B 5C 85 00 CA 9A 3B 5D")
        moved = fitrec.shift(short, 1)
        self.assertGreater(len(moved), len(short))
        self.assertIsNone(self.refused(fitrec.shift, short, by=1, most_bytes=len(moved) - 1))
        self.assertEqual(fitrec.shift(short, 1, most_bytes=len(moved)), moved)

    def test_before_memory_is_taken(self):
        # 1 MB with a message in each byte, of which all columns have 100 MB; and a file of a terabyte without contents
        code = """if True:
            import fitrec, os, resource, sys, tempfile
            from test_fitrec import framed_fast
            file = framed_fast(bytes.fromhex("40 00 00 14 00 00") + bytes(1_000_000))
            folder = tempfile.mkdtemp()
            names = [os.path.join(folder, it) for it in ("a", "b")]
            with open(names[0], "wb") as to:
                to.write(file)
            with open(names[1], "wb") as to:
                os.truncate(names[1], 1 << 40)
            before, kinds = resource.getrusage(resource.RUSAGE_SELF).ru_maxrss, []
            for source in [file, *names]:
                try:
                    fitrec.read(source, most_bytes=12_000_000)
                except fitrec.FitError as fault:
                    kinds.append((fault.kind, fault.place))
            for fields in None, ["timestamp", "heart_rate", "power", "speed"]:
                kinds += [it.fault[1:3] for it in fitrec.iter_many(names, fields, workers=1, most_bytes=12_000_000)]
            print(kinds, resource.getrusage(resource.RUSAGE_SELF).ru_maxrss - before < 50_000)
            [os.unlink(it) for it in names]"""
        said = subprocess.check_output([sys.executable, "-c", code], cwd=pathlib.Path(__file__).parent, text=True)
        pair = [("OverLimit", None), ("OverLimit", 12_000_000)]
        self.assertEqual(said, "%s True\n" % [pair[0], *pair, *pair, *pair])


class OfOtherValues(unittest.TestCase):
    def test_in_units(self):
        ride = fitrec.read(WIDE)
        self.assertEqual(list(ride)[12:], ["vertical_oscillation", "field_200", "field_201", "field_202", "field_203", "field_204",
                                           "field_205", "power_0_5", "lean", "developer_0_9"])
        wanted = {"heart_rate": 100, "vertical_oscillation": 50.1, "field_200": 1.5, "field_201": -2, "field_202": 2.0**64, "power_0_5": 19,
                  "lean": 0.25}
        for name, value in wanted.items():
            np.testing.assert_array_equal(ride[name], [value, np.nan])
        self.assertEqual((ride["field_203"].tolist(), ride["field_205"].tolist()), (["ab", None], [b"\xFF\x01", None]))
        np.testing.assert_array_equal(ride["field_204"][0], [1, np.nan])
        self.assertIsNone(ride["field_204"][1])
        self.assertEqual(ride["developer_0_9"].tolist(), [b"\x07", b"\x08"])
        self.assertEqual([ride.units[it] for it in ("power_0_5", "lean", "developer_0_9")], ["W", "rad", ""])

    def test_raw(self):
        raw = fitrec.read(WIDE, fields=["field_201", "field_202", "developer_0_5", "field_204", "lean"], raw=True)
        found = {name: it.tolist() for name, it in raw.items()}
        self.assertEqual((found["field_201"], found["field_202"]), ([-2, fitrec.NO_VALUE], [2**64 - 2, 2**64 - 1]))
        self.assertEqual((found["developer_0_5"], found["field_204"][0].tolist()), ([200, fitrec.NO_VALUE], [1, 65535]))
        self.assertEqual((found["lean"][0], raw["field_202"].dtype), (0.25, np.dtype("u8")))

    def test_runs(self):
        # two local numbers by turns, a definition again, and compressed timestamps of one
        mixed = framed("""
            40 00 00 14 00 01 C8 04 88  41 00 00 15 00 01 00 01 00  00 00 00 80 3F  01 04  00 00 00 00 40
            40 00 00 14 00 02 03 01 02 C8 04 88  00 63 00 00 40 40  80 64 00 00 80 40  A1 05
            9F 65 00 00 A0 40""" + "9E 66 00 00 C0 40" * 900)
        ride = fitrec.read(mixed, fields=["heart_rate", "field_200"])
        np.testing.assert_array_equal(ride["field_200"], [1, 2, 3, 4, 5] + [6] * 900)
        np.testing.assert_array_equal(ride["heart_rate"], [np.nan, np.nan, 99, 100, 101] + [102] * 900)

    def test_cycles_of_runs(self):
        # a record of one definition and two of another, by turns, and then an event
        mixed = framed("40 00 00 14 00 01 C8 04 88  41 00 00 14 00 01 03 01 02" + "00 00 00 80 3F 01 04 01 05" * 500 + "42 00 00 15 00 00  02")
        ride = fitrec.read(mixed, fields=["heart_rate", "field_200"])
        np.testing.assert_array_equal(ride["field_200"], [1, np.nan, np.nan] * 500)
        np.testing.assert_array_equal(ride["heart_rate"], [np.nan, 4, 5] * 500)


def described_as(index, number, base, name, unit=""):
    """The content of a message field_description: index, number and base type of the field, name of 10 bytes, unit of 4."""
    return bytes([1, index, number, base]) + name.encode().ljust(10, b"\0") + unit.encode().ljust(4, b"\0")


# The definition of these messages, as local number 1, and that of a record with one developer field of one byte, as 2.
DESCRIPTIONS = bytes.fromhex("41 00 00 CE 00 05 00 01 02 01 01 02 02 01 02 03 0A 07 08 04 07")
RECORDS = bytes.fromhex("62 00 00 14 00 00 01 00 01 00")


class OfDeveloperFields(unittest.TestCase):
    def test_described_anew(self):
        # the same field is a power in watts, and then another one, which the file says in the middle
        power, balance = described_as(0, 0, 2, "Power", "W"), described_as(0, 0, 2, "wprime_bal", "J")
        ride = fitrec.read(framed((DESCRIPTIONS + power + RECORDS + b"\2\x64\2\x65" + balance + b"\2\x0C" + power + b"\2\x66").hex()))
        self.assertEqual(list(ride)[12:], ["Power", "wprime_bal"])
        np.testing.assert_array_equal(ride["Power"], [100, 101, np.nan, 102])
        np.testing.assert_array_equal(ride["wprime_bal"], [np.nan, np.nan, 12, np.nan])
        self.assertEqual((ride.units["Power"], ride.units["wprime_bal"]), ("W", "J"))

    def test_described_in_another_unit(self):
        first, then = described_as(0, 0, 2, "Power", "W"), described_as(0, 0, 2, "Power", "kW")
        data = framed((DESCRIPTIONS + first + RECORDS + b"\2\x64" + then + b"\2\x01").hex())
        ride = fitrec.read(data)
        self.assertEqual([(it, ride.units[it]) for it in list(ride)[12:]], [("Power", "W"), ("Power_0_0", "kW")])
        np.testing.assert_array_equal(ride["Power_0_0"], [np.nan, 1])
        # by its numbers a field has all of its values
        self.assertEqual(fitrec.read(data, fields=["developer_0_0"], raw=True)["developer_0_0"].tolist(), [100, 1])

    def test_described_too_late(self):
        late = framed((RECORDS + b"\2\x64" + DESCRIPTIONS + described_as(0, 0, 2, "Power", "W") + b"\2\x65").hex())
        ride = fitrec.read(late)
        self.assertEqual((ride["developer_0_0"].tolist(), ride["Power"].tolist()[1]), ([b"\x64", None], 101))

    def test_work_grows_with_the_file(self):
        # each description has a few records after it, so that none can be taken together with another
        def lines_run(many):
            parts = b"".join(described_as(0, 0, 2, "Power", "W") + b"\2\x01" * (1 + it * it % 7) for it in range(many))
            data, lines = framed_fast(DESCRIPTIONS + RECORDS + parts), [0]

            def count(frame, event, argument):
                lines[0] += 1
                return count

            sys.settrace(count)
            try:
                self.assertEqual(fitrec.read(data)["Power"].tolist()[:3], [1, 1, 1])
            finally:
                sys.settrace(None)
            return lines[0]

        once, twice = lines_run(200), lines_run(400)
        self.assertLess(twice, 2.2 * once)


def framed_fast(records):
    """A file whose checksum is not given in the header."""
    head = bytes.fromhex("0C 10 64 00") + len(records).to_bytes(4, "little") + b".FIT"
    return head + records + checksum(head + records)


class OfFaults(unittest.TestCase):
    def test_where_descriptions_are_cut_off(self):
        for size in range(len(WIDE)):
            self.assertRaises(fitrec.FitError, fitrec.read, WIDE[:size])

    def test_kind_and_place(self):
        for data, kind, place in (b"", "Truncated", 0), (b"\0" * 20, "HeaderSize", 0), (RIDE[:-1], "Truncated", len(RIDE) - 1), (
                RIDE + b"\0", "TrailingBytes", len(RIDE)), (RIDE[:-1] + b"\0", "FileCrc", len(RIDE) - 2):
            with self.assertRaises(fitrec.FitError) as caught:
                fitrec.read(data)
            self.assertEqual((caught.exception.kind, caught.exception.place, caught.exception.path), (kind, place, None))

    def test_want_of_memory(self):
        with mock.patch("fitrec._library._columns", return_value=10):
            self.assertRaises(MemoryError, fitrec.read, RIDE)

    def test_of_a_file(self):
        with tempfile.TemporaryDirectory() as folder:
            path = pathlib.Path(folder, "a.fit")
            path.write_bytes(b"\0")
            with self.assertRaisesRegex(fitrec.FitError, "a.fit: HeaderSize at 0$") as caught:
                fitrec.read(path)
            again = pickle.loads(pickle.dumps(caught.exception))
            self.assertEqual((again.kind, again.place, again.path), ("HeaderSize", 0, str(path)))
            with self.assertRaises(OSError):
                fitrec.read(path.with_name("none.fit"))


class OfTables(unittest.TestCase):
    def setUp(self):
        try:
            import pandas  # noqa: F401
        except ImportError:
            self.skipTest("there is no pandas")

    def test_one(self):
        table = fitrec.read(RIDE).to_pandas()
        self.assertEqual((len(table), table["heart_rate"][0], str(table["timestamp"][0])), (3, 92.0, "2021-09-08 01:46:40+00:00"))
        self.assertEqual(table.attrs["units"]["speed"], "m/s")

    def test_of_columns(self):
        import pandas

        ride = fitrec.read(RIDE)
        table = ride.to_pandas()
        self.assertEqual(str(table["timestamp"].dtype), "datetime64[ns, UTC]")
        table["timestamp"] = table["timestamp"].dt.tz_localize(None)
        self.assertTrue(pandas.DataFrame(ride).equals(table))
        # a local time is one of no zone, and a raw one is a number
        local = fitrec.schema(["local_timestamp"], message="monitoring").to_pandas()["local_timestamp"]
        self.assertEqual(str(local.dtype), "datetime64[ns]")
        self.assertEqual(fitrec.read(RIDE, raw=True).to_pandas()["timestamp"].dtype, np.int64)

    def test_many_that_lack_a_field(self):
        described = framed((DESCRIPTIONS + described_as(0, 0, 2, "Power", "W") + RECORDS + b"\2\x64").hex())
        with tempfile.TemporaryDirectory() as folder:
            paths = [pathlib.Path(folder, name) for name in ("a.fit", "b.fit")]
            for path, data in zip(paths, (framed("40 00 00 14 00 01 03 01 02  00 5C"), described)):
                path.write_bytes(data)
            table, faults = fitrec.read_many(paths, fields=["heart_rate", "Power"])
            self.assertEqual((list(table), faults), (["file", "heart_rate", "Power"], {}))
            np.testing.assert_array_equal(table["Power"], [np.nan, 100])
            np.testing.assert_array_equal(table["heart_rate"], [92, np.nan])
            self.assertEqual(list(fitrec.read_many(paths, fields="heart_rate")[0]), ["file", "heart_rate"])
            # a name that no file has is wrong, as it is for one file
            with self.assertRaisesRegex(ValueError, "Pwoer"):
                fitrec.read_many(paths, fields=["Pwoer"])

    def test_many(self):
        with tempfile.TemporaryDirectory() as folder:
            paths = [pathlib.Path(folder, name) for name in ("a.fit", "b.fit", "c.fit", "none.fit")]
            for path, data in zip(paths, (RIDE, RIDE[:40], RIDE)):
                path.write_bytes(data)
            table, faults = fitrec.read_many(paths, fields=["heart_rate"])
            self.assertEqual(table["file"].tolist(), [str(paths[0])] * 3 + [str(paths[2])] * 3)
            self.assertEqual(table["heart_rate"].fillna(0).tolist(), [92.0, 0, 93.0] * 2)
            self.assertEqual([type(faults[str(path)]).__name__ for path in (paths[1], paths[3])], ["FitError", "FileNotFoundError"])
            self.assertEqual(len(fitrec.read_many([])[0]), 0)


if __name__ == "__main__":
    unittest.main()
