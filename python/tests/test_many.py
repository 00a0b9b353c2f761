"""Tests of many files at once: python3 -m unittest discover python/tests."""

import contextlib
import os
import pathlib
import pickle
import signal
import subprocess
import sys
import tempfile
import unittest
from unittest import mock

import numpy as np

import fitrec
from fitrec import _batch, _many, _workers
from test_fitrec import DESCRIPTIONS, RECORDS, RIDE, SESSIONS, WIDE, described_as, framed

FIELDS = ["timestamp", "heart_rate", "altitude"]
POWER = framed((DESCRIPTIONS + described_as(0, 0, 2, "Power", "W") + RECORDS + b"\2\x64").hex())


class InAFolder(unittest.TestCase):
    def setUp(self):
        folder = tempfile.TemporaryDirectory()
        self.addCleanup(folder.cleanup)
        self.folder = pathlib.Path(folder.name)

    def files(self, *contents):
        """The names of files with these contents."""
        paths = [self.folder / ("%03d.fit" % at) for at in range(len(contents))]
        for path, content in zip(paths, contents):
            path.write_bytes(content)
        return [str(it) for it in paths]


class OfSchemas(unittest.TestCase):
    def test_names_units_and_types(self):
        found = fitrec.schema({"timestamp": None, "heart_rate": None, 31: None, "Power": float, "field_203": str, "field_204": list})
        self.assertEqual([(name, str(it.dtype), len(it)) for name, it in found.items()], [
            ("timestamp", "datetime64[s]", 0), ("heart_rate", "float64", 0), ("gps_accuracy", "float64", 0), ("Power", "float64", 0),
            ("field_203", "object", 0), ("field_204", "object", 0)])
        self.assertEqual(list(found.units.values()), ["date", "bpm", "m", "", "", ""])
        raw = fitrec.schema({"timestamp": None, "power": float}, units=False)
        self.assertEqual([str(it.dtype) for it in raw.values()], ["int64", "float64"])
        self.assertEqual(raw.units, {"timestamp": "", "power": ""})
        self.assertEqual(list(fitrec.schema("start_time", message="lap")), ["start_time"])

    def test_refused(self):
        for fields, words, fault in (
                (["heart_rat"], {}, "heart_rat"), ({"Power": None}, {}, "Power"), ([256], {}, "below 256"),
                (["timestamp"], {"message": "rides"}, "rides"), (["timestamp"], {"message": 65536}, "65536"),
                ({"heart_rate": int}, {}, "int64 in units"), ({"timestamp": float}, {}, "timestamp"),
                ({"timestamp": str}, {"units": False}, "timestamp"), ({"heart_rate": dict}, {}, "heart_rate")):
            with self.assertRaisesRegex(ValueError, fault):
                fitrec.schema(fields, **words)


class OfEnums(InAFolder):
    def test_one_schema(self):
        # a sport that is a float, one that is two numbers, and one that is half a number
        others = [framed("40 00 00 12 00 01 05 04 88  00 00 00 %s" % it) for it in ("00 40", "00 3F")]
        names = self.files(SESSIONS, *others, framed("40 00 00 12 00 01 05 02 00  00 02 01"), framed("40 00 00 12 00 00  00"))
        wanted = [["cycling", None, "running"], ["cycling"], None, None, [None]]
        for units in True, False:
            self.assertEqual(fitrec.schema("sport", "session", units, enums=True).units, {"sport": "enum"})
            for workers in 1, 2:
                found = list(fitrec.iter_many(names, ["sport", "start_time"], "session", units, workers, enums=True))
                self.assertEqual([it.columns and it.columns["sport"].tolist() for it in found], wanted)
                self.assertEqual([it.fault and it.fault.kind for it in found], [None, None, "OtherType", "OtherType", None])
        # a type that is asked for is as it was
        found = next(fitrec.iter_many(names, {"sport": float}, "session", enums=True))
        self.assertEqual((found.columns["sport"].tolist()[::2], found.columns.units), ([2.0, 1.0], {"sport": ""}))

    def test_without_a_schema(self):
        names = self.files(SESSIONS, framed("40 00 00 12 00 01 05 02 00  00 02 01"), framed("40 00 00 12 00 01 05 01 00  00 0C"))
        for fields in None, ["sport", "event"]:
            table, faults = fitrec.read_many(names, "session", fields, enums=True)
            self.assertEqual((str(table["event"].dtype), faults), ("category", {}))
            self.assertEqual([it if it is None or isinstance(it, str) else list(it) for it in table["sport"]], [
                "cycling", None, "running", [2, 1], "cross_country_skiing"])


class OfLimits(InAFolder):
    def test_each_file(self):
        names = self.files(RIDE, SESSIONS)
        for fields in None, FIELDS:
            for workers in 1, 2:
                found = list(fitrec.iter_many(names, fields, workers=workers, most_bytes=len(RIDE) - 1))
                self.assertEqual(found[0].fault[1:3], ("OverLimit", len(RIDE) - 1))
                self.assertIn("OverLimit", found[0].fault.text)
                self.assertIsNone(found[1].fault)
        # three rows of twelve columns of eight bytes
        many = ["field_%d" % it for it in range(12)]
        kinds = [next(fitrec.iter_many(names, many, most_bytes=most)).fault for most in (8 * 36 - 1, 8 * 36)]
        self.assertEqual([it and it[1:3] for it in kinds], [("OverLimit", None), None])
        table, faults = fitrec.read_many(names, most_bytes=100)
        self.assertEqual([it.kind for it in faults.values()], ["OverLimit"])
        checked = fitrec.check_many(names, most_bytes=100)
        self.assertEqual((checked["kind"][0], checked["place"][0]), ("OverLimit", 100))


class OfOneAfterAnother(InAFolder):
    def test_in_order_with_one_schema(self):
        lacks = framed("40 00 00 14 00 01 03 01 02  00 5C")
        names = self.files(RIDE, lacks, RIDE[:40], RIDE, b"") + [str(self.folder / "none.fit"), str(self.folder)]
        for workers in 1, 2:
            with mock.patch.object(_many, "_MOST_FILES", 2):
                found = list(fitrec.iter_many(names, FIELDS, workers=workers))
            self.assertEqual([it.file for it in found], names)
            self.assertEqual([it.fault and it.fault[:3] for it in found], [
                None, None, (names[2], "Truncated", 40), None, (names[4], "Truncated", 0), (names[5], "FileNotFoundError", None),
                (names[6], "IsADirectoryError", None)])
            for it, data in zip(found, (RIDE, None, None, RIDE)):
                self.assertEqual(it.columns, fitrec.read(data, fields=FIELDS) if data else it.columns)
            self.assertEqual(found[0].columns["heart_rate"][[0, 2]].tolist(), [92, 93])
            self.assertEqual([(name, str(it.dtype)) for name, it in found[1].columns.items()],
                             [("timestamp", "datetime64[s]"), ("heart_rate", "float64"), ("altitude", "float64")])
            self.assertEqual(str(found[1].columns["timestamp"][0]), "NaT")
            self.assertTrue(np.isnan(found[1].columns["altitude"][0]))
            self.assertIsNone(found[2].columns)
        self.assertIn("000.fit", repr(found[0]))

    def test_raw(self):
        columns = next(fitrec.iter_many(self.files(RIDE), ["position_lat", "heart_rate", "power"], units=False)).columns
        self.assertEqual({name: it.tolist() for name, it in columns.items()}, {
            "position_lat": [566012345, -1, fitrec.NO_VALUE], "heart_rate": [92, fitrec.NO_VALUE, 93], "power": [fitrec.NO_VALUE] * 3})

    def test_values_of_every_type(self):
        asked = {"heart_rate": None, "field_200": None, "field_201": float, "field_203": str, "field_204": list, "field_205": bytes,
                 "power_0_5": float, "lean": float, "field_1": str}
        found = list(fitrec.iter_many(self.files(WIDE, RIDE, WIDE), asked, workers=1))
        for it in found[0], found[2]:
            columns = it.columns
            self.assertEqual(list(columns), ["heart_rate", "field_200", "field_201", "field_203", "field_204", "field_205", "power_0_5",
                                             "lean", "field_1"])
            for name, value in ("heart_rate", 100), ("field_200", 1.5), ("field_201", -2), ("power_0_5", 19), ("lean", 0.25):
                np.testing.assert_array_equal(columns[name], [value, np.nan])
            self.assertEqual((columns["field_203"].tolist(), columns["field_205"].tolist()), (["ab", None], [b"\xFF\x01", None]))
            np.testing.assert_array_equal(columns["field_204"][0], [1, np.nan])
            self.assertIsNone(columns["field_204"][1])
            self.assertEqual(columns["field_1"].tolist(), [None, None])
        # the ride has none of them but a heart rate
        self.assertEqual(found[1].columns["heart_rate"][0], 92)
        self.assertEqual([found[1].columns[name].tolist() for name in ("field_203", "field_204", "field_205")], [[None] * 3] * 3)
        self.assertTrue(np.isnan([found[1].columns[name] for name in ("field_200", "field_201", "power_0_5", "lean")]).all())

    def test_another_type(self):
        names = self.files(WIDE, RIDE, WIDE)
        for asked, text in ({"field_203": None}, "field_203 has a value of str, and not of float64"), (
                {"heart_rate": str}, "heart_rate has a value of float64, and not of str"), (
                {"field_204": float}, "field_204 has a value of ndarray, and not of float64"):
            found = list(fitrec.iter_many(names, asked, workers=1))
            self.assertEqual(found[0].fault[1:3], ("OtherType", None))
            self.assertIn(text, found[0].fault.text)
            self.assertEqual(found[1].fault is None, "heart_rate" not in asked)
        raw = list(fitrec.iter_many(names, {"field_202": np.uint64, "field_200": float}, units=False, workers=1))
        self.assertEqual(raw[0].columns["field_202"].tolist(), [2**64 - 2, 2**64 - 1])
        self.assertEqual((raw[0].columns["field_200"][0], raw[1].columns["field_202"].tolist()), (1.5, [2**64 - 1] * 3))
        self.assertEqual(list(fitrec.iter_many(names, {"field_202": int}, units=False, workers=1))[0].fault.kind, "OtherType")

    def test_without_fields(self):
        names = self.files(RIDE, WIDE)
        for it, data in zip(fitrec.iter_many(names, workers=1), (RIDE, WIDE)):
            self.assertEqual(it.columns, fitrec.read(data))

    def test_what_is_refused_before_a_file_is_read(self):
        with self.assertRaisesRegex(ValueError, "heart_rat"):
            fitrec.iter_many(iter(()), ["heart_rat"])
        with self.assertRaisesRegex(ValueError, "worker"):
            fitrec.iter_many([], FIELDS, workers=0)
        for call in (lambda it: fitrec.iter_many(it, FIELDS), fitrec.read_many, fitrec.check_many,
                     lambda it: fitrec.write_many(it, self.folder / "to", FIELDS)):
            for one in "rides", self.folder:
                with self.assertRaisesRegex(ValueError, "as a list"):
                    call(one)

    def test_more_columns_and_rows_than_a_call_has(self):
        many = framed("40 00 00 14 00 01 03 01 02" + "00 64" * 5000)
        found = list(fitrec.iter_many(self.files(RIDE, many, RIDE), range(256), workers=1))
        self.assertEqual(len(found[0].columns), 256)
        self.assertEqual([it.columns["heart_rate"].tolist()[0] for it in found], [92, 100, 92])
        self.assertEqual(len(found[1].columns["heart_rate"]), 5000)

    def test_more_values_than_a_process_keeps_room_for(self):
        # what is not whole is made so
        rows = bytes.fromhex("40 00 00 14 00 02 03 01 02 04 01 02") + b"".join(b"\0%c%c" % (at % 250, at // 250 % 250) for at in range(600_000))
        long = fitrec.salvage(bytes.fromhex("0C 10 64 00 00 00 00 00") + b".FIT" + rows, all=True).data
        names, fields = self.files(RIDE, long, RIDE, RIDE[:40], POWER, RIDE), {"heart_rate": None, "cadence": None, "Power": float}
        wanted = [fitrec.read(data, fields=["heart_rate", "cadence"]) for data in (RIDE, long, RIDE, RIDE, POWER, RIDE)]
        self.assertEqual(len(wanted[1]["cadence"]), 600_000)
        for workers, room in (1, 1 << 19), (2, 1 << 19), (1, 9), (1, 24), (1, 2):
            with mock.patch.object(_batch, "WORK_VALUES", room), mock.patch.object(_many, "_MOST_BYTES", 1 << 22):
                found = [it for it in fitrec.iter_many([*names, names[0]], fields, workers=workers)]
            for at, (it, own) in enumerate(zip(found, wanted)):
                if at != 3:
                    self.assertEqual(list(it.columns), list(fields))
                    np.testing.assert_array_equal(it.columns["heart_rate"], own["heart_rate"])
                    np.testing.assert_array_equal(it.columns["cadence"], own["cadence"])
            self.assertEqual((found[3].fault.kind, found[4].columns["Power"].tolist()), ("Truncated", [100]))

    def test_memory_is_used_again(self):
        # as many batches as no two memories hold, each with other values
        contents = [framed("40 00 00 14 00 01 03 01 02" + "00 %02X" % at * 3) for at in range(100)]
        with mock.patch.object(_many, "_MOST_FILES", 1):
            for workers in 1, 2:
                found = [it.columns["heart_rate"].tolist() for it in fitrec.iter_many(self.files(*contents), ["heart_rate"], workers=workers)]
                self.assertEqual(found, [[float(at)] * 3 for at in range(100)])

    def test_a_pipe_is_not_waited_for(self):
        os.mkfifo(self.folder / "pipe")
        found = next(fitrec.iter_many([self.folder / "pipe"], FIELDS))
        self.assertEqual(found.fault.kind, "OSError")

    def test_a_file_holds_its_own_memory_alone(self):
        for workers in 1, 2:
            for it in fitrec.iter_many(self.files(*[RIDE] * 300), FIELDS, workers=workers):
                column = it.columns["heart_rate"]
                while column.base is not None:
                    column = column.base
                self.assertEqual(column.nbytes, 8 * 3 * 3)

    def test_memory_does_not_grow_with_files(self):
        name = self.files(framed("40 00 00 14 00 01 03 01 02" + "00 64" * 5000))[0]

        def peak(many):
            code = ("import fitrec, resource\nfor it in fitrec.iter_many([%r] * %d, ['heart_rate', 'power'], workers=2): pass\n"
                    "print(resource.getrusage(resource.RUSAGE_SELF).ru_maxrss, resource.getrusage(resource.RUSAGE_CHILDREN).ru_maxrss)")
            return [int(it) for it in subprocess.check_output([sys.executable, "-c", code % (name, many)]).split()]

        # the further files have 360 MB of values, and what waits for two workers at most ten memories of 4 MB
        for few, many in zip(peak(1500), peak(6000)):
            self.assertLess(many, few + 60_000)

    def test_read_many_by_workers(self):
        names = self.files(*[RIDE, POWER, RIDE[:40]] * 3)
        with mock.patch.object(_many, "_MOST_FILES", 2):
            table, faults = fitrec.read_many(names, fields=["heart_rate", "Power"], workers=2)
        alone, same = fitrec.read_many(names, fields=["heart_rate", "Power"], workers=1)
        self.assertTrue(table.equals(alone))
        self.assertEqual([str(it) for it in faults.values()], [str(it) for it in same.values()])
        self.assertEqual((table["heart_rate"][0], table["Power"][3]), (92, 100))
        self.assertEqual([type(it).__name__ for it in faults.values()], ["FitError"] * 3)


# Ends the process that opens a file with the first name, for the first time one with the second, and keeps one waiting that opens the third.
KILLER = """
import os, signal, time
plain = os.open
def opened(name, *words, **more):
    if str(name).endswith("killer.fit"):
        os.kill(os.getpid(), signal.SIGKILL)
    if str(name).endswith("once.fit"):
        try:
            os.mkdir(name + " was opened")
        except FileExistsError:
            return plain(name, *words, **more)
        os.kill(os.getpid(), signal.SIGKILL)
    if str(name).endswith("slow.fit"):
        time.sleep(1.5)
    return plain(name, *words, **more)
os.open = opened
"""


def children():
    """The workers of this process."""
    found = []
    for it in pathlib.Path("/proc").glob("[0-9]*"):
        with contextlib.suppress(OSError):
            parent = int((it / "stat").read_text().rpartition(")")[2].split()[1])
            if parent == os.getpid() and b"fitrec._workers" in (it / "cmdline").read_bytes():
                found.append(int(it.name))
    return sorted(found)


class OfWorkers(InAFolder):
    def test_one_that_is_killed(self):
        names = self.files(*[RIDE, RIDE[:40], POWER] * 100)
        wanted = list(fitrec.iter_many(names, FIELDS, workers=1))
        with mock.patch.object(_many, "_MOST_FILES", 3):
            found, killed = [], 0
            for it in fitrec.iter_many(names, FIELDS, workers=2):
                found.append(it)
                if len(found) % 60 == 1:
                    for child in children()[:1]:
                        os.kill(child, signal.SIGKILL)
                        killed += 1
        self.assertGreater(killed, 2)
        self.assertEqual(found, wanted)

    @contextlib.contextmanager
    def one_of(self, name, most):
        """The names of twenty files, of which one has this name, and so many are read at a time."""
        names = self.files(*[RIDE] * 20)
        os.rename(names[7], self.folder / name)
        names[7] = str(self.folder / name)
        (self.folder / "sitecustomize.py").write_text(KILLER)
        with mock.patch.dict(os.environ, {"PYTHONPATH": str(self.folder)}), mock.patch.object(_many, "_MOST_FILES", most):
            yield names

    def test_a_file_that_kills_once(self):
        for most in 1, 5:
            with self.one_of("%d once.fit" % most, most) as names:
                found = list(fitrec.iter_many(names, FIELDS, workers=2))
            self.assertEqual([(it.file, it.fault) for it in found], [(name, None) for name in names])
            self.assertTrue(os.path.exists(names[7] + " was opened"))

    def test_no_more_is_read_than_waits(self):
        taken = []
        with self.one_of("slow.fit", 1) as names:
            names = [names[7], *names[:7], *names[8:] * 10]
            found = fitrec.iter_many((taken.append(it) or it for it in names), FIELDS, workers=2)
            self.assertEqual(next(found).file, names[0])
            self.assertLessEqual(len(taken), 12)
            self.assertEqual([it.file for it in found], names[1:])

    def test_a_file_that_kills(self):
        with self.one_of("killer.fit", 5) as names:
            found = list(fitrec.iter_many(names, FIELDS, workers=2))
        self.assertEqual([it.file for it in found], names)
        self.assertEqual([it.file for it in found if it.fault], [names[7]])
        self.assertEqual(found[7].fault[1:3], ("WorkerDied", None))
        self.assertIn("signal 9", found[7].fault.text)
        self.assertEqual({it.columns["heart_rate"][0] for it in found if it.columns}, {92})

    def test_none_that_starts(self):
        (self.folder / "sitecustomize.py").write_text("import os; os._exit(3)")
        with mock.patch.dict(os.environ, {"PYTHONPATH": str(self.folder)}), mock.patch.object(_many, "_MOST_FILES", 1):
            with self.assertRaisesRegex(RuntimeError, "status 3"):
                list(fitrec.iter_many(self.files(RIDE, RIDE), FIELDS, workers=2))

    def test_none_is_left(self):
        names = self.files(*[RIDE] * 20)
        with mock.patch.object(_many, "_MOST_FILES", 1):
            for it in fitrec.iter_many(names, FIELDS, workers=2):
                self.assertTrue(children())
                break
            self.assertEqual(children(), [])
            self.assertEqual(len(list(fitrec.iter_many(names, FIELDS, workers=2))), 20)
        self.assertEqual(children(), [])

    def test_a_fault_of_the_job_itself_is_raised(self):
        with contextlib.closing(_workers.answers(pickle, [["a"], ["b"]], 1)) as found:
            self.assertRaises(TypeError, next, found)
        with contextlib.closing(_workers.answers(len, [["a"], ["b"]], 2)) as found:
            self.assertRaises(TypeError, next, found)


if __name__ == "__main__":
    unittest.main()
