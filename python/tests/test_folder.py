"""Tests of folders of columns and of Dask: python3 -m unittest discover python/tests."""

import json
import os
import pathlib
import pickle
import signal
import subprocess
import sys
import unittest
import warnings
from unittest import mock

import numpy as np

import fitrec
from fitrec import _batch, _folder, _many
from test_fitrec import RIDE, SESSIONS, WIDE, framed
from test_many import FIELDS, KILLER, POWER, InAFolder

try:
    import pandas
except ImportError:
    pandas = None
try:
    import fsspec
    from fitrec import dask
except ImportError:
    dask = None

EVERY_TYPE = {"timestamp": None, "heart_rate": None, "field_203": str, "field_204": list, "field_205": bytes, "lean": float}
# Dies where a partition would be moved to its place for the third time.
DYING = """
import os, signal, sys, fitrec
moved, plain = [], os.replace
def replace(*words):
    moved.append(words)
    if len(moved) == 7:
        os.kill(os.getpid(), signal.SIGKILL)
    plain(*words)
os.replace = replace
fitrec.write_many(sys.argv[2:], sys.argv[1], ["timestamp", "heart_rate"], workers=1, partition_bytes=1)
"""


def rows_of(found):
    """The rows and the faults of what `iter_many` gives, as lists."""
    rows, faults = [], []
    for it in found:
        if it.fault:
            faults.append(it.fault)
        else:
            rows += [(it.file, *values) for values in zip(*(column.tolist() for column in it.columns.values()))]
    return rows, faults


class InFolders(InAFolder):
    def setUp(self):
        super().setUp()
        self.to = self.folder / "columns of rides"

    def places(self, part="columns"):
        return sorted(it.name for it in (self.to / part).iterdir())

    def same(self, frames, names, fields=FIELDS):
        """That two tables have the rows and the faults of these files."""
        rows, faults = rows_of(fitrec.iter_many(names, fields, workers=1))
        table, refused = frames
        self.assertEqual(table["file"].tolist(), [row[0] for row in rows])
        for at, name in enumerate(list(table)[1:], 1):
            wanted = [row[at] for row in rows]
            if table[name].dtype == object:
                self.assertEqual([it if isinstance(it, (str, bytes, type(None))) else it.tolist()[:1] for it in table[name]],
                                 [it if isinstance(it, (str, bytes, type(None))) else it.tolist()[:1] for it in wanted])
            elif str(table[name].dtype) == "datetime64[ns, UTC]":
                self.assertEqual([None if it is pandas.NaT else it.timestamp() for it in table[name]],
                                 [None if it is None else it.timestamp() - np.datetime64(0, "s").item().timestamp() for it in wanted])
            else:
                np.testing.assert_array_equal(table[name], wanted)
        self.assertEqual([(it.file, it.kind, None if np.isnan(it.place) else it.place, it.text) for it in refused.itertuples()], faults)


@unittest.skipUnless(pandas, "there is no pandas")
class OfFolders(InFolders):
    def test_rows_and_faults(self):
        names = [*self.files(RIDE, RIDE[:40], RIDE, POWER, b""), str(self.folder / "none.fit")]
        for workers, most in (1, 1), (1, 250), (2, 1), (2, 1 << 20):
            self.to = self.folder / ("to %d %d" % (workers, most))
            with mock.patch.object(_many, "_MOST_FILES", 2):
                said = fitrec.write_many(names, self.to, FIELDS, workers=workers, partition_bytes=most)
            self.assertEqual(said, (5 if most == 1 else 2 if most == 250 else 1, 0, 6, 7, 3))
            self.same(fitrec.read_folder(self.to), names)
        self.assertEqual(fitrec.read_folder(self.to)[0].attrs["units"], {"timestamp": "date", "heart_rate": "bpm", "altitude": "m"})

    def test_values_of_every_type(self):
        names = self.files(WIDE, RIDE, framed("40 00 00 14 00 00 00"), WIDE)
        fitrec.write_many(names, self.to, EVERY_TYPE, workers=1, partition_bytes=1)
        table, faults = fitrec.read_folder(self.to)
        self.same((table, faults), names, EVERY_TYPE)
        self.assertEqual((table["field_203"].tolist()[:3], table["field_205"][0]), (["ab", None, None], b"\xFF\x01"))
        np.testing.assert_array_equal(table["field_204"][0], [1, np.nan])
        # an array of each partition is what NumPy loads by itself
        with np.load(self.to / "columns/000000.npz") as found:
            np.testing.assert_array_equal(found["heart_rate"], [100, np.nan])

    def test_a_partition_that_another_process_writes(self):
        # NumPy warns of types that it cannot read again
        plan = _folder.Plan(self.to, _folder.listed_files(self.files(RIDE)), _batch.Reader(FIELDS, "record", True, True), 1)
        partition, = pickle.loads(pickle.dumps(plan.begin()))
        with warnings.catch_warnings():
            warnings.simplefilter("error")
            self.assertEqual(partition.read_and_write(), (1, 3, 0))

    def test_names_of_values(self):
        # each partition has other names
        names = self.files(SESSIONS, framed("40 00 00 12 00 01 05 01 00  00 0C"), framed("40 00 00 12 00 01 05 01 00  00 C8"))
        for at, write in enumerate([fitrec.write_many, *([dask.write_many] if dask else [])]):
            to = self.folder / ("named %d" % at)
            write(names, to, ["sport", "sub_sport"], "session", partition_bytes=1, enums=True)
            table, _ = fitrec.read_folder(to)
            self.assertEqual([str(table[name].dtype) for name in ("sport", "sub_sport")], ["category"] * 2)
            self.assertEqual(table["sport"].astype(object).where(table["sport"].notna(), None).tolist(), [
                "cycling", None, "running", "cross_country_skiing", "200"])
            self.assertEqual(list(table), ["file", "sport", "sub_sport"])
            with self.assertRaisesRegex(ValueError, "columns"):
                write(names, to, ["sport", "sub_sport"], "session", partition_bytes=1)

    def test_limits(self):
        names = self.files(RIDE, SESSIONS)
        for at, write in enumerate([fitrec.write_many, *([dask.write_many] if dask else [])]):
            to = self.folder / ("limited %d" % at)
            write(names, to, FIELDS, partition_bytes=1, most_bytes=len(RIDE) - 1)
            table, faults = fitrec.read_folder(to)
            self.assertEqual((len(table), faults["kind"].tolist(), faults["place"].tolist()), (0, ["OverLimit"], [len(RIDE) - 1]))

    def test_names_that_are_no_utf_8(self):
        name = os.fsencode(self.files(RIDE)[0]).replace(b"000", b"\xFF")
        pathlib.Path(self.folder / "000.fit").rename(os.fsdecode(name))
        fitrec.write_many([os.fsdecode(name)], self.to, FIELDS, workers=1)
        table, faults = fitrec.read_folder(self.to)
        self.assertEqual(table["file"][0], str(self.folder / "\\xff.fit"))
        self.assertEqual(len(faults), 0)

    def test_no_files(self):
        self.assertEqual(fitrec.write_many([], self.to, FIELDS), (0, 0, 0, 0, 0))
        table, faults = fitrec.read_folder(self.to)
        self.assertEqual((list(table), len(table), len(faults)), (["file", *FIELDS], 0, 0))

    def test_a_run_that_is_killed_goes_on(self):
        names = self.files(*[RIDE, RIDE[:40], WIDE] * 2)
        died = subprocess.run([sys.executable, "-c", DYING, self.to, *names])
        self.assertEqual(died.returncode, -signal.SIGKILL)
        # the plan, the faults of three partitions, and the columns of two were moved
        self.assertEqual(self.places("faults")[:3], ["000000.npz", "000001.npz", "000002.npz"])
        self.assertEqual([it for it in self.places() if not it.endswith(".new")], ["000000.npz", "000001.npz"])
        self.assertEqual(len(self.places()), 3)
        with self.assertRaisesRegex(ValueError, "lacks 4 of 6"):
            fitrec.read_folder(self.to)
        before = [(self.to / "columns" / it).stat().st_mtime_ns for it in self.places()[:2]]
        said = fitrec.write_many(names, self.to, ["timestamp", "heart_rate"], workers=1, partition_bytes=1)
        self.assertEqual((said.partitions, said.before, said.files), (6, 2, 4))
        self.assertEqual(self.places(), ["%06d.npz" % at for at in range(6)])
        self.assertEqual([(self.to / "columns" / it).stat().st_mtime_ns for it in self.places()[:2]], before)
        self.same(fitrec.read_folder(self.to), names, ["timestamp", "heart_rate"])
        self.assertEqual(fitrec.write_many(names, self.to, ["timestamp", "heart_rate"], partition_bytes=1), (6, 6, 0, 0, 0))

    def test_a_file_that_kills(self):
        names = self.files(*[RIDE, POWER] * 3)
        for at in 0, 3:
            os.rename(names[at], self.folder / ("%d killer.fit" % at))
            names[at] = str(self.folder / ("%d killer.fit" % at))
        (self.folder / "sitecustomize.py").write_text(KILLER)
        with mock.patch.dict(os.environ, {"PYTHONPATH": "%s:%s" % (self.folder, os.environ.get("PYTHONPATH", ""))}):
            # where they have a partition with others, and one alone
            for most in 200, 1:
                to = self.folder / ("to %d" % most)
                said = fitrec.write_many(names, to, FIELDS, workers=2, partition_bytes=most)
                self.assertEqual(said, (3 if most == 200 else 6, 0, 6, 2 * 3 + 2 * 1, 2))
                table, faults = fitrec.read_folder(to)
                self.assertEqual(list(dict.fromkeys(table["file"])), [it for at, it in enumerate(names) if at not in (0, 3)])
                self.assertEqual((faults["file"].tolist(), faults["kind"].tolist()), ([names[0], names[3]], ["WorkerDied"] * 2))

    def test_a_write_that_fails(self):
        names = self.files(RIDE, RIDE)
        with mock.patch.object(_folder.os, "fsync", side_effect=OSError("the disk is full")), self.assertRaises(OSError):
            fitrec.write_many(names, self.to, FIELDS, workers=1)
        self.assertEqual([it.name for it in self.to.rglob("*") if it.is_file()], [])

    def test_other_files_are_refused(self):
        names = self.files(RIDE, RIDE)
        fitrec.write_many(names, self.to, FIELDS, workers=1)
        pathlib.Path(names[1]).write_bytes(WIDE)
        for asked, more, what in (FIELDS, {}, "files"), (FIELDS[:2], {}, "columns"), (["timestamp"], {"message": "lap"}, "message"), (
                FIELDS, {"partition_bytes": 1}, "partitions"):
            with self.assertRaisesRegex(ValueError, "begun with other " + what):
                fitrec.write_many(names, self.to, asked, workers=1, **more)
        (self.to / "plan.json").unlink()
        with self.assertRaisesRegex(ValueError, "no plan.json"):
            fitrec.write_many(names, self.to, FIELDS, workers=1)
        self.assertRaises(FileNotFoundError, fitrec.read_folder, self.to)
        self.assertRaises(ValueError, fitrec.write_many, names, self.folder / "b", FIELDS, partition_bytes=0)


@unittest.skipUnless(pandas and dask, "there is no Dask")
class OfDask(InFolders):
    def test_frames(self):
        names = [*self.files(RIDE, RIDE[:40], RIDE, POWER, b""), str(self.folder / "none.fit")]
        for most, partitions in (1, 5), (250, 2), (1 << 20, 1):
            rows, faults = dask.from_paths(names, FIELDS, partition_bytes=most)
            self.assertEqual((rows.npartitions, faults.npartitions), (partitions, partitions))
            self.assertEqual([(name, str(it)) for name, it in rows.dtypes.items()], [
                ("file", "category"), ("timestamp", "datetime64[ns, UTC]"), ("heart_rate", "float64"), ("altitude", "float64")])
            # each partition has the types of the whole
            for frame in rows, faults:
                for part in frame.partitions:
                    self.assertEqual(list(part.compute(scheduler="sync").dtypes.astype(str)), list(frame.dtypes.astype(str)))
            table, refused = dask.dask.compute(rows, faults, scheduler="sync")
            self.same((table, refused), names)
            self.assertEqual(table.attrs["units"]["heart_rate"], "bpm")
        self.assertEqual(rows.groupby("file").heart_rate.max().compute(scheduler="sync")[names[2]], 93)

    def test_names_and_limits(self):
        # each partition has other names, and one is refused
        names = self.files(SESSIONS, framed("40 00 00 12 00 01 05 01 00  00 0C"), RIDE)
        rows, faults = dask.from_paths(names, ["sport"], "session", partition_bytes=1, enums=True, most_bytes=len(RIDE) - 1)
        table, refused = dask.dask.compute(rows, faults, scheduler="sync")
        self.assertEqual([str(rows["sport"].dtype), str(table["sport"].dtype)], ["category"] * 2)
        self.assertEqual(table["sport"].dropna().tolist(), ["cycling", "running", "cross_country_skiing"])
        self.assertEqual(refused[["file", "kind", "place"]].values.tolist(), [[names[2], "OverLimit", len(RIDE) - 1]])

    def test_each_file_is_read_once_for_both(self):
        names, opened = self.files(RIDE, RIDE[:40]), []
        content = dask.content_of
        with mock.patch.object(dask, "content_of", side_effect=lambda name, most: opened.append(name) or content(name, most)):
            dask.dask.compute(*dask.from_paths(names, FIELDS, partition_bytes=1), scheduler="sync")
        self.assertEqual(sorted(opened), names)

    def test_refused_before_a_file_is_read(self):
        with self.assertRaisesRegex(ValueError, "heart_rat"):
            dask.from_paths(["none.fit"], ["heart_rat"])

    def test_patterns_and_folders(self):
        names = self.files(RIDE, WIDE)
        (self.folder / "deeper").mkdir()
        (self.folder / "deeper/[x].fit").write_bytes(POWER)
        deep = str(self.folder / "deeper/[x].fit")
        for paths, wanted in (str(self.folder / "*.fit"), names), (self.folder, [*names, deep]), ([deep], [deep]):
            rows, _ = dask.from_paths(paths, FIELDS)
            self.assertEqual(list(dict.fromkeys(rows.compute(scheduler="sync")["file"])), wanted)

    def test_other_file_systems(self):
        memory = fsspec.filesystem("memory")
        for at, data in enumerate((RIDE, RIDE[:40], WIDE)):
            memory.pipe("/rides/%d.fit" % at, data)
        self.addCleanup(memory.rm, "/rides", True)
        names = ["memory:///rides/%d.fit" % at for at in range(3)]
        local = self.files(RIDE, RIDE[:40], WIDE)
        wanted = rows_of(fitrec.iter_many(local, FIELDS, workers=1))
        for paths in "memory://rides/*.fit", "memory://rides", [*names, "memory://rides/none.fit"]:
            rows, faults = dask.dask.compute(*dask.from_paths(paths, FIELDS, partition_bytes=1), scheduler="sync")
            np.testing.assert_array_equal(rows["heart_rate"], [row[2] for row in wanted[0]])
            self.assertEqual(list(dict.fromkeys(rows["file"])), [names[0], names[2]])
            self.assertEqual([(it.kind, it.place) for it in faults.itertuples()][0], ("Truncated", 40))
            self.assertEqual(len(faults), 1 if isinstance(paths, str) else 2)

    def test_folders_by_dask(self):
        names = self.files(RIDE, RIDE[:40], WIDE, POWER)
        with dask.dask.config.set(scheduler="sync"):
            self.assertEqual(dask.write_many(names, self.to, FIELDS, partition_bytes=1), (4, 0, 4, 6, 1))
            self.same(fitrec.read_folder(self.to), names)
            rows, faults = dask.read_folder(self.to)
            self.assertEqual(rows.npartitions, 4)
            self.same((rows.compute(), faults.compute()), names)
            (self.to / "columns/000001.npz").unlink()
            self.assertEqual(dask.write_many(names, self.to, FIELDS, partition_bytes=1), (4, 3, 1, 0, 1))
            self.same(fitrec.read_folder(self.to), names)
        # one process goes on with what Dask began
        (self.to / "columns/000000.npz").unlink()
        self.assertEqual(fitrec.write_many(names, self.to, FIELDS, workers=1, partition_bytes=1).before, 3)
        said = json.loads((self.to / "plan.json").read_text())
        self.assertEqual((said["partitions"], said["columns"][1]), (4, ["heart_rate", "bpm", "float64"]))


if __name__ == "__main__":
    unittest.main()
