"""Many FIT files by Dask: Debian's python3-dask, python3-distributed, python3-pandas and python3-fsspec.

    from fitrec import dask

    rows, faults = dask.from_paths("rides", ["timestamp", "heart_rate", "power"])     # two frames of dask.dataframe
    rows.groupby("file").power.mean().compute()
"""

from __future__ import annotations

import os
from typing import TYPE_CHECKING, Any, Iterable, Iterator, List, Mapping, Optional, Tuple, Union

import dask
import fsspec
from dask import dataframe
from dask.base import tokenize
from dask.dataframe.utils import clear_known_categories

from ._batch import Reader
from ._folder import (PARTITION_BYTES, Listed, Partition, Plan, Stored, Written, faults_of, frame_of_faults, listed_files, partitions_of,
                      table_of)
from ._library import FitError
from ._schema import Fields
from ._sources import Path, allow, content_of

if TYPE_CHECKING:
    import pandas

# A pattern or a folder, or some files.
Paths = Union[Path, Iterable[Path]]


class _Opener:
    """Opens what fsspec does, and files of this system by itself."""

    def __init__(self, options: Optional[Mapping[str, Any]]):
        self.options = dict(options or {})

    def __call__(self, name: str, most: Optional[int] = None) -> bytes:
        if "://" not in name:
            return content_of(name, most)
        try:
            with fsspec.open(name, "rb", **self.options) as opened:
                content = bytes(opened.read() if most is None else opened.read(most + 1))
            allow(len(content), most, name)
            return content
        except (OSError, FitError):
            raise
        except Exception as fault:  # a file system may have faults of its own
            raise OSError("%s: %s: %s" % (name, type(fault).__name__, fault)) from fault

    def listed(self, paths: Paths) -> Iterator[Listed]:
        """The files of a pattern or a folder, by their names; or these files."""
        if not isinstance(paths, (str, os.PathLike)):
            for it in paths:
                yield from self._one(os.fspath(it))
            return
        name = os.fspath(paths)
        system, path = fsspec.core.url_to_fs(name, **self.options)
        found = system.glob(path, detail=True) if any(it in path for it in "*?[") else system.find(path, detail=True)
        names = sorted(it for it, about in found.items() if about["type"] != "directory")
        if "://" not in name:
            yield from listed_files(names)
            return
        for it in names:
            yield Listed(system.unstrip_protocol(it), found[it].get("size") or 0, 0)

    def _one(self, name: str) -> Iterator[Listed]:
        if "://" not in name:
            yield from listed_files([name])
            return
        system, path = fsspec.core.url_to_fs(name, **self.options)
        try:
            yield Listed(name, system.size(path) or 0, 0)
        except Exception:  # it is a fault of its partition
            yield Listed(name, 0, 0)


class _Part:
    """Some files. Dask does not look into it."""

    def __init__(self, reader: Reader, names: List[str], opener: _Opener):
        self.reader, self.names, self.opener = reader, names, opener


def _frames(part: _Part) -> Tuple["pandas.DataFrame", "pandas.DataFrame"]:
    """The rows and the faults of these files."""
    batch = part.reader(part.names, None, part.opener)
    return table_of(part.reader, part.names, batch), frame_of_faults(faults_of(part.names, batch))


def from_paths(paths: Paths, fields: Fields, message: Union[int, str] = "record", units: bool = True,
               partition_bytes: int = PARTITION_BYTES, storage_options: Optional[Mapping[str, Any]] = None, enums: bool = False,
               most_bytes: Optional[int] = None) -> Tuple[dataframe.DataFrame, dataframe.DataFrame]:
    """The rows of many files, and the faults of those that have none, as two frames whose partitions are read when they are asked for.

    paths is a pattern or a folder, or some files: whatever fsspec opens, with these storage_options. fields, message, units, enums and
    most_bytes are those of `fitrec.iter_many`, and `fitrec.schema` says the columns; beside them `file` has the name of the file. A
    partition has files of about so many bytes. It raises ValueError for a wrong name, and nothing for a file."""
    opener = _Opener(storage_options)
    reader = Reader(fields, message, units, True, enums, most_bytes)
    how = [(it.name, it.kind_name, it.unit) for it in reader.columns], reader.number, units, most_bytes, opener.options
    made = [dask.delayed(_frames)(_Part(reader, [it.name for it in part], opener), dask_key_name="read-fit-" + tokenize(how, part))
            for part in partitions_of(opener.listed(paths), partition_bytes)]
    empty = table_of(reader, [], reader([]))
    return _frame([it[0] for it in made], empty, "fit-rows"), _frame([it[1] for it in made], frame_of_faults([]), "fit-faults")


def _frame(parts: List[Any], empty: "pandas.DataFrame", prefix: str) -> dataframe.DataFrame:
    if not parts:
        return dataframe.from_pandas(empty, npartitions=1)
    meta = clear_known_categories(empty) if "text" not in empty else empty
    return dataframe.from_delayed(parts, meta=meta, prefix=prefix, verify_meta=False)


def _write(partition: Partition, opener: _Opener) -> Tuple[int, int, int]:
    return partition.read_and_write(None, opener)


def write_many(paths: Paths, folder: Path, fields: Fields, message: Union[int, str] = "record", units: bool = True,
               partition_bytes: int = PARTITION_BYTES, storage_options: Optional[Mapping[str, Any]] = None, enums: bool = False,
               most_bytes: Optional[int] = None) -> Written:
    """Does what `fitrec.write_many` does by the workers of Dask, each of which reaches the folder by the same path. paths and
    storage_options are those of `from_paths`."""
    opener = _Opener(storage_options)
    plan = Plan(folder, opener.listed(paths), Reader(fields, message, units, True, enums, most_bytes), partition_bytes)
    missing = plan.begin()
    counts = dask.compute(*(dask.delayed(_write, pure=False)(it, opener) for it in missing))
    plan.end()
    return Written(len(plan.parts), len(plan.parts) - len(missing), *(sum(it) for it in zip((0, 0, 0), *counts)))


def read_folder(folder: Path) -> Tuple[dataframe.DataFrame, dataframe.DataFrame]:
    """The rows and the faults of a folder that `write_many` made, as two frames with a partition for each of the folder."""
    stored = Stored(folder)
    rows = [dask.delayed(stored.table)(it) for it in stored.names]
    faults = [dask.delayed(stored.faults)(it) for it in stored.names]
    return _frame(rows, stored.empty(), "fit-rows"), _frame(faults, frame_of_faults([]), "fit-faults")


__all__ = ("from_paths", "read_folder", "write_many")
