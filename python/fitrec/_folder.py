"""A folder of partitions: the columns of many files, and their faults."""

from __future__ import annotations

import hashlib
import importlib.util
import json
import os
import pathlib
import secrets
import zipfile
from typing import TYPE_CHECKING, Any, Callable, Dict, Iterable, Iterator, List, NamedTuple, Optional, Tuple, Union

import numpy as np

from ._batch import Batch, Fault, Reader, Work, fault_of
from ._columns import ENUM, Columns, objects
from ._sources import Path, content_of

if TYPE_CHECKING:
    import pandas

# How many bytes of files make a partition, if nothing else is said.
PARTITION_BYTES = 8 << 20
# How the values of a column of objects lie in an array, one after another, beside their lengths: by the end of its name.
_ENDS = {str: ".text", bytes: ".bytes", list: ".values"}
_LENGTHS = ".lengths"
_NEW = ".new"


class Written(NamedTuple):
    """How many partitions the folder has, and how many were there before; and the files, rows and faults of those that were written."""

    partitions: int
    before: int
    files: int
    rows: int
    faults: int


class Listed(NamedTuple):
    """A file: its name, its bytes, and when it was changed, 0 if that is not known."""

    name: str
    size: int
    changed: int


def listed_files(sources: Iterable[Path]) -> Iterator[Listed]:
    """These files. One that is not there has no bytes: it is a fault of its partition."""
    for source in sources:
        name = os.fspath(source)
        try:
            found = os.stat(name)
            yield Listed(name, found.st_size, found.st_mtime_ns)
        except (OSError, ValueError):
            yield Listed(name, 0, 0)


def partitions_of(files: Iterable[Listed], most_bytes: int) -> Iterator[List[Listed]]:
    """The files in order, by about so many bytes: one more would exceed them."""
    if most_bytes < 1:
        raise ValueError("a partition has at least one byte")
    part: List[Listed] = []
    size = 0
    for it in files:
        if part and size + it.size > most_bytes:
            yield part
            part, size = [], 0
        part.append(it)
        size += it.size
    if part:
        yield part


def table_of(reader: Reader, names: List[str], batch: Batch) -> "pandas.DataFrame":
    """The rows of a partition, whose column `file` has the name of the file."""
    import pandas

    frame = reader.whole(batch).to_pandas() if reader.columns else pandas.DataFrame(index=range(sum(batch.rows)))
    return _with_files(frame, names, np.repeat(np.arange(len(names)), batch.rows))


def _shown(text: str) -> str:
    """A name as pandas has it. Each byte that is not UTF-8 is as in `\\xff`."""
    return text.encode("utf-8", "surrogateescape").decode("utf-8", "backslashreplace")


def _with_files(frame: "pandas.DataFrame", names: List[str], codes: np.ndarray) -> "pandas.DataFrame":
    import pandas

    shown = list(map(_shown, names))
    kept = list(dict.fromkeys(shown))
    places = {name: at for at, name in enumerate(kept)}
    own = np.array([places[name] for name in shown], np.int64)[codes] if names else codes
    frame.insert(0, "file", pandas.Categorical.from_codes(own, pandas.Index(kept, dtype=object)))
    return frame


def faults_of(names: List[str], batch: Batch) -> List[Fault]:
    return [fault_of(names[at], fault) for at, fault in sorted(batch.faults.items())]


def frame_of_faults(faults: List[Fault]) -> "pandas.DataFrame":
    """A row for each fault, whose place is NaN if it has none."""
    import pandas

    frame = pandas.DataFrame({name: objects(it[at] for it in faults) for at, name in enumerate(Fault._fields)})
    return frame.assign(file=frame["file"].map(_shown), text=frame["text"].map(_shown)).astype({"place": float})


class Plan:
    """What a folder has to hold: partitions of these files, by one reader. A folder that was begun with other files is refused."""

    def __init__(self, folder: Path, files: Iterable[Listed], reader: Reader, partition_bytes: int):
        self.folder = pathlib.Path(folder)
        self.reader = reader
        self.parts = list(partitions_of(files, partition_bytes))
        self.format = "parquet" if importlib.util.find_spec("pyarrow") else "npz"
        digest = hashlib.sha256()
        for part in self.parts:
            digest.update(json.dumps(part).encode() + b"\n")
        columns = [[it.name, it.unit, it.kind_name] for it in self.reader.columns]
        self.said = {"message": self.reader.number, "columns": columns, "partitions": len(self.parts), "format": self.format,
                     "files": digest.hexdigest(), "most_bytes": self.reader.most_bytes}

    def begin(self) -> List[Partition]:
        """The partitions that the folder lacks. It raises ValueError if the folder was begun with other files or columns."""
        place = self.folder / "plan.json"
        for it in "columns", "faults":
            (self.folder / it).mkdir(parents=True, exist_ok=True)
        if not place.exists():
            if any((self.folder / "columns").iterdir()):
                raise ValueError("%s has partitions, and no plan.json that says of what: choose another folder" % self.folder)
            _put(place, lambda to: to.write(json.dumps(self.said, indent=1).encode() + b"\n"))
        found = json.loads(place.read_text())
        for name, value in self.said.items():
            if found.get(name) != value:
                raise ValueError("%s was begun with other %s: choose another folder, or remove it" % (self.folder, name))
        made = (Partition(self.folder, at, self.format, [it.name for it in part], self.reader) for at, part in enumerate(self.parts))
        return [it for it in made if not it.place("columns").exists()]

    def end(self) -> None:
        """Removes what writes that were broken off left."""
        for part in "columns", "faults":
            for it in (self.folder / part).glob("*" + _NEW):
                it.unlink()


class Partition:
    """Some files whose columns and faults are two files in a folder. That of the columns is moved there last."""

    def __init__(self, folder: pathlib.Path, at: int, format: str, names: List[str], reader: Reader):
        self.folder, self.at, self.format, self.names, self.reader = folder, at, format, names, reader

    def place(self, part: str) -> pathlib.Path:
        return self.folder / part / ("%06d.%s" % (self.at, self.format))

    def read_and_write(self, work: Optional[Work] = None,
                       content: Callable[[str, Optional[int]], bytes] = content_of) -> Tuple[int, int, int]:
        """Reads the files here, and writes the partition."""
        return self.write(self.reader(self.names, work, content))

    def write(self, batch: Batch) -> Tuple[int, int, int]:
        """Writes what was read of the files, and says how many files, rows and faults these are."""
        faults = faults_of(self.names, batch)
        kinds: Dict[str, Any] = {"file": str, "kind": str, "place": np.dtype(float), "text": str}
        own: Dict[str, Any] = {"file": str, **{it.name: it.shown_kind for it in self.reader.columns}}
        if self.format == "parquet":
            _put(self.place("faults"), lambda to: _write_parquet(to, frame_of_faults(faults), kinds))
            _put(self.place("columns"), lambda to: _write_parquet(to, table_of(self.reader, self.names, batch), own))
        else:
            rows = {name: objects(it[at] for it in faults) for at, name in enumerate(Fault._fields)}
            _put(self.place("faults"), lambda to: _write_arrays(to, {**rows, "place": rows["place"].astype(float)}, kinds))
            # Each name once: the rows say by a number which it is.
            codes = np.repeat(np.arange(len(self.names), dtype=np.int32), batch.rows)
            whole = {"file.codes": codes, "file": objects(self.names), **self.reader.whole(batch)}
            _put(self.place("columns"), lambda to: _write_arrays(to, whole, own))
        return len(self.names), sum(batch.rows), len(faults)


class Writer:
    """Writes partitions, which are named by their places among these, and answers with how many files, rows and faults they have."""

    def __init__(self, partitions: List[Partition]):
        self.partitions = partitions

    def __call__(self, names: List[str], work: Optional[Work] = None) -> Batch:
        return self._answer(list(self.partitions[int(names[0])].read_and_write(work)), {})

    def died(self, fault: Exception) -> Batch:
        return self._answer([], {0: fault})

    def _answer(self, counts: List[int], faults: Dict[int, Exception]) -> Batch:
        return Batch(counts, faults, np.empty((0, 0), np.int64), [], {})


def _put(place: pathlib.Path, write: Callable[[Any], object]) -> None:
    """Makes a file that is whole or not there, also after a power cut: it is written beside its place, synced and moved."""
    beside = place.with_name("%s.%s%s" % (place.name, secrets.token_hex(4), _NEW))
    try:
        with open(beside, "wb") as to:
            write(to)
            to.flush()
            os.fsync(to.fileno())
        os.replace(beside, place)
    finally:
        beside.unlink(missing_ok=True)
    folder = os.open(place.parent, os.O_RDONLY)
    try:
        os.fsync(folder)
    finally:
        os.close(folder)


def _write_arrays(to: Any, columns: Dict[str, np.ndarray], kinds: Dict[str, Any]) -> None:
    """The columns as the arrays of an .npz file, which NumPy loads without pickle."""
    with zipfile.ZipFile(to, "w", zipfile.ZIP_STORED, allowZip64=True) as archive:
        for name, column in columns.items():
            arrays = {name: column} if column.dtype != object else _packed(name, column, kinds[name])
            for it, array in arrays.items():
                with archive.open(it + ".npy", "w", force_zip64=True) as entry:
                    # a type that another process sent may have metadata, which no file can have
                    np.lib.format.write_array(entry, np.ascontiguousarray(array).view(array.dtype.str), allow_pickle=False)


def _packed(name: str, column: np.ndarray, kind: Any) -> Dict[str, np.ndarray]:
    values = [it.encode("utf-8", "surrogateescape") if kind is str and it is not None else it for it in column]
    lengths = np.array([-1 if it is None else len(it) for it in values], np.int64)
    there = [it for it in values if it is not None]
    if kind is list:
        return {name + _LENGTHS: lengths, name + _ENDS[kind]: np.concatenate(there) if there else np.empty(0)}
    return {name + _LENGTHS: lengths, name + _ENDS[kind]: np.frombuffer(b"".join(there), np.uint8)}


def _unpacked(lengths: np.ndarray, values: np.ndarray, end: str) -> np.ndarray:
    column, start = np.empty(len(lengths), object), 0
    for row, length in enumerate(lengths.tolist()):
        if length >= 0:
            part = values[start:start + length]
            data = part if end == _ENDS[list] else part.tobytes()
            column[row] = data.decode("utf-8", "surrogateescape") if end == _ENDS[str] else data
            start += length
    return column


def _read_arrays(place: pathlib.Path) -> Dict[str, np.ndarray]:
    with np.load(place, allow_pickle=False) as found:
        arrays = {name: found[name] for name in found.files}
    columns: Dict[str, np.ndarray] = {}
    for name, array in arrays.items():
        end = next((it for it in _ENDS.values() if name.endswith(it) and name[:-len(it)] + _LENGTHS in arrays), None)
        if end:
            columns[name[:-len(end)]] = _unpacked(arrays[name[:-len(end)] + _LENGTHS], array, end)
        elif not name.endswith(_LENGTHS):
            columns[name] = array
    return columns


def _write_parquet(to: Any, frame: "pandas.DataFrame", kinds: Dict[str, Any]) -> None:
    import pyarrow
    import pyarrow.parquet

    types = {str: pyarrow.string(), bytes: pyarrow.binary(), list: pyarrow.list_(pyarrow.float64()), np.dtype("M8[s]"): None}
    fields = []
    for name, kind in kinds.items():
        is_date = isinstance(kind, np.dtype) and kind.kind == "M"
        zone = getattr(frame[name].dtype, "tz", None)
        own = pyarrow.timestamp("us", str(zone) if zone else None) if is_date else types.get(kind) or pyarrow.from_numpy_dtype(kind)
        fields.append(pyarrow.field(name, own))
    frame = frame.astype({name: object for name, kind in frame.dtypes.items() if kind == "category"})
    pyarrow.parquet.write_table(pyarrow.Table.from_pandas(frame, pyarrow.schema(fields), preserve_index=False), to)


class Stored:
    """A folder that was written: its partitions, in order. It raises FileNotFoundError if it has none, and ValueError if some are missing,
    because the writing was broken off."""

    def __init__(self, folder: Path):
        self.folder = pathlib.Path(folder)
        said = json.loads((self.folder / "plan.json").read_text())
        self.units = {name: unit for name, unit, _ in said["columns"]}
        self.kinds = {name: object if kind in ("str", "bytes", "list") else np.dtype(kind) for name, _, kind in said["columns"]}
        self.names = ["%06d.%s" % (at, said["format"]) for at in range(said["partitions"])]
        self.is_parquet = said["format"] == "parquet"
        missing = [it for it in self.names if not (self.folder / "columns" / it).exists()]
        if missing:
            raise ValueError("%s lacks %d of %d partitions: write it again, which goes on" % (self.folder, len(missing), len(self.names)))

    def table(self, name: str) -> "pandas.DataFrame":
        """The rows of a partition."""
        import pandas

        if self.is_parquet:
            frame = pandas.read_parquet(self.folder / "columns" / name, engine="pyarrow")
            frame = frame.astype({name: "category" for name in ["file", *(it for it, unit in self.units.items() if unit == ENUM)]})
            frame.attrs["units"] = dict(self.units)
            return frame
        found = _read_arrays(self.folder / "columns" / name)
        files, codes = found.pop("file").tolist(), found.pop("file.codes")
        frame = Columns(found, self.units).to_pandas() if found else pandas.DataFrame(index=range(len(codes)))
        return _with_files(frame, files, codes)

    def faults(self, name: str) -> "pandas.DataFrame":
        """The faults of a partition."""
        import pandas

        place = self.folder / "faults" / name
        if self.is_parquet:
            return pandas.read_parquet(place, engine="pyarrow")
        found = _read_arrays(place)
        return frame_of_faults([Fault(*row) for row in zip(*(found[it].tolist() for it in Fault._fields))])

    def empty(self) -> "pandas.DataFrame":
        """The table without rows."""
        columns = Columns({name: np.empty(0, kind) for name, kind in self.kinds.items()}, self.units)
        return _with_files(columns.to_pandas(), [], np.empty(0, np.int64))


def read_folder(folder: Path) -> Tuple["pandas.DataFrame", "pandas.DataFrame"]:
    """The rows and the faults of all partitions of a folder that `write_many` made, as two pandas tables."""
    import pandas
    from pandas.api.types import union_categoricals

    stored = Stored(folder)
    tables = [stored.empty(), *map(stored.table, stored.names)]
    names = list(tables[0])
    categories = {name: union_categoricals([it.pop(name) for it in tables]) for name in names if tables[0][name].dtype == "category"}
    table = pandas.concat(tables, ignore_index=True).assign(**categories)[names]
    table.attrs["units"] = dict(stored.units)
    return table, pandas.concat([frame_of_faults([]), *map(stored.faults, stored.names)], ignore_index=True)


__all__ = ("PARTITION_BYTES", "Listed", "Partition", "Plan", "Stored", "Writer", "Written", "faults_of", "frame_of_faults", "listed_files",
           "partitions_of", "read_folder", "table_of")
