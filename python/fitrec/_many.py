"""Many files, one after another."""

from __future__ import annotations

import os
from typing import TYPE_CHECKING, Dict, Iterable, Iterator, List, NamedTuple, Optional, Tuple, Union

import numpy as np

from ._batch import Fault, Reader, fault_of
from ._columns import Columns, without_values
from ._folder import PARTITION_BYTES, Partition, Plan, Writer, Written, listed_files
from ._schema import Field, Fields, listed
from ._sources import Path, several
from ._whole import Checker, summed_up
from ._workers import answers
from .profile import numbered, of_number

if TYPE_CHECKING:
    import pandas

# The most bytes, files and bytes of names that a worker is given at a time; a longer file is given alone. So many bytes of names fit into
# what a socket holds: whoever sends them never waits for a worker that waits to be heard.
_MOST_BYTES, _MOST_FILES, _MOST_NAMES = 1 << 20, 256, 1 << 16


class Result(NamedTuple):
    """A file: its name, and its columns, or why it has none."""

    file: str
    columns: Optional[Columns]
    fault: Optional[Fault]


def _size_of(name: str) -> int:
    try:
        return os.stat(name).st_size
    except (OSError, ValueError):
        return 0


def batches_of(sources: Iterable[Path]) -> Iterator[List[str]]:
    """The names of files, so many that their bytes are about as many each time."""
    names: List[str] = []
    size = length = 0
    for source in sources:
        name = os.fspath(source)
        own, letters = _size_of(name), len(os.fsencode(name))
        if names and (size + own > _MOST_BYTES or len(names) == _MOST_FILES or length + letters > _MOST_NAMES):
            yield names
            names, size, length = [], 0, 0
        names.append(name)
        size, length = size + own, length + letters
    if names:
        yield names


def _checked(workers: Optional[int]) -> Optional[int]:
    if workers is not None and workers < 1:
        raise ValueError("there is at least one worker")
    return workers


def iter_many(sources: Iterable[Path], fields: Optional[Fields] = None, message: Union[int, str] = "record", units: bool = True,
              workers: Optional[int] = None, enums: bool = False, most_bytes: Optional[int] = None) -> Iterator[Result]:
    """One file after another, in order: its name, and its columns or its fault.

    fields are as for `schema`, whose columns each file then has: without values where the file lacks a field. Without fields each file has
    the columns that `read` gives it. units=False gives raw numbers. enums and most_bytes are those of `read`. So many processes read the
    files, as many as there are processors without a number; 1 is none but this one. They need as much memory for a million files as for a
    thousand. A process that dies is replaced: the file that it died of is tried once more alone, and is then a fault. It raises ValueError
    for a wrong name, and nothing for a file."""
    reader = Reader(fields, message, units, fields is not None, enums, most_bytes)
    return _each(reader, several(sources), _checked(workers))


def _each(reader: Reader, sources: Iterable[Path], workers: Optional[int]) -> Iterator[Result]:
    for names, batch in answers(reader, batches_of(sources), workers):
        for at, (name, columns) in enumerate(zip(names, reader.each(batch))):
            fault = batch.faults.get(at)
            yield Result(name, columns, None if fault is None else fault_of(name, fault))


def _joined(tables: List[Tuple[Columns, int]], message: Union[int, str], chosen: Optional[List[Field]]) -> Columns:
    """The columns of several files, one after another, in the order in which they are chosen or come first."""
    first = {name: columns for columns, _ in reversed(tables) for name in columns}
    known = numbered(message)[1]
    order = [name for columns, _ in tables for name in columns] if chosen is None else [
        of_number(known, it).name if isinstance(it, int) else it for it in chosen]
    joined = {name: np.concatenate([columns[name] if name in columns else without_values(first[name][name].dtype, rows)
                                    for columns, rows in tables])
              for name in dict.fromkeys(order) if name in first}
    return Columns(joined, {name: first[name].units[name] for name in joined})


def refuse(names: Iterable[Field]) -> None:
    for name in names:
        raise ValueError("no field of these messages is named %r" % name)


def read_many(sources: Iterable[Path], message: Union[int, str] = "record", fields: Union[Field, Iterable[Field], None] = None,
              raw: bool = False, workers: Optional[int] = None, enums: bool = False,
              most_bytes: Optional[int] = None) -> Tuple["pandas.DataFrame", Dict[str, Exception]]:
    """One pandas table of many files, whose column `file` has the name of the file; and the files that were refused, with the fault of
    each. A file that lacks a column of another has no values in it. It raises ValueError for a name that neither the Profile nor any of
    the files has. workers are those of `iter_many`, enums and most_bytes those of `read`."""
    import pandas

    tables: List[Tuple[Columns, int]] = []
    files: List[str] = []
    faults: Dict[str, Exception] = {}
    reader = Reader(fields, message, not raw, False, enums, most_bytes)
    lacking = None
    for names, batch in answers(reader, batches_of(several(sources)), _checked(workers)):
        for at, (name, columns) in enumerate(zip(names, reader.each(batch))):
            if columns is None:
                faults[name] = batch.faults[at]
                continue
            unknown = batch.own[at][1] if at in batch.own else reader.unknown
            tables.append((columns, batch.rows[at]))
            files.append(name)
            lacking = [it for it in unknown if lacking is None or it in lacking]
    refuse(lacking or [])
    joined = _joined(tables, message, reader.fields)
    frame = joined.to_pandas() if joined else pandas.DataFrame(index=range(sum(rows for _, rows in tables)))
    codes = np.repeat(np.arange(len(tables)), [rows for _, rows in tables])
    frame.insert(0, "file", pandas.Categorical.from_codes(codes, pandas.Index(files, dtype=object)))
    return frame, faults


def check_many(sources: Iterable[Path], workers: Optional[int] = None, most_bytes: Optional[int] = None) -> Columns:
    """What `check` says of many files, a row for each: its name as `file`, the numbers of a `Summary`, NaN or NaT for none, and `kind` and
    `place` of what it was refused for, None and NaN for an activity. A file that cannot be read has the name of the exception as its kind.
    workers are those of `iter_many`; a file of more than most_bytes is refused."""
    files: List[str] = []
    blocks: List[np.ndarray] = []
    faults: List[Tuple[Optional[str], Optional[int]]] = []
    for names, batch in answers(Checker(most_bytes), batches_of(several(sources)), _checked(workers)):
        files += names
        blocks.append(batch.block.copy())
        of_these = [fault_of(name, batch.faults[at]) if at in batch.faults else None for at, name in enumerate(names)]
        faults += [(it.kind, it.place) if it else (None, None) for it in of_these]
    return summed_up(files, blocks, faults)


def write_many(sources: Iterable[Path], folder: Path, fields: Fields, message: Union[int, str] = "record", units: bool = True,
               workers: Optional[int] = None, partition_bytes: int = PARTITION_BYTES, enums: bool = False,
               most_bytes: Optional[int] = None) -> Written:
    """Writes the columns of many files into a folder, by partitions of about so many bytes of files: `columns` has their rows and `faults`
    why files have none, as Parquet where pyarrow is installed, else as .npz. `read_folder` reads them.

    Each partition is written beside its place and moved there, so that it is whole or not there. A run that was broken off goes on where it
    stopped. fields, message, units, workers, enums and most_bytes are those of `iter_many`. It raises ValueError for a folder that was
    begun with other files or columns, and OSError if it cannot write."""
    workers = _checked(workers)
    reader = Reader(fields, message, units, True, enums, most_bytes)
    plan = Plan(folder, listed_files(several(sources)), reader, partition_bytes)
    missing = plan.begin()
    counts = []
    for (at,), batch in answers(Writer(missing), ([str(at)] for at in range(len(missing))), workers):
        counts.append(_file_by_file(missing[int(at)], batch.faults[0], workers) if batch.faults else batch.rows)
    plan.end()
    return Written(len(plan.parts), len(plan.parts) - len(missing), *(sum(it) for it in zip((0, 0, 0), *counts)))


def _file_by_file(part: Partition, fault: Exception, workers: Optional[int]) -> Tuple[int, int, int]:
    """Writes a partition whose process died twice: the file that it died of is a fault."""
    if len(part.names) == 1:
        return part.write(part.reader.died(fault))
    found = answers(part.reader, ([name] for name in part.names), workers)
    return part.write(part.reader.together([batch._replace(block=batch.block.copy()) for _, batch in found]))
