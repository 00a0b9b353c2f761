"""Files read one after another, with the columns of all of them in one block, so that what Python does for a file is little."""

from __future__ import annotations

from typing import Callable, Dict, Iterator, List, NamedTuple, Optional, Tuple, Union

import numpy as np

from ._columns import Columns
from ._library import OVER_LIMIT, Filler, FitError
from ._reading import columns_of, in_units
from ._schema import TIMESTAMP, Field, OtherType, asked, listed, schema_of
from ._sources import content_of
from .profile import numbered, of_name

# How many values there is room for in a memory that is used again: 8 MB, of which only pages that are written take memory.
WORK_VALUES = 1 << 20
# What the messages hold at a code.
_EMPTY, _WHOLE, _OTHER = 1, 2, 3


class Fault(NamedTuple):
    """Why a file was not read: its name; the kind of the fault, which is that of a FitError, "OtherType" for a value of another type than
    the one that is asked for, "WorkerDied", or the name of another exception; its place, an offset in bytes, None if it has none; and what
    the exception says."""

    file: str
    kind: str
    place: Optional[int]
    text: str


class WorkerDied(RuntimeError):
    """The process that read a file died, and the next one too, with this file alone."""


def fault_of(name: str, fault: Exception) -> Fault:
    is_of_format = isinstance(fault, FitError)
    return Fault(name, fault.kind if is_of_format else type(fault).__name__, fault.place if is_of_format else None, str(fault))


class Batch(NamedTuple):
    """What was read of some files: how many rows each has; by their places among the files, why some were not read; a row for each column
    of numbers, with the values of the files one after another; the other columns, likewise; and by their places the columns of files that
    have types of their own, with the names that they lack. Those have no rows among the others."""

    rows: List[int]
    faults: Dict[int, Exception]
    block: np.ndarray
    objects: List[np.ndarray]
    own: Dict[int, Tuple[Columns, List[Field]]]


class Work:
    """What a process reads with, again and again: memory that is not touched anew takes a fraction of the time."""

    def __init__(self) -> None:
        self.values = np.empty(WORK_VALUES, np.int64)
        self._fillers: Dict[Tuple[int, bytes, bool], Filler] = {}

    def filler(self, message: int, fields: List[int], developer: bool) -> Filler:
        key = message, bytes(fields), developer
        if key not in self._fillers:
            self._fillers = {key: Filler(message, fields, developer)}
        return self._fillers[key]


class _Read:
    """What is read of the files of a batch so far. The values are in rows of the process's own memory, or in blocks where they are more."""

    def __init__(self, values: np.ndarray, columns: int):
        # One row more, so that there is as much room from every place of the first row on.
        self.width = len(values) // (columns + 1)
        self.table = values[:columns * self.width].reshape(columns, self.width)
        self._at = values.ctypes.data
        self.blocks: List[np.ndarray] = []
        self.rows: List[int] = []
        self.faults: Dict[int, Exception] = {}
        self.conformed: List[Tuple[int, int, Dict[str, np.ndarray]]] = []
        self.own: Dict[int, Tuple[Columns, List[Field]]] = {}
        self.total = self._filled = 0

    def fill(self, data: bytes, filler: Filler) -> Optional[int]:
        """Reads a file into the place after the others, and says how many rows it has; None if there may not be room for them."""
        # A message has one byte or more.
        if self._filled + len(data) > self.width:
            return None
        return filler.into(data, self._at + 8 * self._filled, self.width)

    def keep(self, rows: int) -> int:
        """Keeps what was read there."""
        self.total += rows
        self._filled += rows
        return rows

    def put(self, columns: np.ndarray, rows: int) -> int:
        """Puts columns of so many rows, the first ones, after the others."""
        if self._filled + rows > self.width:
            self.blocks.append(self.table[:, :self._filled].copy())
            self._filled = 0
        if rows > self.width:
            self.blocks.append(np.empty((len(self.table), rows), np.int64))
            self.blocks[-1][:len(columns)] = columns
        else:
            self.table[:len(columns), self._filled:self._filled + rows] = columns
            self._filled += rows
        self.total += rows
        return rows

    def block(self) -> np.ndarray:
        """The values of all files."""
        last = self.table[:, :self._filled]
        return np.concatenate([*self.blocks, last], axis=1) if self.blocks else last


class Reader:
    """Reads the same columns of file after file. With a schema each column has its type in all of them. Without one each file has the
    columns and the types that `read` gives it."""

    def __init__(self, fields, message: Union[int, str], units: bool, has_schema: bool, enums: bool = False,
                 most_bytes: Optional[int] = None):
        self.message, self.units, self.has_schema, self.enums, self.most_bytes = message, units, has_schema, enums, most_bytes
        self.number, known = numbered(message)
        self.fields = listed(fields)
        # Without a schema a developer field has no type before a file is read.
        chosen = fields if has_schema else [it for it in self.fields or [] if isinstance(it, int) or of_name(known, it)]
        self.columns = asked(chosen, message, units, enums)
        self.schema = schema_of(self.columns)
        self.most_rows = None if most_bytes is None else most_bytes // (8 * max(len(self.columns), 1))
        # The columns whose whole numbers are what the library fills come first. Up to what each field may hold, these are all values.
        is_direct = {it.name: it.is_number and it.field is not None and (units or it.kind == np.int64) for it in self.columns}
        self.numbers = sorted((it for it in self.columns if it.is_number), key=lambda it: not is_direct[it.name])
        self.others = [it for it in self.columns if not it.is_number]
        # What the Profile does not have, which is a developer field or a wrong name.
        self.unknown = [it for it in self.fields or [] if not isinstance(it, int) and of_name(known, it) is None]
        self.direct = [it for it in self.numbers if is_direct[it.name]]
        native = [it for it in self.columns if it.field]
        most = [_OTHER if it.field.number == TIMESTAMP else _WHOLE if is_direct[it.name] else _EMPTY for it in native]
        self.held, self.most = np.array([it.field.number for it in native], np.intp), np.array(most, np.uint8)

    def __call__(self, names: List[str], work: Optional[Work] = None,
                 content: Callable[[str, Optional[int]], bytes] = content_of) -> Batch:
        """Reads these files. content gives the bytes of one, if they are no more than the most. The block may be in the memory of the work,
        which the next call changes."""
        work = work or Work()
        read = _Read(work.values, len(self.numbers))
        filler = work.filler(self.number, [it.field.number for it in self.direct], bool(self.unknown))
        for at, name in enumerate(names):
            read.rows.append(0)
            try:
                read.rows[at] = self._take(content(name, self.most_bytes), at, read, filler)
            except FitError as fault:
                read.faults[at] = FitError(fault.kind, fault.place, name)
            except (OSError, OtherType, MemoryError) as fault:
                read.faults[at] = fault
        return Batch(read.rows, read.faults, *self._joined(read), read.own)

    def _take(self, data: bytes, at: int, read: _Read, filler: Filler) -> int:
        """Takes a file, and says how many rows it has."""
        if self.fields is not None:
            rows = read.fill(data, filler)
            table = filler(data, self.most_rows) if rows is None else None
            if self.most_rows is not None and rows is not None and rows > self.most_rows:
                raise FitError(OVER_LIMIT, None)
            if (filler.held[self.held] <= self.most).all() and not (self.unknown and filler.held[256:].any()):
                return read.keep(rows) if table is None else read.put(table, table.shape[1])
        columns, rows, lacking = columns_of(data, self.message, self.fields, not self.units, self.enums and not self.has_schema,
                                             self.most_bytes)
        if not self.has_schema:
            read.own[at] = columns, lacking
            return rows
        conformed = [it.conformed(columns[it.name]) if it.name in columns else it.empty(rows) for it in self.columns]
        read.conformed.append((read.total, rows, dict(zip(self.schema, conformed))))
        return read.put(np.zeros((len(self.direct), rows), np.int64), rows)

    def _joined(self, read: _Read) -> Tuple[np.ndarray, List[np.ndarray]]:
        """The values of all files, in units, and the other columns."""
        block = read.block()
        others = [it.empty(read.total) for it in self.others]
        found = {it.name: row.view(it.kind) for it, row in zip(self.numbers, block)}
        for column, values in zip(self.direct, block):
            in_units(column.field, values, not self.units or column.names is not None, values)
        for column in self.numbers[len(self.direct):]:
            found[column.name][:] = column.empty(1)[0]
        found.update(zip((it.name for it in self.others), others))
        for start, rows, columns in read.conformed:
            for name, values in columns.items():
                found[name][start:start + rows] = values
        return block, others

    def died(self, fault: Exception) -> Batch:
        """What is known of a file whose process died."""
        return Batch([0], {0: fault}, np.empty((len(self.numbers), 0), np.int64), [it.empty(0) for it in self.others], {})

    def each(self, batch: Batch) -> Iterator[Optional[Columns]]:
        """The columns of each file, None for one that was not read."""
        start, names = 0, [it.name for it in self.numbers]
        is_in_order = names == list(self.schema)
        others = [(place, it) for place, it in enumerate(self.numbers) if it.kind != float]
        for at, rows in enumerate(batch.rows):
            if at in batch.faults or at in batch.own:
                yield batch.own[at][0] if at in batch.own else None
                continue
            # A copy, so that one file does not hold on to the memory of the others.
            own = batch.block[:, start:start + rows].copy().view(float)
            columns = list(own)
            for place, it in others:
                columns[place] = it.shown(own[place].view(it.kind))
            found = dict(zip(names, columns))
            if not is_in_order:
                found.update((it.name, column[start:start + rows].copy()) for it, column in zip(self.others, batch.objects))
                found = {name: found[name] for name in self.schema}
            yield Columns(found, self.schema.units)
            start += rows

    def together(self, batches: List[Batch]) -> Batch:
        """The files of several batches as one, for columns with a schema."""
        if len(batches) == 1:
            return batches[0]
        starts = np.cumsum([0, *(len(it.rows) for it in batches)]).tolist()
        return Batch([rows for it in batches for rows in it.rows],
                     {start + at: fault for start, it in zip(starts, batches) for at, fault in it.faults.items()},
                     np.concatenate([np.empty((len(self.numbers), 0), np.int64), *(it.block for it in batches)], axis=1),
                     [np.concatenate([column.empty(0), *(it.objects[at] for it in batches)]) for at, column in enumerate(self.others)], {})

    def whole(self, batch: Batch) -> Columns:
        """The columns of all files of a batch, one after another."""
        found = {it.name: it.shown(row.view(it.kind)) for it, row in zip(self.numbers, batch.block)}
        found.update((it.name, column) for it, column in zip(self.others, batch.objects))
        return Columns({name: found[name] for name in self.schema}, self.schema.units)
