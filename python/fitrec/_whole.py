"""What the library does with whole files: it checks, salvages, finishes, joins, shifts and splits them."""

from __future__ import annotations

import ctypes
import datetime
import operator
import os
from typing import Any, Dict, Iterable, List, NamedTuple, Optional, Tuple, Union

import numpy as np

from ._batch import Batch
from ._columns import Columns, objects
from ._library import FAULTS, FitError, call, pointer_to
from ._sources import Bytes, Source, bytes_of, content_of

_ABSENT = 2**32 - 1
_EPOCH = datetime.datetime(1989, 12, 31, tzinfo=datetime.timezone.utc)
_FIRST_DATE = 0x10000000
_FRAME_ROOM, _FINISH_ROOM = 16, 300
_NO_ROOM, _MORE_PIECES, _NO_TIME, _TOO_FAR, _OTHER_SPORT, _OVERLAP = 20, 25, 27, 28, 29, 30

# The numbers of a summary, in the order of the library, and their units.
_NUMBERS = {"records": "", "laps": "", "sessions": "", "start": "date", "elapsed_ms": "ms", "timer_ms": "ms", "distance_cm": "cm"}


class Summary(NamedTuple):
    """What a finished ride adds up to: samples, laps and sessions; when it starts, None for a time without a date; milliseconds from the
    start to the end, and without the pauses; and centimetres, None for none."""

    records: int
    laps: int
    sessions: int
    start: Optional[datetime.datetime]
    elapsed_ms: Optional[int]
    timer_ms: Optional[int]
    distance_cm: Optional[int]


class Salvaged(NamedTuple):
    """A new file; how many bytes of records it has, how many the old one has by its header, and how many bytes come after those."""

    data: bytes
    kept: int
    looked_at: int
    not_looked_at: int


class Piece(NamedTuple):
    """Bytes of the old file, from start up to end, which are kept or left out."""

    start: int
    end: int
    kept: bool


class Skipped(NamedTuple):
    """A new file, the pieces of the old one in order, and numbers as of a salvage."""

    data: bytes
    pieces: List[Piece]
    kept: int
    looked_at: int
    not_looked_at: int


class Finished(NamedTuple):
    """A new file; how many samples, laps and events of the timer were taken for what is added, and how many were left out by a rule."""

    data: bytes
    heard: int
    left_out: int


class _Piece(ctypes.Structure):
    _fields_ = [("start", ctypes.c_uint64), ("end", ctypes.c_uint64), ("kept", ctypes.c_bool)]


_IN, _OUT = [ctypes.c_void_p, ctypes.c_size_t], [ctypes.c_void_p, ctypes.c_size_t, ctypes.c_void_p]
_check = call("fitrec_check", *_IN, ctypes.c_void_p, ctypes.c_void_p)
_salvage = call("fitrec_salvage", *_IN, ctypes.c_bool, *_OUT, ctypes.c_void_p)
_skip = call("fitrec_skip", *_IN, ctypes.c_bool, *_OUT, ctypes.c_void_p, ctypes.c_size_t, ctypes.c_void_p, ctypes.c_void_p)
_finish = call("fitrec_finish", *_IN, *_OUT, ctypes.c_void_p, ctypes.c_void_p)
_shift = call("fitrec_shift", *_IN, ctypes.c_int64, *_OUT, ctypes.c_void_p)
_shift_start = call("fitrec_shift_start", *_IN, ctypes.c_uint32, *_OUT, ctypes.c_void_p)
_plain = call("fitrec_plain", *_IN, *_OUT, ctypes.c_void_p)
_first_time = call("fitrec_first_time", *_IN, ctypes.c_void_p, ctypes.c_void_p)
_join = call("fitrec_join", *_IN, ctypes.c_bool, *_OUT, ctypes.c_void_p)
_first_file = call("fitrec_first_file", *_IN, answer=ctypes.c_uint64)


def _numbers(data: Bytes) -> Any:
    """The seven numbers of a summary. It raises FitError."""
    numbers, place = (ctypes.c_uint32 * 7)(), ctypes.c_uint64()
    code = _check(pointer_to(data), len(data), numbers, ctypes.byref(place))
    if code:
        raise FitError(FAULTS[code], place.value if code < 10 else None)
    return numbers


def check(source: Source, most_bytes: Optional[int] = None) -> Summary:
    """What an activity file adds up to. source is a path, or the bytes of a file, which are no more than most_bytes.

    It raises FitError for bytes that are no FIT file, and, without a place, for a file that is no activity or lacks a message of one: of
    the kinds NoFileId, NotActivity, NoLap, NoSession and NoActivity. OSError is for a file that cannot be read."""
    data, path = bytes_of(source, most_bytes)
    with _named(path):
        numbers = _numbers(data)
    found = [None if it == _ABSENT else it for it in numbers]
    start = found[3]
    found[3] = _EPOCH + datetime.timedelta(seconds=start) if start is not None and start >= _FIRST_DATE else None
    return Summary(*found)


class _named:
    """Gives a fault the path of its file."""

    def __init__(self, path: Optional[str]):
        self.path = path

    def __enter__(self) -> None:
        pass

    def __exit__(self, _: object, fault: object, __: object) -> None:
        if isinstance(fault, FitError):
            raise FitError(fault.kind, fault.place, self.path) from None


def _refuse(code: int, data: Bytes) -> None:
    """Raises the fault of a header, with its place, which a check has too, or another one."""
    if code < 10:
        _numbers(data)
    raise FitError(FAULTS[code], None)


def _room(size: int, most: Optional[int]) -> np.ndarray:
    """The memory of a new file."""
    return np.empty(size if most is None else min(size, most), np.uint8)


def salvage(source: Source, all: bool = False, most_bytes: Optional[int] = None) -> Salvaged:
    """Copies what is readable of a file that was cut off or damaged into a valid one: its header, the longest prefix of whole messages, and
    a checksum. all looks at all bytes after the header, whatever size it gives. It raises FitError if the header is none, or for more than
    most_bytes of either file, and OSError."""
    data, path = bytes_of(source, most_bytes)
    out, size, counts = _room(len(data) + _FRAME_ROOM, most_bytes), ctypes.c_uint64(), (ctypes.c_uint64 * 3)()
    code = _salvage(pointer_to(data), len(data), all, out.ctypes.data, len(out), ctypes.byref(size), counts)
    with _named(path):
        if code:
            _refuse(code, data)
    return Salvaged(out[:size.value].tobytes(), *counts)


def skip(source: Source, all: bool = False, most_bytes: Optional[int] = None) -> Skipped:
    """Copies what is readable of a damaged file into a valid one, and goes on after its faults, at the next place from which messages
    follow that fit. It raises FitError if nothing is kept, or for more than most_bytes of either file, and OSError."""
    data, path = bytes_of(source, most_bytes)
    out, size, counts = _room(len(data) + _FRAME_ROOM, most_bytes), ctypes.c_uint64(), (ctypes.c_uint64 * 3)()
    many, room = ctypes.c_uint64(), 64
    while True:
        pieces = (_Piece * room)()
        code = _skip(pointer_to(data), len(data), all, out.ctypes.data, len(out), ctypes.byref(size), pieces, room, ctypes.byref(many),
                     counts)
        if code != _MORE_PIECES:
            break
        room = many.value
    with _named(path):
        if code:
            _refuse(code, data)
    return Skipped(out[:size.value].tobytes(), [Piece(it.start, it.end, it.kept) for it in pieces[:many.value]], *counts)


def finish(source: Source, most_bytes: Optional[int] = None) -> Finished:
    """Adds what an activity lacks: the stop of the timer, the last lap, the session and the activity message, and a file_id if it begins
    with none. What the file has stays as it is. It raises FitError for bytes that are no FIT file, and, without a place, of the kinds
    NotActivity, NoSample and TooLong, or for more than most_bytes of either file. OSError is for a file that cannot be read."""
    data, path = bytes_of(source, most_bytes)
    out, size, counts = _room(len(data) + _FINISH_ROOM, most_bytes), ctypes.c_uint64(), (ctypes.c_uint64 * 2)()
    place = ctypes.c_uint64()
    code = _finish(pointer_to(data), len(data), out.ctypes.data, len(out), ctypes.byref(size), counts, ctypes.byref(place))
    with _named(path):
        if code:
            raise FitError(FAULTS[code], place.value if code < 10 else None)
    return Finished(out[:size.value].tobytes(), *counts)


def shift(source: Source, by: Union[int, datetime.timedelta, None] = None, start: Union[int, datetime.datetime, None] = None,
          most_bytes: Optional[int] = None) -> bytes:
    """Moves every time of a file, such as that of a device whose clock was wrong, and writes the times out in full. by is a number of
    seconds or a timedelta, below 0 for earlier times. start, in its place, is when the ride is to begin: an aware datetime, or seconds since
    1989-12-31 00:00 UTC. Both have whole seconds.

    It raises ValueError for other values. It raises FitError for bytes that are no FIT file, of the kind TimeTooFar with the place of its
    message if a time would be below 0, or 4294967295 or more, and, without a place, of the kinds NoTime and TooLong, or for more than
    most_bytes of either file. OSError is for a file that cannot be read."""
    if by is not None and start is None:
        ask, number = _shift, _seconds(by)
    elif start is not None and by is None:
        ask, number = _shift_start, _time(start)
    else:
        raise ValueError("either by or start says how times are moved")
    data, path = bytes_of(source, most_bytes)
    with _named(path):
        return _written(ask, data, [number], most_bytes).tobytes()


def _written(ask: Any, data: Bytes, words: List[Any], most_bytes: Optional[int]) -> np.ndarray:
    """The new file that a call writes. It raises FitError."""
    # mostly enough, and else the second try has enough
    out, size, place = _room(len(data) + len(data) // 2 + 1024, most_bytes), ctypes.c_uint64(), ctypes.c_uint64()
    while True:
        code = ask(pointer_to(data), len(data), *words, pointer_to(out), len(out), ctypes.byref(size), ctypes.byref(place))
        if code != _NO_ROOM or (most_bytes is not None and size.value > most_bytes):
            break
        out = _room(size.value, most_bytes)
    if code:
        raise FitError(FAULTS[code], place.value if code < 10 or code in (_TOO_FAR, _OTHER_SPORT, _OVERLAP) else None)
    return out[:size.value]


def join(sources: Iterable[Source], as_given: bool = False, most_bytes: Optional[int] = None) -> Finished:
    """Makes one activity of several files, such as the halves of a ride whose device ran out of power, in the order of their times. Distances
    go on from file to file, laps are numbered in turn, between two files the timer stands, and what the whole activity then lacks is added,
    as finish does.

    A file of another sport than those before it is refused with OtherSport, and one that begins before another one ends with Overlap, unless
    as_given is true: then files are joined in the order in which they are given. It raises FitError for these, for a file that is none, of
    the kind TooManyFiles for more than 64 of them, and as finish does for the whole. Its path is that of the file at fault, or "file 2" for
    the second one if that is given as bytes. OSError is for a file that cannot be read, and ValueError for none at all."""
    parts = []
    for number, source in enumerate(sources, 1):
        name = os.fspath(source) if isinstance(source, (str, os.PathLike)) else "file %d" % number
        with _named(name):
            data = bytes_of(source, most_bytes)[0]
            parts.append((_begins(data), _written(_plain, data, [], most_bytes), name))
    if not parts:
        raise ValueError("no file to join")
    if not as_given:
        parts.sort(key=lambda part: part[0])
    try:
        joined = _written(_join, np.concatenate([part for _, part, _ in parts]), [as_given], most_bytes)
    except FitError as fault:
        raise FitError(fault.kind, None, _part_at(parts, fault.place)) from None
    return finish(memoryview(joined), most_bytes)


def _begins(data: Bytes) -> int:
    """The first time of a file, by which its part is put in order. One without a time comes last."""
    time, place = ctypes.c_uint32(), ctypes.c_uint64()
    code = _first_time(pointer_to(data), len(data), ctypes.byref(time), ctypes.byref(place))
    if code and code != _NO_TIME:
        raise FitError(FAULTS[code], place.value)
    return _ABSENT if code else time.value


def _part_at(parts: List[Tuple[int, np.ndarray, str]], place: Optional[int]) -> Optional[str]:
    """The name of the part that begins at a place among them, None for none."""
    at = 0
    for _, part, name in parts:
        if at == place:
            return name
        at += len(part)
    return None


def _seconds(by: Union[int, datetime.timedelta]) -> int:
    """The number of seconds. No time can be moved by more than there are, so it is bounded by them."""
    if isinstance(by, datetime.timedelta):
        whole, rest = divmod(by, datetime.timedelta(seconds=1))
        if rest:
            raise ValueError("times are moved by whole seconds, and not by %s" % by)
        by = whole
    return max(-_ABSENT, min(operator.index(by), _ABSENT))


def _time(start: Union[int, datetime.datetime]) -> int:
    """The time in seconds since 1989-12-31 00:00 UTC."""
    if isinstance(start, datetime.datetime):
        if start.tzinfo is None:
            raise ValueError("a datetime without a zone names no moment: %s" % start)
        start, rest = divmod(start - _EPOCH, datetime.timedelta(seconds=1))
        if rest:
            raise ValueError("a ride begins at a whole second")
    time = operator.index(start)
    if not 0 <= time < _ABSENT:
        raise ValueError("no time in seconds since 1989-12-31 00:00 UTC: %d" % time)
    return time


def split(source: Source, most_bytes: Optional[int] = None) -> List[bytes]:
    """The files that follow each other without a gap, each by the size that its header gives; the last one is what is left. It raises
    FitError for more than most_bytes, and OSError."""
    rest, found = memoryview(bytes_of(source, most_bytes)[0]), []
    while len(rest):
        size = _first_file(pointer_to(rest), len(rest))
        found.append(rest[:size].tobytes())
        rest = rest[size:]
    return found


class Checker:
    """Checks file after file, for many of them, none of which has more than the most bytes."""

    def __init__(self, most_bytes: Optional[int]):
        self.most = most_bytes

    def __call__(self, names: List[str], work: Any = None) -> Batch:
        faults: Dict[int, Exception] = {}
        found = np.full((len(_NUMBERS), len(names)), _ABSENT, np.int64)
        for at, name in enumerate(names):
            try:
                found[:, at] = _numbers(content_of(name, self.most))
            except FitError as fault:
                faults[at] = FitError(fault.kind, fault.place, name)
            except (OSError, MemoryError) as fault:
                faults[at] = fault
        return Batch([1] * len(names), faults, found, [], {})

    def died(self, fault: Exception) -> Batch:
        return Batch([1], {0: fault}, np.full((len(_NUMBERS), 1), _ABSENT, np.int64), [], {})


def summed_up(names: List[str], blocks: List[np.ndarray], faults: List[Tuple[Optional[str], Optional[int]]]) -> Columns:
    """The columns of `check_many`."""
    block = np.concatenate([np.empty((len(_NUMBERS), 0), np.int64), *blocks], axis=1)
    found = {"file": objects(names)}
    for name, row in zip(_NUMBERS, block):
        if name == "start":
            dates = (row + int(_EPOCH.timestamp())).astype("M8[s]")
            dates[(row == _ABSENT) | (row < _FIRST_DATE)] = np.datetime64("NaT")
            found[name] = dates
        else:
            found[name] = np.where(row == _ABSENT, np.nan, row.astype(float))
    found["kind"] = objects(kind for kind, _ in faults)
    found["place"] = np.array([np.nan if place is None else place for _, place in faults], float)
    return Columns(found, {"file": "", **_NUMBERS, "kind": "", "place": ""})
