"""Processes that work side by side, of which any may die."""

from __future__ import annotations

import contextlib
import itertools
import mmap
import os
import pickle
import selectors
import signal
import socket
import struct
import subprocess
import sys
from typing import Any, Dict, Iterable, Iterator, List, NamedTuple, Optional, Tuple

import numpy as np

from ._batch import WORK_VALUES, Work, WorkerDied

# How many batches a worker has at a time, so that it never waits for the next one.
_AHEAD = 2
# How many workers in a row may die before they are ready.
_MOST_STARTS = 4
_SIZE = struct.Struct("<Q")
# What a worker says first.
_READY = "ready"
_START = "import sys; sys.path[:] = %r; from fitrec._workers import serve; serve(%d)"


def cores() -> int:
    """The processors that this process may use."""
    return len(os.sched_getaffinity(0))


def _exactly(link: socket.socket, size: int) -> Optional[Tuple[bytes, List[int]]]:
    """So many bytes, and the files that come with them. None if the other side ended."""
    parts, files = [], []
    try:
        while size:
            part, some, _, _ = socket.recv_fds(link, min(size, 1 << 20), 1)
            files += some
            if not part:
                break
            parts.append(part)
            size -= len(part)
    except ConnectionError:
        pass
    if not size:
        return b"".join(parts), files
    for it in files:
        os.close(it)
    return None


def _send(link: socket.socket, what: Any, files: Iterable[int] = ()) -> None:
    """Sends an object, with files. Whoever has ended is noticed where its answer is awaited."""
    content = pickle.dumps(what, pickle.HIGHEST_PROTOCOL)
    with contextlib.suppress(ConnectionError):
        socket.send_fds(link, [_SIZE.pack(len(content))], list(files))
        link.sendall(content)


def _receive(link: socket.socket) -> Any:
    """An object; None if the other side ended."""
    size = _exactly(link, _SIZE.size)
    content = size and _exactly(link, *_SIZE.unpack(size[0]))
    return content and pickle.loads(content[0])


def _shared(size: int) -> Tuple[int, np.ndarray]:
    """Memory that another process can map too: its file, and so many values."""
    file = os.memfd_create("fitrec", os.MFD_CLOEXEC)
    os.ftruncate(file, max(8 * size, 1))
    return file, _mapped(file, size)


def _mapped(file: int, size: int) -> np.ndarray:
    return np.frombuffer(mmap.mmap(file, max(8 * size, 1)), np.int64, size)


class _Place(NamedTuple):
    """Where the block of an answer is: in the memory with this number, None for one of its own; its shape, and the width of its rows."""

    number: Optional[int]
    shape: Tuple[int, int]
    width: int


class _Memories:
    """The memories of a worker, which the other side maps when the first answer is in them, and says when they are free again."""

    def __init__(self) -> None:
        self.files: List[Optional[int]] = []
        self.values: List[np.ndarray] = []
        self.free: List[int] = []

    def take(self) -> int:
        if not self.free:
            file, values = _shared(WORK_VALUES)
            self.free.append(len(self.files))
            self.files.append(file)
            self.values.append(values)
        return self.free.pop()

    def send(self, link: socket.socket, number: int, batch: Any) -> None:
        """Sends a batch, whose block is in the memory with this number if there is room."""
        block, file = batch.block, self.files[number]
        if block.size and np.may_share_memory(block, self.values[number]):
            self.files[number] = None
            place = _Place(number, block.shape, block.strides[0] // 8)
        else:
            self.free.append(number)
            file, values = _shared(block.size)
            values.reshape(block.shape)[:] = block
            place = _Place(None, block.shape, block.shape[1])
        _send(link, batch._replace(block=place), [] if file is None else [file])
        if file is not None:
            os.close(file)


def serve(descriptor: int) -> None:
    """What a worker does: it takes a job, and then names, with the numbers of memories that are free, until the other side ends."""
    signal.signal(signal.SIGINT, signal.SIG_IGN)
    with socket.socket(fileno=descriptor) as link:
        job = _receive(link)
        _send(link, _READY)
        work, memories = Work(), _Memories()
        for names, free in iter(lambda: _receive(link), None):
            memories.free += free
            number = memories.take()
            work.values = memories.values[number]
            try:
                batch = job(names, work)
                batch.block  # what is no batch is a fault too
            except Exception as fault:  # is raised where the names come from
                _send(link, fault)
            else:
                memories.send(link, number, batch)


class _Slot:
    """Names, how often they were tried, and their answer; and the worker in whose memory with this number that is."""

    def __init__(self, names: List[str], tries: int = 0):
        self.names, self.tries = names, tries
        self.answer: Any = None
        self.worker: Optional[_Worker] = None
        self.number: Optional[int] = None


class _Worker:
    """A process, and what it was given and has not answered."""

    def __init__(self, job: Any):
        self.link, its = socket.socketpair()
        self.slots: List[_Slot] = []
        self.is_ready = False
        self.memories: Dict[int, np.ndarray] = {}
        self.free: List[int] = []
        with its:
            self.process = subprocess.Popen(
                [sys.executable, "-c", _START % (sys.path, its.fileno())], pass_fds=[its.fileno()], stdin=subprocess.DEVNULL,
                env={"OPENBLAS_NUM_THREADS": "1", **os.environ})
        _send(self.link, job)

    def give(self, slot: _Slot) -> None:
        self.slots.append(slot)
        _send(self.link, (slot.names, self.free))
        self.free = []

    def answers(self) -> bool:
        """Takes an answer, the first of which is that it is ready. False if it ended."""
        head = _exactly(self.link, _SIZE.size)
        content = head and _exactly(self.link, *_SIZE.unpack(head[0]))
        if not head or not content:
            for it in head[1] if head else ():
                os.close(it)
            return False
        answer, files = pickle.loads(content[0]), head[1]
        if isinstance(answer, Exception):
            raise answer
        if not self.is_ready:
            self.is_ready = True
            return True
        slot, place = self.slots.pop(0), answer.block
        values = self.memories.get(place.number, np.empty(0, np.int64))
        for it in files:
            values = _mapped(it, WORK_VALUES if place.number is not None else int(np.prod(place.shape)))
            os.close(it)
        if place.number is not None:
            self.memories[place.number] = values
            slot.worker, slot.number = self, place.number
        rows, columns = place.shape
        slot.answer = answer._replace(block=values[:rows * place.width].reshape(rows, place.width)[:, :columns])
        return True

    def end(self) -> str:
        """Ends it, and says how it ended."""
        self.link.close()
        self.process.kill()
        status = self.process.wait()
        return "signal %d" % -status if status < 0 else "status %d" % status


class _Pool:
    """The workers, and the slots that are not handed over yet, in the order of the names."""

    def __init__(self, job: Any, batches: Iterator[List[str]], most: int):
        self.job, self.batches, self.most = job, batches, most
        self.workers: List[_Worker] = []
        self.slots: List[_Slot] = []
        self.again: List[_Slot] = []
        self.failed_starts = 0
        self.selector = selectors.DefaultSelector()

    def __enter__(self) -> _Pool:
        return self

    def __exit__(self, *_: object) -> None:
        for it in self.workers:
            it.end()
        self.selector.close()

    def _next(self) -> Optional[_Slot]:
        """A slot that is tried again, or a new one, unless too many wait to be handed over."""
        if self.again:
            return self.again.pop(0)
        names = next(self.batches, None) if len(self.slots) < 2 * _AHEAD * self.most else None
        if names is None:
            return None
        self.slots.append(_Slot(names))
        return self.slots[-1]

    def give(self) -> None:
        """Gives the workers what they have room for, first to the one that has least."""
        while True:
            least = min(self.workers, key=lambda it: len(it.slots), default=None)
            is_one_more = len(self.workers) < self.most and not (least and not least.slots)
            slot = self._next() if is_one_more or (least and len(least.slots) < _AHEAD) else None
            if slot is None:
                return
            if is_one_more:
                least = _Worker(self.job)
                self.workers.append(least)
                self.selector.register(least.link, selectors.EVENT_READ, least)
            least.give(slot)

    def take(self, waits: bool) -> None:
        """Takes what the workers answer."""
        for key, _ in self.selector.select(None if waits else 0):
            if not key.data.answers():
                self._replace(key.data)
            elif key.data.is_ready:
                self.failed_starts = 0

    def _replace(self, worker: _Worker) -> None:
        """After the death of a worker: each file that it was at is tried again alone, and what it had not begun as it is."""
        self.workers.remove(worker)
        self.selector.unregister(worker.link)
        how = worker.end()
        if not worker.is_ready:
            self.failed_starts += 1
            if self.failed_starts == _MOST_STARTS:
                raise RuntimeError("no process of fitrec starts: %d ended at once, the last with %s" % (_MOST_STARTS, how))
        elif worker.slots:
            slot = worker.slots.pop(0)
            if slot.tries and len(slot.names) == 1:
                said = "the process that read %s died twice, the second time with %s" % (slot.names[0], how)
                slot.answer = self.job.died(WorkerDied(said))
            else:
                alone = [_Slot([name], slot.tries + 1) for name in slot.names]
                at = self.slots.index(slot)
                self.slots[at:at + 1] = alone
                self.again[:0] = alone
        self.again += worker.slots


def answers(job: Any, batches: Iterable[List[str]], workers: Optional[int]) -> Iterator[Tuple[List[str], Any]]:
    """Names and what a job answers to them, in order; by so many processes, or in this one if that is 1 or there is just one batch. The
    block of an answer stays until the next one is asked for."""
    workers, batches = cores() if workers is None else workers, iter(batches)
    first = list(itertools.islice(batches, 2))
    batches = itertools.chain(first, batches)
    if workers == 1 or len(first) < 2:
        work = Work()
        for names in batches:
            yield names, job(names, work)
        return
    with _Pool(job, batches, workers) as pool:
        while True:
            pool.give()
            if not pool.slots:
                return
            pool.take(pool.slots[0].answer is None)
            while pool.slots and pool.slots[0].answer is not None:
                slot = pool.slots.pop(0)
                pool.give()
                yield slot.names, slot.answer
                if slot.worker is not None:
                    slot.worker.free.append(slot.number)
                pool.take(False)
