"""Where the bytes of a file come from."""

from __future__ import annotations

import errno
import os
import stat
from typing import Iterable, Optional, Tuple, Union

from ._library import OVER_LIMIT, FitError

Path = Union[str, "os.PathLike[str]"]
Source = Union[str, "os.PathLike[str]", bytes, bytearray, memoryview]
Bytes = Union[bytes, bytearray, memoryview]


def several(sources: Iterable[Path]) -> Iterable[Path]:
    """These paths. One alone is refused: each of its letters would be a path."""
    if isinstance(sources, (str, bytes, os.PathLike)):
        raise ValueError("several files are given as a list of paths, and not as %r" % (sources,))
    return sources


def bytes_of(source: Source, most: Optional[int] = None) -> Tuple[Bytes, Optional[str]]:
    """The bytes of a source, and its path if it has one. More than so many are refused."""
    if isinstance(source, (str, os.PathLike)):
        with open(source, "rb") as opened:
            return _content(opened.fileno(), os.fspath(source), most), os.fspath(source)
    allow(memoryview(source).nbytes, most)
    if isinstance(source, (bytes, bytearray)):
        return source, None
    return source.cast("B") if source.c_contiguous else source.tobytes(), None


def allow(size: int, most: Optional[int], path: Optional[str] = None) -> None:
    """Refuses so many bytes where fewer are allowed: the first that is too many is the place."""
    if most is not None and size > most:
        raise FitError(OVER_LIMIT, most, path)


def content_of(name: str, most: Optional[int] = None) -> bytes:
    """The bytes of a regular file. Nothing else is read: a named pipe would be waited for. More than so many bytes are refused."""
    opened = os.open(name, os.O_RDONLY | os.O_NONBLOCK | os.O_CLOEXEC)
    try:
        mode = os.fstat(opened).st_mode
        if not stat.S_ISREG(mode):
            raise OSError(errno.EISDIR if stat.S_ISDIR(mode) else errno.EINVAL, "no regular file", name)
        return _content(opened, name, most)
    finally:
        os.close(opened)


def _content(opened: int, name: str, most: Optional[int]) -> bytes:
    """The bytes of a file that is opened."""
    size = os.fstat(opened).st_size
    allow(size, most, name)
    content = os.read(opened, size + 1)
    if size and len(content) == size:
        return content
    parts = [content]
    read = len(content)
    while len(parts[-1]):
        allow(read, most, name)
        parts.append(os.read(opened, 1 << 20))
        read += len(parts[-1])
    return b"".join(parts)
