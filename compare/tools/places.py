"""Places for the file OUT of a command: a folder with an IN, and with what has the name of OUT."""

import contextlib
import os
import pathlib
import tempfile

from tools.program import bytes_of

OLD = b"what was there"


def lay(path, data):
    """Makes a file of these bytes, or a folder with the files of these names."""
    if isinstance(data, bytes):
        path.write_bytes(data)
    else:
        path.mkdir()
        for name, content in data.items():
            lay(path / name, content)


def laid(path):
    """The bytes of a file, or of the files of a folder by their names."""
    return path.read_bytes() if path.is_file() else {it.name: it.read_bytes() for it in path.iterdir()}


class Place:
    """A folder with IN, which is a file or a folder, and a file in the place of OUT."""

    def __init__(self, folder, data, old=OLD):
        self.folder = pathlib.Path(folder)
        self.source, self.out = self.folder / "in.fit", self.folder / "out.fit"
        lay(self.source, data)
        if old is not None:
            self.out.write_bytes(old)

    def left(self):
        """The bytes of OUT, and all names in its folder."""
        return bytes_of(self.out), sorted(os.listdir(self.folder))


@contextlib.contextmanager
def place_of(data, old=OLD):
    with tempfile.TemporaryDirectory() as folder:
        yield Place(folder, data, old)
