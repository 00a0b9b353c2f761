"""The program with its system calls reported and made to go wrong, by a library that is loaded before it (faults.c)."""

import contextlib
import errno
import os
import pathlib
import subprocess
import tempfile

from tools.program import run

HERE = pathlib.Path(__file__).resolve().parent

# The errors that calls fail with. A call that is interrupted is tried again.
ERRORS = [getattr(errno, name) for name in ("EIO", "ENOSPC", "ENOMEM", "EDQUOT", "EROFS", "EACCES", "EINVAL")]


class Traced:
    """A program, with its calls reported and made to go wrong."""

    def __init__(self, fitrec, library):
        self.fitrec, self.library = fitrec, library

    def run(self, *words, how=None, **wrong):
        """Its outcome, and its calls. The calls that go wrong are given by `call`, `number`, and `errno` or `most`."""
        with tempfile.NamedTemporaryFile("r") as log:
            settings = {"LD_PRELOAD": self.library, "FAULTS_LOG": log.name}
            settings |= {"FAULTS_" + word.upper(): str(value) for word, value in wrong.items()}
            said = run(self.fitrec, *words, env=os.environ | settings, **(how or {}))
            return said, log.read().splitlines()


@contextlib.contextmanager
def tracing(fitrec):
    """The program, traced."""
    with tempfile.TemporaryDirectory() as folder:
        subprocess.run(["cc", "-O1", "-shared", "-fPIC", "-o", folder + "/faults.so", HERE / "faults.c"], check=True)
        yield Traced(fitrec, folder + "/faults.so")


def requests(traced, *words, **how):
    """The size of each request for memory of a run, in bytes."""
    _, log = traced.run(*words, call="memory", number=1 << 40, errno=errno.ENOMEM, **how)
    return [int(line.split()[2]) for line in log if line.startswith("memory")]
