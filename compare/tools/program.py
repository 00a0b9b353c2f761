"""The built program as the checks run it: in a new folder, with limits, or as another user."""

import contextlib
import os
import pathlib
import resource
import signal
import subprocess
import tempfile

ROOT = pathlib.Path(__file__).resolve().parent.parent.parent
FITREC = ROOT / "crates/fitrec/out/fitrec"
# The two files of a recording.
NAMES = ("activity.fit", "activity.frj")
NOBODY = 65534
# The seconds that a run may take.
LIMIT = 100
# The cores that may be used: `taskset` can leave fewer than there are.
CORES = len(os.sched_getaffinity(0))


def run(*words, **how):
    """The status, the output and the errors of a run, without input if none is given."""
    how = {"stdout": subprocess.PIPE, "stderr": subprocess.PIPE, "timeout": LIMIT} | how
    if isinstance(how.get("input"), str):
        how["input"] = how["input"].encode()
    if "input" not in how:
        how.setdefault("stdin", subprocess.DEVNULL)
    words = [it if isinstance(it, bytes) else str(it) for it in words]
    try:
        ran = subprocess.run(words, **how)
    except subprocess.TimeoutExpired:
        return None, "", "it did not end"
    return ran.returncode, (ran.stdout or b"").decode(), (ran.stderr or b"").decode()


@contextlib.contextmanager
def room(*lines):
    """A script of these lines, and a function that makes a new empty folder for it."""
    with tempfile.TemporaryDirectory() as folder:
        script = pathlib.Path(folder) / "script"
        script.write_text("".join(line + "\n" for line in lines))
        yield script, lambda: tempfile.mkdtemp(dir=folder)


def holds(folder):
    """The bytes of both files of a recording."""
    return [(pathlib.Path(folder) / name).read_bytes() for name in NAMES]


def bytes_of(path):
    """The bytes of a file, or None if it is not one."""
    return path.read_bytes() if path.is_file() else None


def may_not_grow(size):
    """For a new process: its files have at most so many bytes."""
    def limit():
        # Without this the system ends a program whose file may not grow.
        signal.signal(signal.SIGXFSZ, signal.SIG_IGN)
        resource.setrlimit(resource.RLIMIT_FSIZE, (size, size))
    return limit


def may_take(size):
    """For a new process: it has at most so many bytes of memory."""
    return lambda: resource.setrlimit(resource.RLIMIT_AS, (size, size))


def as_nobody():
    """For a new process: it runs as a user without special rights."""
    if os.getuid() == 0:
        os.setgroups([])
        os.setgid(NOBODY)
        os.setuid(NOBODY)


@contextlib.contextmanager
def small_disk(folder):
    """A disk of 64 KiB in this folder. False if none can be mounted."""
    mounted = run("mount", "-t", "tmpfs", "-o", "size=64k", "fitrec", folder)[0] == 0
    try:
        yield mounted
    finally:
        if mounted:
            run("umount", folder)


@contextlib.contextmanager
def for_everyone(fitrec):
    """A copy of the program that another user may run too: that user may have no access to its folder."""
    with tempfile.TemporaryDirectory() as folder:
        os.chmod(folder, 0o755)
        copy = pathlib.Path(folder, fitrec.name)
        copy.write_bytes(fitrec.read_bytes())
        copy.chmod(0o755)
        yield copy
