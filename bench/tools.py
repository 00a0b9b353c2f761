"""What the benches share: proved programs and C programs in a temporary folder, and what a run takes."""

import os
import pathlib
import shutil
import subprocess
import sys
import time

ROOT = pathlib.Path(__file__).resolve().parent.parent
sys.path.insert(0, str(ROOT))
import kept

FITREC = ROOT / "crates/fitrec/out/fitrec"
# The first second of each ride.
START = 1_000_000_000


def run(*words, **how):
    """What a run prints. It has to end well."""
    done = subprocess.run([str(it) for it in words], stdout=subprocess.PIPE, stderr=subprocess.STDOUT, text=True, **how)
    if done.returncode:
        sys.exit("bench: %s ended with %d:\n%s" % (" ".join(map(str, words[:4])), done.returncode, done.stdout[-3000:]))
    return done.stdout


def proved(work, name, *uses):
    """The Rattle program of bench/NAME over these crates, proved and built. The build ends with a run without words, which may fail."""
    own = "bench_" + name
    crate = kept.tree_of(work / "tree", [it for it in uses if it in kept.crates()]) / own
    with open(work / "tree/crates.txt", "a") as lines:
        lines.write("%s: %s\n" % (own, " ".join(uses)))
    for path in (ROOT / "bench" / name).rglob("*.in"):
        place = path.relative_to(ROOT / "bench" / name).with_suffix("")
        to = crate / ("src" if place.suffix == ".rt" else "") / place
        to.parent.mkdir(parents=True, exist_ok=True)
        shutil.copy(path, to)
    built = subprocess.run(["rt", "run"], cwd=crate, stdout=subprocess.PIPE, stderr=subprocess.STDOUT, text=True)
    if not (crate / "out" / own).exists():
        sys.exit("bench: %s was not proved and built:\n%s" % (own, built.stdout[-3000:]))
    return crate / "out" / own


def compiled(work, name, source, *words):
    """A program in C of bench/NAME."""
    run("cc", "-O2", "-o", work / source, ROOT / "bench" / name / (source + ".c"), *words)
    return work / source


def python_package(work, bench):
    """What finds the Python package, over the shared library of what is proved."""
    crate = kept.tree_of(work / "tree", ["fit_c"]) / "fit_c"
    if kept.static_library(crate, shutil.which("rt")):
        sys.exit(bench + ": fit_c was not built")
    run(ROOT / "build-shared", work, crate / "out/libfit_c.a")
    return os.environ | {"FITREC_LIBRARY": str(work / "libfitrec.so"), "PYTHONPATH": str(ROOT / "python")}


def launched():
    """The program, proved and built if it is not there yet."""
    run(ROOT / "fitrec", "version", env=os.environ | {"FITREC_BUILD": "1"})
    return FITREC


def nine_fields(at):
    """The fields of a sample, of which no two after one another are the same."""
    return "lat=%d long=%d alt=%d hr=%d cad=%d dist=%d speed=%d power=%d temp=%d" % (
        566012345 + 100 * at % 9999999, 102345678 - 50 * at % 9999999, 2655 + at % 500, 100 + at % 80, 80 + at % 9, 7 * at, 6000 + at % 500,
        200 + at % 100, at % 30)


class Took:
    """The least time of some runs, on the clock and of the processor, in seconds, and the greatest peak of memory, in bytes."""

    def __init__(self, words, rounds=3, status=0):
        self.clock = self.busy = 1e9
        self.peak = 0
        for _ in range(rounds):
            self.once([str(it) for it in words], status)

    def once(self, words, status):
        begun = time.monotonic()
        child = subprocess.Popen(words, stdin=subprocess.DEVNULL, stdout=subprocess.DEVNULL, stderr=subprocess.PIPE, text=True)
        self.said = child.stderr.read()
        _, ended, used = os.wait4(child.pid, 0)
        child.returncode = os.waitstatus_to_exitcode(ended)
        if child.returncode != status:
            sys.exit("bench: %s ended with %d: %s" % (" ".join(words[:2]), child.returncode, self.said))
        self.clock = min(self.clock, time.monotonic() - begun)
        self.busy = min(self.busy, used.ru_utime + used.ru_stime)
        self.peak = max(self.peak, used.ru_maxrss * 1024)
