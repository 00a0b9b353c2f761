"""The Python package: its own tests, its values by the second reader, many files by the program, a cluster of Dask whose workers are
killed, what its page shows, and the types that mypy sees. pip installs its wheel, which needs no compiler, and its folder."""

import contextlib
import os
import pathlib
import re
import shutil
import tempfile

from tools.checks import Skipped, differs, unless
from tools.libraries import build
from tools.needs import PYTHON, missing
from tools.program import ROOT, run
from tools.rides import script_of

NEEDS = ("fitrec", "rt", "cc", "python3-numpy", "python3-pandas", "python3-setuptools", "python3-wheel", "python3-pip", "python3-dask",
         "python3-distributed", "python3-fsspec", "python3-matplotlib", "mypy")

# What a user writes, with what mypy says of the line.
TYPED = """\
import datetime

import fitrec
import numpy as np

ride: fitrec.Columns = fitrec.read("ride.fit", fields=["heart_rate", 3])
mean: float = float(np.nanmean(ride["heart_rate"]))
unit: str = ride.units["heart_rate"]
names: list[str] = []
for name, columns, fault in fitrec.iter_many(["a.fit"], {"power": None, "Power": float}, units=True, workers=2, enums=True, most_bytes=9):
    names.append(name)
    if columns is not None:
        names += list(columns)
    if fault is not None:
        place: int | None = fault.place
        kind: str = fault.kind
try:
    summary: fitrec.Summary = fitrec.check(b"")
    records: int = summary.records
except fitrec.FitError as error:
    where: int | None = error.place
saved: bytes = fitrec.salvage(b"", all=True).data + fitrec.skip(b"").data + fitrec.finish(b"").data
moved: bytes = fitrec.shift(b"", by=datetime.timedelta(days=1)) + fitrec.shift(b"", start=1) + fitrec.shift(b"", -3600)
joined: bytes = fitrec.join([b"", "a.fit"], as_given=True, most_bytes=9).data
pieces: list[fitrec.Piece] = fitrec.skip(b"").pieces
rows: int = fitrec.write_many(["a.fit"], "folder", "power").rows
many: fitrec.Columns = fitrec.check_many(["a.fit"])
nothing: fitrec.Columns = fitrec.schema(["power"], message=20)
fitrec.read(1.5)  # arg-type
fitrec.shift(b"", start="2026")  # arg-type
fitrec.join(5)  # arg-type
wrong: int = fitrec.check(b"", most_bytes=1 << 20).start  # assignment
fitrec.read("ride.fit", enums=True, most_bytes="1")  # arg-type
fitrec.iter_many(["a.fit"], ["power"], workers="2")  # arg-type
columns_of: str = fitrec.schema(["power"])  # assignment
for other in fitrec.iter_many(["a.fit"]):
    other.columns["power"]  # index
print(fitrec.NOTHING)  # attr-defined
"""


PIP = "-m", "pip", "install", "--quiet", "--no-deps", "--no-index"


@contextlib.contextmanager
def installed(archive):
    """What finds the package, as pip installs its wheel where no program is found, and what pip answers."""
    with tempfile.TemporaryDirectory() as folder:
        run(ROOT / "build-shared", folder, archive)
        run(ROOT / "python/build-wheel", folder + "/libfitrec.so", folder)
        to, wheels = folder + "/to", pathlib.Path(folder).glob("*.whl")
        said = run(PYTHON, *PIP, "--target", to, *wheels, env={"PATH": folder})
        yield {"PATH": os.environ["PATH"], "PYTHONPATH": to, "PYTHONDONTWRITEBYTECODE": "1"}, said


def from_its_folder(archive):
    """pip builds and installs the folder of the package."""
    with tempfile.TemporaryDirectory() as folder:
        tree = pathlib.Path(folder, "tree")
        shutil.copytree(ROOT / "python", tree / "python")
        for it in ("build-shared", "crates/fit_commands/src/version.rt"):
            (tree / it).parent.mkdir(parents=True, exist_ok=True)
            shutil.copy(ROOT / it, tree / it)
        (tree / "crates/fit_c/out").mkdir(parents=True)
        shutil.copy(archive, tree / "crates/fit_c/out")
        said = run(PYTHON, *PIP, "--no-build-isolation", "--target", folder + "/to", tree / "python")
        ran = run(PYTHON, "-c", "import fitrec; print(fitrec.read(b''))", env={"PYTHONPATH": folder + "/to"})
        yield "pip installs the folder of the Python package", differs((said[0], ran[2].splitlines()[-1:]), (
            0, ["fitrec._library.FitError: Truncated at 0"]), said[2][-2000:])


def of_the_package(found):
    status, _, errors = run(PYTHON, "-m", "unittest", "discover", "-s", ROOT / "python/tests", env=found, timeout=600)
    yield "the tests of the Python package", differs(status, 0, errors[-2000:])


def by_second_reader(given, found):
    found = found | {"PYTHONPATH": "%s:%s" % (found["PYTHONPATH"], ROOT / "compare")}
    said = run(PYTHON, ROOT / "compare/tools/package.py", given.files // 5, given.seed, env=found, timeout=600)
    yield "values by the package and the second reader", unless(re.fullmatch(r"same [1-9]\d*\n", said[1]), said, "the same values")


def many_files(given, found):
    found = found | {"PYTHONPATH": "%s:%s" % (found["PYTHONPATH"], ROOT / "compare")}
    for group, part in ("typed", 10), ("rows", 50), ("checked", 50), ("whole", 100):
        said = run(PYTHON, ROOT / "compare/tools/archives.py", group, given.fitrec, given.files // part, given.seed, env=found, timeout=600)
        yield "many files: " + group, unless(re.fullmatch(r"same [1-9]\d*\n", said[1]), said, "the same")


def cluster(given, found):
    why = missing("python3-dask", "python3-distributed", "python3-fsspec")
    if why:
        yield "rows by a cluster whose workers are killed", why
        return
    found = found | {"PYTHONPATH": "%s:%s" % (found["PYTHONPATH"], ROOT / "compare")}
    said = run(PYTHON, ROOT / "compare/tools/archives.py", "cluster", given.fitrec, 150, given.seed, env=found, timeout=600)
    yield "rows by a cluster whose workers are killed", unless(re.fullmatch(r"same [1-9]\d*\n", said[1]), said, "the same")


def examples(given, found):
    """What docs/PYTHON.md shows, as a newcomer runs it: over a folder of rides, some of them damaged. A block that has rows and faults has as
    many of both as the program."""
    blocks = re.findall(r"(?m)^    (?:import|from) .*\n(?:(?:    .*)?\n)*", (ROOT / "docs/PYTHON.md").read_text())
    with tempfile.TemporaryDirectory() as folder:
        here = pathlib.Path(folder)
        names = made_rides(given.fitrec, here)
        said = run(given.fitrec, "table", "--each", *names)
        wanted = "%d %d\n" % (len(said[1].splitlines()) - 1, len(said[2].splitlines()) - 1)
        tried = 0
        for block in blocks:
            lines = [line[4:] for line in block.rstrip().splitlines()]
            needed = {"python3-dask", "python3-distributed", "python3-fsspec"} if "dask" in block else {
                "python3-matplotlib"} if "matplotlib" in block else set()
            why = Skipped("not in Debian") if "pyspark" in block else missing(*sorted(needed))
            if not why:
                counted = "rows, faults = " in block
                indent = re.match(" *", lines[-1])[0]
                (here / "shown.py").write_text("\n".join([*lines, *[indent + "print(len(rows), len(faults))"] * counted]))
                ran = run(PYTHON, "shown.py", cwd=folder, env=found | {"MPLBACKEND": "Agg"}, timeout=600)
                why = differs((ran[0], counted and ran[1].endswith(wanted)), (0, counted), ran)
                tried += counted
            yield "docs/PYTHON.md: " + lines[-1].strip(), why
        yield "docs/PYTHON.md has rows and faults", unless(tried or missing("python3-dask"), tried, "some")


def made_rides(fitrec, here):
    """A folder `rides` with rides in folders, of which one is cut off and one damaged, and the names that the page has."""
    (here / "script").write_text(script_of(300, 60) + "stop 1000000400\n")
    (here / "ride").mkdir()
    run(fitrec, "replay", here / "script", here / "ride")
    data = (here / "ride/activity.fit").read_bytes()
    names = [here / "rides" / it for it in ("2021/a.fit", "2021/b.fit", "2022/c.fit", "d.fit", "e.fit")]
    for name, own in zip(names, (data, data[:900], data, data[:700] + b"\xFF" * 40 + data[740:], data)):
        name.parent.mkdir(parents=True, exist_ok=True)
        name.write_bytes(own)
    for name, own in ("ride.fit", data), ("cut_off.fit", data[:900]), ("damaged.fit", names[3].read_bytes()):
        (here / name).write_bytes(own)
    return names


def types(found):
    """What mypy says of a program of a user: each fault that is marked in it, and no other."""
    why = missing("mypy")
    if why:
        yield "types of a user's program", why
        return
    with tempfile.TemporaryDirectory() as folder:
        program = pathlib.Path(folder, "program.py")
        program.write_text(TYPED)
        said = run("mypy", "--strict", "--follow-imports=silent", "--python-executable", PYTHON, "--cache-dir", folder + "/cache", program,
                   env=found | {"MYPYPATH": found["PYTHONPATH"]})
        came = [(int(line), kind) for line, kind in re.findall(r"program\.py:(\d+): error: .*\[([\w-]+)\]", said[1])]
        wanted = [(at, line.partition("# ")[2]) for at, line in enumerate(TYPED.splitlines(), 1) if "# " in line]
        yield "types of a user's program", differs(came, wanted, said[1] + said[2])


def check(given):
    with tempfile.TemporaryDirectory() as folder:
        archive = folder + "/libfit_c.a"
        why = missing("python3-numpy", "python3-pandas", "python3-setuptools", "python3-wheel", "python3-pip")
        if why:
            yield "the Python package", why
            return
        yield from given.checks(proved_and_built, archive)
        if not os.path.exists(archive):
            return
        with installed(archive) as (found, said):
            yield "pip installs the wheel of the Python package", differs(said[0], 0, said[2][-2000:])
            yield from given.checks(from_its_folder, archive)
            yield from given.checks(of_the_package, found)
            for group in (by_second_reader, many_files, cluster):
                yield from given.checks(group, given, found)
            yield from given.checks(examples, given, found)
            yield from given.checks(types, found)


def proved_and_built(archive):
    yield "proved and built", differs(build(archive), None)
