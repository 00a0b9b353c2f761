"""The static libraries: built from what is proved, compiled into a C program, and their names."""

import contextlib
import os
import re
import subprocess
import sys
import tempfile

from tools.checks import differs
from tools.program import ROOT, run

sys.path.insert(0, str(ROOT))
from kept import load_rt

COMPILERS = {"as it is": ["-O2"], "under sanitizers": ["-g", "-fsanitize=address,undefined", "-fno-sanitize-recover=all"]}
WARNINGS = ["-Wall", "-Wextra", "-Werror", "-I", ROOT / "include"]


def build(to, name="fit_c"):
    """Proves a static library over the libraries of the tree, and makes it. Its proofs are kept in the crate's out/, as `rt lib` keeps them,
    so only the first of those who ask for it proves it. The last lines of the build, if that fails."""
    rt = load_rt()
    crate = next(it for it in rt.rtlib.crates_below(str(ROOT)) if it.name == name)
    words = [*crate.words(["--jobs", "1"]), *rt.rtlib.KEPT, "--toolchain", rt.KIT + "/toolchain", "-o", to]
    os.makedirs(crate.folder + "/out", exist_ok=True)
    held = rt.rtlib.lock([crate])
    built = subprocess.run([rt.rtlib.RATTLE, "build", *words], cwd=crate.folder, stdout=subprocess.PIPE, stderr=subprocess.STDOUT, text=True)
    for it in held:
        os.close(it)
    return None if built.returncode == 0 else built.stdout[-2000:]


@contextlib.contextmanager
def programs(*sources, words=("-std=gnu11",)):
    """A C program of these sources and libraries, compiled in each way."""
    with tempfile.TemporaryDirectory() as folder:
        made = {}
        for name, more in COMPILERS.items():
            made[name] = "%s/%d" % (folder, len(made))
            subprocess.run(["cc", *words, *WARNINGS, *more, *sources, "-o", made[name]], check=True)
        yield made


def declared():
    """The calls that the headers declare: those of fit_c, those of fit_device, and those of the session over it."""
    kinds = ("fitrec", r"uint\w+_t"), ("fitrec_device", "FITREC_CHECKED uint8_t"), ("fitrec_device", "FITREC_CHECKED enum fitrec_answer")
    return [re.findall(r"^%s (\w+)\(" % kind, (ROOT / ("include/%s.h" % name)).read_text(), re.M) for name, kind in kinds]


def decided():
    """The calls of fit_device that no header declares: what the session asks it to decide."""
    return re.findall(r"^uint\w+_t (fitrec_session_\w+)\(", (ROOT / "device/session.c").read_text(), re.M)


def names_of(archive, calls):
    """A library calls only three functions of C, and exports exactly these calls."""
    listed = run("nm", archive)[1]
    yield "what it calls", differs(set(re.findall(r" U (\w+)", listed)) - {*calls}, {"memcpy", "memmove", "memset"})
    yield "what it exports", differs(sorted(re.findall(r" T (\w+)", listed)), sorted(calls))
