"""What release/ was made from, and whether what is made here has its bytes."""

import functools
import hashlib
import pathlib
import shutil
import subprocess
import sys

from tools.checks import Skipped, differs
from tools.program import ROOT, bytes_of

sys.path.insert(0, str(ROOT))
import kept

RELEASE = ROOT / "release"
OBJECTS = ["fitrec-cortex-m0plus.o", "fitrec-cortex-m4.o", "fitrec-rv32imac.o", "libfit_device-aarch64.a"]


def stated(release):
    """The lines of BUILT-FROM, by their first words."""
    return dict(it.split(" ", 1) for it in (bytes_of(release / "BUILT-FROM") or b"").decode().splitlines() if " " in it)


def said_by(*words):
    return subprocess.run(words, stdout=subprocess.PIPE, text=True, check=True, cwd=ROOT).stdout.strip()


@functools.cache
def sources():
    return said_by("./sources").splitlines()


def is_of_these_sources(release):
    of = stated(release)
    return ["%s %s" % (word, of.get(word)) for word in ("crates", "others")] == sources()


@functools.cache
def why_not(name):
    """Why a file that is made here may have other bytes than the released one, or None."""
    of = stated(RELEASE)
    of_page = [*((it, (it, "--version")) for it in ("wasm-opt", "esbuild")), ("zopfli", kept.ZOPFLI)]
    tools = {"fitrec.html": of_page, ".whl": [("pip", kept.WHEEL_TOOLS)]}
    for word, here in (("kit", ("rt", "version")), *next((tools[it] for it in tools if name.endswith(it)), [])):
        found = said_by(*here).removeprefix(word + " ") if shutil.which(here[0]) else "none"
        if found != of.get(word):
            return "release/ is by %s %s, and here is %s" % (word, of.get(word), found)
    return None


def same(name, made):
    """The name of a check, and how a file that was made here differs from the released one."""
    why = why_not(name) if is_of_these_sources(RELEASE) else "release/ is of other sources"
    sums = [hashlib.sha256(bytes_of(pathlib.Path(it)) or b"").hexdigest() for it in (made, RELEASE / name)]
    return name + " has the released bytes", Skipped(why) if why else differs(*sums)
