"""Rides of other makers: those in Debian's source of goldencheetah, which is fetched into compare/out once."""

import fcntl
import pathlib
import re
import subprocess

from tools.checks import Skipped
from tools.program import ROOT

SOURCE = ROOT / "compare/out/goldencheetah"


def rides():
    """The files by their names; or why there are none."""
    SOURCE.mkdir(parents=True, exist_ok=True)
    with open(SOURCE / "lock", "w") as lock:
        fcntl.flock(lock, fcntl.LOCK_EX)
        return fetched()


def source_lists():
    """The options by which apt looks for sources where the system takes its packages from, with lists of its own: few systems list sources."""
    folder = SOURCE / "apt"
    for it in "parts", "lists/partial":
        (folder / it).mkdir(parents=True, exist_ok=True)
    for path in [pathlib.Path("/etc/apt/sources.list"), *pathlib.Path("/etc/apt/sources.list.d").glob("*")]:
        if path.suffix in (".list", ".sources") and path.exists():
            text = re.sub(r"(?m)^(Types:.*|)\bdeb\b(?!-)", r"\1deb-src", path.read_text())
            (folder / "parts" / path.name).write_text(text)
    return ["-o", "Dir::Etc::sourcelist=/dev/null", "-o", "Dir::Etc::sourceparts=%s" % (folder / "parts"),
            "-o", "Dir::State::lists=%s" % (folder / "lists")]


def fetched():
    if not any(SOURCE.glob("*.orig.tar.gz")):
        options = source_lists()
        subprocess.run(["apt-get", *options, "update"], capture_output=True)
        for version in ("goldencheetah=1:3.5-1.1", "goldencheetah"):
            if not any(SOURCE.glob("*.orig.tar.gz")):
                subprocess.run(["apt-get", *options, "source", "--download-only", version], cwd=SOURCE, capture_output=True)
    archive = next(SOURCE.glob("*.orig.tar.gz"), None)
    if archive is None:
        return Skipped("the source of goldencheetah, which apt-get source does not fetch here")
    if not any(SOURCE.glob("files/*")):
        (SOURCE / "files").mkdir(exist_ok=True)
        words = ["tar", "xzf", archive, "-C", SOURCE / "files", "--wildcards", "*.fit", "--transform", "s,.*/,,"]
        if subprocess.run(words, capture_output=True).returncode != 0:
            return Skipped("the rides in the source of goldencheetah")
    found = {path.name: path.read_bytes() for path in sorted(SOURCE.glob("files/*.fit"))}
    return {name: data for name, data in found.items() if data[8:12] == b".FIT"}
