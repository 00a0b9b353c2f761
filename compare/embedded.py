#!/usr/bin/env -S python3 -B
"""Lives of a device that records by a session over raw flash and over two file systems of small devices, littlefs and FatFs. The power goes inside
the calls of the disk below them (compare/embedded), and what was answered as stored has to be there. The hosts are those of examples/device.

    compare/embedded.py [--source LIB] [--archive LIBFIT_DEVICE.A] [--cuts N] [--seed S] [--costs]

It makes N power cuts of each, 10,000 if it is not given. With --costs it prints instead what a commit takes, also of two other recorders
(compare/embedded/costs.c). The sources of both file systems are in Debian's source package micropython, which is fetched if a line deb-src of
the system has it, as Debian 13 does; LIB is its folder lib. compare/device.py does the same with fewer cuts."""

import argparse
import pathlib
import re
import subprocess
import sys
import tempfile

from tools import sessions
from tools.libraries import WARNINGS, build
from tools.program import FITREC, ROOT

sys.path.insert(0, str(ROOT))
import kept

HERE, HOSTS = ROOT / "compare/embedded", ROOT / "examples/device"
KEPT = ROOT / "compare/out/micropython"
PACKAGE = "the source package micropython, by a line deb-src of Debian 13"
# The disk below, the host, the folder of a file system and its sources, and the words for the compiler.
RAW, NOR, CARD = ("raw", "flash", None, []), ("nor", "littlefs", "littlefs", ["lfs2", "lfs2_util"]), ("card", "fatfs", "oofatfs", ["ff", "ffunicode"])
WORDS = {"fatfs": ['-DFFCONF_H="ffconf.h"', "-DMICROPY_FATFS_EXFAT=1", "-DMICROPY_FATFS_ENABLE_LFN=2", "-include", "volume.h"]}
DISKS = {"raw flash": (RAW, []), "littlefs": (NOR, []), "FatFs, FAT16, 4096": (CARD, ["-DFORMAT=FM_FAT", "-DCLUSTER=4096"]),
         "FatFs, FAT32, 512": (CARD, ["-DFORMAT=FM_FAT32", "-DCLUSTER=512"]), "FatFs, exFAT, 4096": (CARD, ["-DFORMAT=FM_EXFAT", "-DCLUSTER=4096"])}
CACHING = {name + ", a card that caches": (parts, [*words, "-DCACHED=1"]) for name, (parts, words) in DISKS.items() if parts == CARD}
FORMS = DISKS | CACHING
# A device whose syncs do nothing, which has to lose something.
CONTROLS = {name + ", without syncs": (parts, [*words, "-DHAS_NO_SYNC=1"]) for name, (parts, words) in FORMS.items()}
# In how many calls of the disk the power goes: in the first life of a device, and in others.
WITHIN = {"raw": (90, 30), "nor": (250, 50), "card": (250, 50)}
# What records in costs.c.
RECORDERS = {"session": "fitrec", "pair": "two slots, four syncs", "log": "a log alone"}


def sources():
    """The folder with the sources of both file systems, or None where this system cannot have it."""
    found = sorted(KEPT.glob("*/lib"))
    if not found:
        KEPT.mkdir(parents=True, exist_ok=True)
        # A status of 124 where that takes too long, and 127 where there is no such command.
        words = ["timeout", "300", "apt-get", "source", "--download-only", "micropython"]
        if subprocess.run(words, cwd=KEPT, stdout=subprocess.DEVNULL, stderr=subprocess.DEVNULL).returncode:
            return None
        for it in KEPT.glob("micropython_*.orig.tar.*"):
            subprocess.run(["tar", "xf", it], cwd=KEPT, check=True)
        found = sorted(KEPT.glob("*/lib"))
    return found[0] if found else None


def compiled(form, source, archive, folder, program=("host.c", "../lives.c")):
    """A program over this disk."""
    (disk, host, name, files), words = (FORMS | CONTROLS)[form]
    (folder / "py").mkdir(exist_ok=True)
    (folder / "py/mpconfig.h").touch()
    own = ["-I", source / name] if name else []
    cc = ["cc", "-std=gnu11", "-O2", "-I", ROOT / "include", "-I", HERE, "-I", folder, *own, *WORDS.get(host, []), *words]
    for file in files:
        plain = [it for it in cc if it not in ("-include", "volume.h")]
        subprocess.run([*plain, "-w", "-c", source / name / (file + ".c"), "-o", folder / (file + ".o")], check=True)
    mine = [*(HERE / it for it in program), HERE / (disk + ".c"), HOSTS / (host + ".c")]
    made = folder / program[0].replace(".c", "")
    subprocess.run([*cc, *WARNINGS, *mine, *(folder / (it + ".o") for it in files), archive, "-o", made], check=True)
    return made


def lost(fitrec, host, disk, cuts, seed):
    """What of so many power cuts, or some more, left other than was answered, or None; and how many there were."""
    wrong, made, rides = None, 0, 0
    while made < cuts and not wrong:
        wrong, some, said = sessions.kept_all(fitrec, host, seed + rides, min(500, cuts), *WITHIN[disk])
        rides += some
        made += int(re.search(r"cuts: (\d+)\n", said)[1]) if not wrong else 0
    return wrong, made


def print_costs(source, archive, folder):
    """Prints a row of each file system, recorder and time between commits."""
    print("%-20s %-22s %4s %6s %6s %8s %7s %7s" % ("file system", "recorder", "s", "waits", "bytes", "sectors", "blocks", "erased"))
    for form in DISKS:
        host = compiled(form, source, archive, folder, ["costs.c"])
        for recorder, name in RECORDERS.items():
            for seconds in 1, 10, 60:
                said = subprocess.run([host, recorder, str(seconds)], stdout=subprocess.PIPE, text=True, check=True).stdout
                print("%-20s %-22s %4d %6s %6s %8s %7s %7s" % (form, name, seconds, *said.splitlines()[-1].split()), flush=True)


def main():
    words = argparse.ArgumentParser(usage=__doc__)
    for name, kind, value in (("--source", pathlib.Path, None), ("--archive", pathlib.Path, None), ("--cuts", int, 10000), ("--seed", int, 1),
                              ("--program", pathlib.Path, FITREC)):
        words.add_argument(name, type=kind, default=value)
    words.add_argument("--costs", action="store_true")
    given, failed = words.parse_args(), False
    source = given.source or sources()
    if not source:
        sys.exit("embedded: there is not " + PACKAGE)
    with tempfile.TemporaryDirectory() as folder:
        folder = pathlib.Path(folder)
        archive = given.archive or folder / "libfit_device.a"
        if not given.archive:
            if build(archive, "fit_device"):
                sys.exit("embedded: the library for devices was not built")
            kept.add_session(archive)
        if given.costs:
            return print_costs(source, archive, folder)
        for form in [*FORMS, *CONTROLS]:
            wrong, cuts = lost(given.program, compiled(form, source, archive, folder), (FORMS | CONTROLS)[form][0][0], given.cuts, given.seed)
            print("%s: %d power cuts, %s" % (form, cuts, wrong or "0 wrong"), flush=True)
            failed |= bool(wrong) != (form in CONTROLS)
    return failed


if __name__ == "__main__":
    sys.exit(main())
