#!/usr/bin/env -S python3 -B
"""Checks what a power cut leaves on real file systems: a small Linux records on one (compare/filesystems), over a disk that counts as sure
only what was flushed, and the kernel's own driver mounts each disk that may be left.

    compare/filesystems.py [--states N] [--seed S] [--set NAME=VALUE]... [--keep FOLDER] [--with COMMAND] [--program FITREC] MODE CASE...

A MODE is rules (docs/RECORDING.md), ride (`record`, then `save` and `repair`) or saves (the file OUT of `save`), and a CASE one of CASES.
With --keep the first ten disks that are wrong are kept as images. With --with a command that repairs a file system, such as 'e2fsck -fy',
is run on each of these, and what is then recovered of a ride is judged."""

import argparse
import pathlib
import re
import shutil
import subprocess
import sys

from tools.checks import unless
from tools.guest import CASES, Outcome, guest
from tools.needs import SYSTEM, missing
from tools.program import FITREC

NEEDS = ("fitrec", "linux.uml", "cc", "libc.a", "mkfs.ext4", "mkfs.xfs", "mkfs.btrfs", "mkfs.vfat")
# What --set takes.
SETTINGS = """sector=512    the disk writes so many bytes whole; 4096 otherwise
folder=fresh  the folder was made just before; otherwise before the disk was mounted
unsure=N      the last N writes and flushes are not sure, whatever was answered
unsynced=1    the syncs of the mode rules answer, and do nothing
torn=FROM-TO  a cut keeps all writes, but any sectors of those that begin there
delay=N       up to N milliseconds pass before a third of the syncs of the mode rules
writeback=0   the system does not write back by itself; otherwise it does so every 50 milliseconds
still=1       nothing else happens on the disk meanwhile"""


def fats_of(image):
    """Where a FAT disk has its tables."""
    boot = image.read_bytes()[:512]
    reserved, count, sectors = (int.from_bytes(boot[at:at + size], "little") for at, size in ((14, 2), (16, 1), (36, 4)))
    return "%d-%d" % (512 * reserved, 512 * (reserved + count * sectors))


def judge(it, mode, case, states, allowed, besides=(), **settings):
    """None if a number of states is wrong that is allowed, besides those that have only faults of these kinds, or what was found, and the
    command that keeps these states."""
    found = Outcome(it.run(mode, case, states=states, **settings))
    found.wrong = [line for line in found.wrong if not all(fault.startswith(tuple(besides)) for fault in found.faults(line))]
    words = ["--set %s=%s" % pair for pair in settings.items()]
    repeat = " ".join(["compare/filesystems.py --states %d --seed %d --keep FOLDER" % (states, it.seed), *words, mode, case])
    if found.failed or found.states < states // 2:
        return unless(False, (found.states, found.failed, repeat), "it ends, with %d states at least" % (states // 2))
    came = "%d of %d are wrong" % (len(found.wrong), found.states), found.wrong[:3], found.kinds(), repeat
    return unless(len(found.wrong) in allowed, came, "%d to %d are wrong" % (allowed[0], allowed[-1]))


def of_disks(fitrec, seed):
    """Each file system, and each disk or host that keeps no rule."""
    if missing(*NEEDS[1:]):
        yield "what file systems keep", missing(*NEEDS[1:])
        return
    none, some = range(1), range(1, 1000)
    # A repair may have to write where the table of a FAT disk has no cluster, or on a card that is read only since a save met that place.
    repairs = 'repair prints "fitrec: Device"', 'repair prints "fitrec: cannot open'
    with guest(fitrec, seed) as it:
        for case in ("ext4", "xfs", "btrfs"):
            yield "the rules on " + case, judge(it, "rules", case, 600, none)
            yield "a ride on " + case, judge(it, "ride", case, 150, none)
        # On vfat a length is lost that the system wrote back before the sync. So it writes nothing back, or only lengths are lost.
        yield "the rules on vfat", judge(it, "rules", "vfat", 600, none, writeback=0)
        yield "nothing but a length is lost on vfat", judge(it, "rules", "vfat", 300, none, ["rule 4: "], delay=250)
        yield "a ride on vfat", judge(it, "ride", "vfat", 150, none, repairs, writeback=0)
        # A replacement that is cut off in the middle may lose the old file and the new name. Its bytes are in the file beside it.
        yield "files that are saved on vfat", judge(it, "saves", "vfat", 800, range(9))
        tails = {"sector": 512, "still": 1, "torn": fats_of(it.image("vfat"))}
        yield "tails that cannot be read", judge(it, "ride", "vfat", 150, none, repairs, **tails)
        yield "a disk that ignores flushes loses something", judge(it, "rules", "vfat", 60, some, unsure=120)
        yield "a mount without barriers loses something", judge(it, "rules", "ext4-no-barrier", 60, some)
        yield "syncs that do nothing lose something", judge(it, "rules", "ext4", 60, some, unsynced=1)


def check(given):
    yield from given.checks(of_disks, given.fitrec, given.seed)


def repaired(it, mode, case, line, command, settings):
    """What the guest says of a kept disk after a command has repaired it."""
    image = it.share / "found" / (re.match(r"WRONG (\d+)", line)[1] + ".img")
    ran = subprocess.run([*command.split(), image], stdin=subprocess.DEVNULL, capture_output=True, env=SYSTEM)
    promise = re.search(r"promise ([\d,]+)", line)[1]
    said = it.run(mode, case, **settings | {"image": image, "promise": promise})
    return "%s: status %d; %s" % (command, ran.returncode, next((line for line in said if line.startswith("JUDGED")), said[-3:]))


def main():
    words = argparse.ArgumentParser(usage=__doc__ + "\n\n" + SETTINGS)
    for name, value in (("--states", 600), ("--seed", 1), ("--keep", pathlib.Path()), ("--with", ""), ("--program", FITREC)):
        words.add_argument(name, type=type(value), default=value)
    words.add_argument("--set", action="append", default=[])
    words.add_argument("mode", choices=("rules", "ride", "saves"))
    words.add_argument("cases", nargs="+", choices=CASES)
    given = vars(words.parse_args())
    mode, settings, failed = given["mode"], dict(it.split("=", 1) for it in given["set"]), False
    for case in given["cases"]:
        with guest(given["program"], given["seed"]) as it:
            found = Outcome(it.run(mode, case, states=given["states"], keep=10, **settings))
            print(mode, case, *given["set"], found, flush=True)
            for line in found.wrong[:10] if given["with"] and mode == "ride" else []:
                print(repaired(it, mode, case, line, given["with"], settings), flush=True)
            if given["keep"] != pathlib.Path():
                shutil.copytree(it.share / "found", given["keep"] / case, dirs_exist_ok=True)
            failed |= bool(found.wrong or found.failed)
    return failed


if __name__ == "__main__":
    sys.exit(main())
