"""A small Linux as a process (user-mode Linux), whose only program is compare/filesystems: the disks that it gets, the rides that it records,
and what it prints."""

import contextlib
import os
import pathlib
import random
import re
import shutil
import signal
import subprocess
import tempfile

from tools.needs import SYSTEM
from tools.program import ROOT

# The drivers that are not part of the kernel itself, and what they need at a mount.
MODULES = ("/usr/lib/uml/modules", ("nbd", "vfat", "f2fs", "nls_cp437", "nls_iso8859-1", "nls_utf8", "nls_ascii", "crc32_generic"))
# The seconds that a run may take.
LIMIT = 3600
# A quiet kernel, whose root is that of this system, read only.
KERNEL = ["linux.uml", "mem=640M", "rootfstype=hostfs", "rootflags=/", "ro", "con=null", "con0=fd:0,fd:1", "panic=-1", "quiet", "loglevel=1"]
# Its programs use no registers but those that it keeps, which are those of SSE (filesystems/host/registers.c).
REGISTERS = "GLIBC_TUNABLES=glibc.cpu.hwcaps=-AVX,-AVX2,-AVX512F,-AVX512VL,-AVX512BW,-XSAVE,-XSAVEC,-AVX_Fast_Unaligned_Load"
# The driver, the size in MiB, how the disk is made, and the mount options.
CASES = {
    "ext4": ("ext4", 64, "mkfs.ext4 -q -F -b 4096", ""),
    "ext4-256": ("ext4", 256, "mkfs.ext4 -q -F -b 4096", ""),
    "ext4-1k": ("ext4", 64, "mkfs.ext4 -q -F -b 1024", ""),
    "ext4-writeback": ("ext4", 64, "mkfs.ext4 -q -F -b 4096", "data=writeback"),
    "ext4-journal": ("ext4", 64, "mkfs.ext4 -q -F -b 4096", "data=journal"),
    "ext4-fast-commit": ("ext4", 64, "mkfs.ext4 -q -F -b 4096 -O fast_commit", ""),
    "ext4-no-journal": ("ext4", 64, "mkfs.ext4 -q -F -b 4096 -O ^has_journal", ""),
    "ext4-no-barrier": ("ext4", 64, "mkfs.ext4 -q -F -b 4096", "barrier=0"),
    "ext3": ("ext4", 64, "mkfs.ext3 -q -F -b 4096", ""),
    "ext2": ("ext4", 64, "mkfs.ext2 -q -F -b 4096", ""),
    "xfs": ("xfs", 300, "mkfs.xfs -q -f", ""),
    "btrfs": ("btrfs", 256, "mkfs.btrfs -q -f", ""),
    "btrfs-no-barrier": ("btrfs", 256, "mkfs.btrfs -q -f", "nobarrier"),
    "vfat": ("vfat", 64, "mkfs.vfat -F 32 -s 8", ""),
    "vfat-32k": ("vfat", 64, "mkfs.vfat -F 32 -s 64", ""),
    "vfat-512": ("vfat", 64, "mkfs.vfat -F 32 -s 1", ""),
    "vfat-flush": ("vfat", 64, "mkfs.vfat -F 32 -s 8", "flush"),
    "fat16-2k": ("vfat", 64, "mkfs.vfat -F 16 -s 4", ""),
    "f2fs": ("f2fs", 128, "mkfs.f2fs -q -f", ""),
}


def script(seed):
    """The lines of a ride: samples, laps, pauses and commits, recoveries and reopenings."""
    pick, time, distance, paused = random.Random(seed), 1000000000, 0, False
    lines = ["start %d 7 cycling" % time]
    for _ in range(pick.choice((12, 25, 40))):
        for _ in range(pick.choice((1, 2, 5, 20, 40, 90))):
            time, distance = time + pick.choice((1, 1, 1, 1, 40)), distance + pick.randrange(900)
            lines += ["resume %d" % time] * paused
            values = {"hr": pick.randrange(60, 200), "dist": distance, "speed": pick.randrange(9000), "power": pick.randrange(700)}
            lines.append("sample %d " % time + " ".join("%s=%d" % (key, values[key]) for key in pick.sample(sorted(values), pick.randrange(1, 5))))
            lines += ["lap %d" % time] * (pick.random() < 0.02)
            paused = pick.random() < 0.01
            lines += ["pause %d" % time] * paused
        lines += pick.choices((["commit"], ["commit", "recover", "reopen"], ["commit", "reopen"]), (93, 4, 3))[0]
    return lines + ["stop %d" % (time + 1)] * (pick.random() < 0.4)


def write_wanted(fitrec, lines, share):
    """What is recovered of a ride that ends with each line that promises something, and the folders of some, to be saved."""
    for folder in ("expected", "rides"):
        (share / folder).mkdir()
    (share / "script").write_text("\n".join(lines) + "\n")
    commits = [number for number, line in enumerate(lines, 1) if line == "commit"]
    saved = commits[::max(1, len(commits) // 6)][:8]
    for number, line in enumerate(lines, 1):
        if line.split()[0] not in ("start", "commit", "stop", "recover"):
            continue
        with tempfile.TemporaryDirectory() as folder:
            pathlib.Path(folder, "script").write_text("\n".join(lines[:number]) + "\n")
            ride = share / "rides" / str(saved.index(number)) if number in saved else pathlib.Path(folder, "ride")
            ride.mkdir()
            copy, expected = folder + "/copy", share / "expected" / str(number)
            subprocess.run([fitrec, "replay", folder + "/script", ride], check=True, capture_output=True)
            subprocess.run([fitrec, "save", ride, "%s.plain" % expected], check=True, capture_output=True)
            shutil.copytree(ride, copy)
            subprocess.run([fitrec, "repair", copy], check=True, capture_output=True)
            shutil.copy(copy + "/activity.fit", "%s.fit" % expected)
            if number in saved:
                shutil.copy("%s.plain" % expected, "%s.fit" % ride)


def modules():
    """The files of the drivers, each after those that it needs."""
    root = next(pathlib.Path(MODULES[0]).iterdir())
    needs = dict(line.split(":") for line in (root / "modules.dep").read_text().splitlines())
    files = [name for name in needs if pathlib.Path(name).stem in MODULES[1]]
    ordered = [it for name in files for it in [*reversed(needs[name].split()), name]]
    return [str(root / it) for it in dict.fromkeys(ordered)]


class Guest:
    """A folder with all that the guest reads, and what it prints in a run."""

    def __init__(self, fitrec, share, seed):
        self.share, self.seed, self.program = share, seed, pathlib.Path(fitrec).resolve()
        (share / "found").mkdir()
        (share / "modules").write_text("\n".join(modules()) + "\n")
        sources, words = ROOT / "compare/filesystems", ["cc", "-std=gnu11", "-O2", "-Wall", "-Wextra", "-Werror"]
        subprocess.run([*words, "-static", "-pthread", *sorted(sources.glob("*.c")), "-o", share / "guest"], check=True)
        subprocess.run([*words, "-shared", "-fPIC", sources / "host/registers.c", "-o", share / "registers.so"], check=True)

    def image(self, case):
        """The disk of a case, as it was made."""
        image, (_, size, made, _) = self.share / (case + ".img"), CASES[case]
        if not image.exists():
            image.touch()
            os.truncate(image, size << 20)
            subprocess.run([*made.split(), image], check=True, capture_output=True, env=SYSTEM)
        return image

    def run(self, mode, case, **settings):
        """The lines that it prints. It gets the settings as its environment."""
        if mode != "rules" and not (self.share / "expected").exists():
            write_wanted(self.program, script(self.seed), self.share)
        driver, _, _, options = CASES[case]
        known = {"mode": mode, "fs": driver, "options": options, "image": self.image(case), "seed": self.seed}
        settings = {"share": self.share, "found": self.share / "found", "program": self.program} | known | settings
        words = [*KERNEL, "init=%s/guest" % self.share, REGISTERS, *("%s=%s" % it for it in settings.items() if it[1] != "")]
        # Its processes trace one another, which is twice as fast on one core.
        core = {max(os.sched_getaffinity(0))}
        hidden = os.environ | {"LD_PRELOAD": str(self.share / "registers.so")}
        with subprocess.Popen(words, stdin=subprocess.DEVNULL, stdout=subprocess.PIPE, stderr=subprocess.STDOUT, start_new_session=True, env=hidden,
                              preexec_fn=lambda: os.sched_setaffinity(0, core)) as child:
            try:
                said = child.communicate(timeout=LIMIT)[0]
            except subprocess.TimeoutExpired:
                os.killpg(child.pid, signal.SIGKILL)
                said = child.communicate()[0]
        return said.decode(errors="replace").replace("\r", "").splitlines()


class Outcome:
    """How many disks were judged, how many again after a second cut, and what was wrong."""

    def __init__(self, lines):
        self.wrong = [line for line in lines if line.startswith("WRONG")]
        done = re.search(r"DONE states (\d+), second cuts (\d+)", "\n".join(lines))
        self.states, self.seconds = map(int, done.groups()) if done else (0, 0)
        self.failed = None if done else lines[-20:]

    @staticmethod
    def faults(line):
        """The faults of a disk that is wrong."""
        return re.search(r": (.*?) \[cut at", line)[1].split("; ")

    def kinds(self):
        """What was wrong first in each, without the numbers, and how often."""
        kinds = [re.sub(r"(?<!rule )\d+", "N", self.faults(line)[0]) for line in self.wrong]
        return sorted(((kinds.count(it), it) for it in set(kinds)), reverse=True)

    def __str__(self):
        lines = ["%d+%d states, %d wrong" % (self.states, self.seconds, len(self.wrong)), *("%8d %s" % it for it in self.kinds()), *self.wrong[:3]]
        return "\n".join(lines + (self.failed or []))


@contextlib.contextmanager
def guest(fitrec, seed):
    with tempfile.TemporaryDirectory() as folder:
        yield Guest(fitrec, pathlib.Path(folder), seed)

