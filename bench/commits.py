"""What a commit takes on raw flash and on the file systems of small devices: how often it waits, the bytes of the two files, the sectors of 512
bytes and the blocks of 4,096 that are written, and the blocks that are erased. compare/embedded.py says where their sources are from."""

import shutil
import subprocess

from tools import ROOT, kept


def figures(work):
    crate = kept.tree_of(work / "tree", ["fit_device"]) / "fit_device"
    if kept.static_library(crate, shutil.which("rt")):
        raise SystemExit("commits: fit_device was not built")
    archive = crate / "out/libfit_device.a"
    kept.add_session(archive)
    done = subprocess.run([ROOT / "compare/embedded.py", "--archive", archive, "--costs"], stdout=subprocess.PIPE, stderr=subprocess.STDOUT, text=True)
    if done.returncode:
        yield "what a commit takes on small file systems", "not here: " + done.stdout.splitlines()[-1]
        return
    for line in done.stdout.splitlines():
        yield line[:48].rstrip(), line[48:].strip()
