"""What the parts of compare/run need of the system, and the Debian package of each."""

import os
import shutil
import subprocess

from tools.checks import Skipped

PACKAGES = {
    "cc": "gcc and libc6-dev", "valgrind": "valgrind", "man": "man-db", "gpsbabel": "gpsbabel", "node": "nodejs", "wasm-opt": "binaryen",
    "esbuild": "esbuild", "zopfli": "zopfli", "tsc": "node-typescript", "chromium": "chromium", "firefox-esr": "firefox-esr",
    "WebKitWebDriver": "webkit2gtk-driver", "Xvfb": "xvfb",
    "linux.uml": "user-mode-linux", "libc.a": "libc6-dev", "mkfs.ext4": "e2fsprogs", "mkfs.xfs": "xfsprogs",
    "mkfs.btrfs": "btrfs-progs", "mkfs.vfat": "dosfstools", "wasm2c": "wabt", "arm-none-eabi-gcc": "gcc-arm-none-eabi",
    "rdimon.specs": "libnewlib-arm-none-eabi", "qemu-system-arm": "qemu-system-arm", "riscv64-unknown-elf-gcc": "gcc-riscv64-unknown-elf",
    "picolibc.specs": "picolibc-riscv64-unknown-elf", "qemu-system-riscv32": "qemu-system-misc", "aarch64-linux-gnu-gcc": "gcc-aarch64-linux-gnu and libc6-dev-arm64-cross", "qemu-aarch64": "qemu-user", "fish": "fish", "zsh": "zsh",
    "desktop-file-validate": "desktop-file-utils", "pkg-config": "pkgconf", "dpkg": "dpkg", "lintian": "lintian", "mypy": "mypy"}
# The Python that Debian's packages of modules are for. The module python3-NAME is imported as NAME.
PYTHON, MODULE = "/usr/bin/python3", "python3-"
# Files of a compiler.
FOUND_BY = {"libc.a": "cc", "rdimon.specs": "arm-none-eabi-gcc", "picolibc.specs": "riscv64-unknown-elf-gcc"}
# Debian has programs of the system where not every PATH looks.
SYSTEM = os.environ | {"PATH": os.environ["PATH"] + ":/usr/sbin:/sbin"}


def is_there(word):
    """Whether there is a program of this name, a file that its compiler finds, or a module of Python."""
    if word.startswith(MODULE):
        words = [PYTHON, "-c", "import " + word[len(MODULE):]]
        return os.path.exists(PYTHON) and subprocess.run(words, stderr=subprocess.DEVNULL).returncode == 0
    if word not in FOUND_BY:
        return shutil.which(word, path=SYSTEM["PATH"]) is not None
    # It answers the bare name of a file that it does not have.
    asked = [FOUND_BY[word], "-print-file-name=" + word]
    return is_there(asked[0]) and "/" in subprocess.run(asked, capture_output=True, text=True).stdout


def missing(*words):
    """The first of these that is not there, as the reason why a check is skipped. None if all are."""
    return next((Skipped(PACKAGES.get(it, it)) for it in words if not is_there(it)), None)
