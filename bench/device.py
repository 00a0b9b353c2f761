"""A step of a recorder in a device, by the static library for C, without carrying out its plan; what a linker keeps of the object files of
release/ for some calls; and how many instructions a boot takes by them that finds a ride of three hours, on an emulated processor. That needs
Debian's gcc-arm-none-eabi, libnewlib-arm-none-eabi, qemu-system-arm, gcc-riscv64-unknown-elf, picolibc-riscv64-unknown-elf and
qemu-system-misc."""

import re
import shutil
import sys

from tools import ROOT, compiled, kept, run

sys.path.insert(0, str(ROOT / "device"))
import boards

RECORDING = ["start", "add_sample", "add_lap", "pause_timer", "resume_timer", "commit", "stop"]
BY_WINDOWS = [*RECORDING, "recover_begin", "recover_next", "reopen_next", "erase_next"]
ALL = [*BY_WINDOWS, "state_of", "recover", "reopen", "erase"]
# The compiler that links for a processor.
LINKERS = {"cortex-m4": ["arm-none-eabi-gcc", "-mthumb", "-mcpu=cortex-m4"],
           "cortex-m0plus": ["arm-none-eabi-gcc", "-mthumb", "-mcpu=cortex-m0plus"],
           "rv32imac": ["riscv64-unknown-elf-gcc", "-march=rv32imac", "-mabi=ilp32"]}
SECTION = re.compile(r"(?m)^ \.(?:text|rodata|data|bss)\S*\s+0x[0-9a-f]+\s+0x([0-9a-f]+) (\S+)")


def code_of(work, processor, calls):
    """The bytes of code and constants that these calls keep of the object file."""
    words = ["-nostdlib", "-Wl,--gc-sections,--unresolved-symbols=ignore-all,-Map=%s" % (work / "map"), "-Wl,-e,fitrec_" + calls[0]]
    words += ["-Wl,-u,fitrec_" + it for it in calls]
    run(*LINKERS[processor], *words, ROOT / ("release/fitrec-%s.o" % processor), "-lgcc", "-o", work / "linked")
    kept_parts = (work / "map").read_text().partition("Linker script and memory map")[2]
    return sum(int(size, 16) for size, file in SECTION.findall(kept_parts) if file.endswith("fitrec-%s.o" % processor))


def instructions_of(work, processor):
    """The bytes of the ride, and the thousands of instructions."""
    words, board = boards.BOARDS[processor]
    program = ["-Os", "-I", ROOT / "include", ROOT / "bench/device/reopening.c", ROOT / ("release/fitrec-%s.o" % processor)]
    run(*LINKERS[processor], *program, *words, "-o", work / "reopening")
    said = run(*board, "-icount", "shift=0", "-semihosting-config", "enable=on,target=native", "-kernel", work / "reopening")
    return tuple(int(it) for it in re.search(r"over (\d+) bytes: (\d+) thousand", said).groups())


def figures(work):
    crate = kept.tree_of(work / "tree", ["fit_device"]) / "fit_device"
    if kept.static_library(crate, shutil.which("rt")):
        raise SystemExit("device: fit_device was not built")
    said = run(compiled(work, "device", "main", "-I", ROOT / "include", crate / "out/libfit_device.a"))
    sample, commit = (int(it) / 1000 for it in re.findall(r"(\d+) ns", said))
    yield "a step in a device, here, without carrying out: sample (one), commit", "%.1f, %.1f µs" % (sample, commit)
    for processor, (compiler, *_) in LINKERS.items():
        sizes = [code_of(work, processor, it) / 1000 for it in (RECORDING, BY_WINDOWS, ALL)] if shutil.which(compiler) else None
        figure = "%.1f; %.1f; %.1f KB" % tuple(sizes) if sizes else "not here: " + compiler
        yield "code of recording; with all by windows; of all calls: " + processor, figure
        emulator = boards.BOARDS[processor][1][0]
        figure = "%d bytes; %d thousand" % instructions_of(work, processor) if shutil.which(compiler) and shutil.which(emulator) else "not here: " + emulator
        yield "a boot that finds a ride of three hours, instructions: " + processor, figure
