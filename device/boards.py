"""The emulated processors that run a recorder in a device, for compare/device.py and bench/device.py: words for the compiler, and the machine."""

import pathlib

HERE = pathlib.Path(__file__).resolve().parent
QUIET = ["-display", "none", "-monitor", "none", "-serial", "none"]
# Where the program, its memory and its stack are on RISC-V.
MEMORY = {"__flash": 0x80000000, "__flash_size": 1 << 22, "__ram": 0x80400000, "__ram_size": 1 << 24, "_estack_low": 0x813F0000}
# What links a program with semihosting.
ARM_START = [HERE / "arm/start.c", "--specs=rdimon.specs", "-nostartfiles", "-T", HERE / "arm/link.ld", "-include", "stdbool.h"]
RISCV_START = ["--specs=picolibc.specs", "--crt0=semihost", "--oslib=semihost", *["-Wl,--defsym=%s=%d" % it for it in MEMORY.items()]]
RISCV = ["qemu-system-riscv32", "-M", "virt", "-bios", "none", *QUIET]


def arm(board):
    return ["qemu-system-arm", "-M", board, *QUIET]


# For each object file of release/ the words and the machine. A Cortex-M4 runs that for the M0+ too.
BOARDS = {"cortex-m4": (ARM_START, arm("mps2-an386")), "cortex-m0plus": (ARM_START, arm("mps2-an386")), "rv32imac": (RISCV_START, RISCV)}
