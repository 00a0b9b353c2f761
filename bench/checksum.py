"""The proved checksum over 64 MiB, and a plain loop in C that takes half a byte at a time."""

from tools import compiled, proved, run

SIZE = 67_108_864


def figures(work):
    program, plain = proved(work, "checksum", "fit_base"), compiled(work, "checksum", "nibbles")
    (its, spent), (other, its_time) = ([int(it) for it in run(it).split()] for it in (program, plain))
    if its != other:
        raise SystemExit("checksum: %d and %d" % (its, other))
    yield "the checksum; by half bytes in C", "{:,.0f}; {:,.0f} MB/s".format(SIZE * 1e3 / spent, SIZE * 1e3 / its_time)
