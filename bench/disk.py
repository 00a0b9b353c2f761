"""The memory disk over a million writes of 512 bytes with a sync after each tenth: each after the last one, so the file grows to 512 MB,
or each within the first 64 KiB; and a power cut after two million writes of six bytes."""

from tools import proved, run


def figures(work):
    program = proved(work, "disk", "fit_disk")

    def nanoseconds(*words):
        failures, spent = map(int, run(program, *words).split())
        if failures:
            raise SystemExit("disk: %d calls failed" % failures)
        return spent

    times = sorted(nanoseconds(*words) / 1e6 for words in ([], ["over"]))
    yield "a write of 512 bytes to the memory disk, with its share of a sync", "%.0f to %.0f ns" % tuple(times)
    yield "a power cut after two million writes", "%.0f ms" % (nanoseconds("power", "cut") / 1e6)
