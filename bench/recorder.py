"""`hand`, `commit` and `recover` of fit_recorder, and a commit of fit_journal in each form of a journal, over the memory disk and over two
files, without what the same calls of the disk take alone. Each figure is the least of five runs, which are spread out, since a machine
may be slow for a while."""

import tempfile

from tools import proved, run

BEFORE = 10_000, 100_000, 500_000
# What is measured: its name, the task of the recorder, that of the disk alone, the kind of sample, how many samples come before the time is
# taken, and how many are timed.
TASKS = [("`hand`, %s, after %d" % (kind, before), "hand", "write", kind, before, 200_000) for kind in ("nine", "one") for before in BEFORE]
TASKS += [("`commit`, after %d" % before, "commit", "sync", "nine", before, 1000) for before in BEFORE]
TASKS += [("`recover`, a sample, %s, of %d" % (kind, timed), "recover", "read", kind, 0, timed)
          for kind in ("nine", "one") for timed in (10_000, 200_000)]
TASKS += [("`recover`, a body of one sample", "recover", "read", "nine", 0, 1),
          ("a commit of a journal, two slots in turn", "turns", "keep_in_turns", "nine", 100, 1000),
          ("a commit of a journal, a row of slots", "row", "keep_in_row", "nine", 100, 1000)]


def figures(work):
    program = proved(work, "recorder", "fit_activity", "fit_disk", "fit_journal", "fit_recorder")

    def nanoseconds(task, kind, before, timed, on_files):
        """Of a task, for each sample or call that is timed."""
        with tempfile.TemporaryDirectory(dir=work) as folder:
            made, spent = map(int, run(program, task, kind, before, timed, *[folder] * on_files).split())
        if made != timed:
            raise SystemExit("recorder: not all calls of %s went well" % task)
        return spent / timed

    least = {}
    for _ in range(5):
        for name, *tasks, kind, before, timed in TASKS:
            for on_files in (False, True):
                for task in tasks:
                    key = name, on_files, task
                    least[key] = min(least.get(key, 1e18), nanoseconds(task, kind, before, timed, on_files))
    yield "a recorder over memory; over files", "{:,}; {:,} bytes".format(*map(int, run(program).split()))
    for name, task, alone, *_ in TASKS:
        rest = [least[name, on_files, task] - least[name, on_files, alone] for on_files in (False, True)]
        yield name + " †, over memory; over files", "%.0f; %.0f ns" % tuple(rest)
