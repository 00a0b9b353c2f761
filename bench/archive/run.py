"""For bench/archive.py: run.py FITREC FOLDER FILES prints a line for each measure, what it is and its figure. `run.py MODE NAMES` is one
measure: it prints the seconds, the rows, the faults, the sum of all heart rates and the most memory of a process, in KB."""

import contextlib
import json
import os
import pathlib
import random
import resource
import signal
import subprocess
import sys
import threading
import time

TEN = ["timestamp", "position_lat", "position_long", "altitude", "heart_rate", "cadence", "distance", "speed", "power", "temperature"]
# Each measure, and what it is.
MODES = {"1": "`iter_many`, one process", "4": "four processes", "4 killed": "the same, and one is killed every 2 s",
         "dask 2": "`fitrec.dask`, a cluster of two workers", "dask 4": "of four workers",
         "dask 4 killed": "the same, and one is killed every 2 s",
         "write 4": "`write_many`, four processes", "dask write 4": "by Dask, four workers"}


def ride(program, folder):
    """A recorded ride of 14 KB: 620 samples of nine fields."""
    pick, lines, distance = random.Random(1), ["start 1000000000 7 cycling"], 0
    for at in range(620):
        distance += pick.randrange(300, 1200)
        lines.append("sample %d lat=%d long=%d alt=%d hr=%d cad=%d dist=%d speed=%d power=%d temp=%d" % (
            1_000_000_000 + at, 566012345 + pick.randrange(90000), 102345678 + pick.randrange(90000), 2655 + at % 500,
            100 + pick.randrange(80), 80 + pick.randrange(9), distance, 6000 + pick.randrange(3000), 150 + pick.randrange(300),
            pick.randrange(-5, 30)))
    (folder / "script").write_text("\n".join([*lines, "stop 1000000621\n"]))
    (folder / "ride").mkdir()
    subprocess.run([program, "replay", folder / "script", folder / "ride"], check=True, stdout=subprocess.DEVNULL)
    return (folder / "ride/activity.fit").read_bytes()


def rides(program, folder, many):
    """The names of so many rides, 3.5 % of them cut off or with a byte changed, and the bytes of one."""
    data, pick, names = ride(program, folder), random.Random(1), []
    for at in range(many):
        own = data
        if pick.random() < 0.035:
            place = pick.randrange(len(data))
            own = data[:place] if pick.random() < 0.5 else data[:place] + bytes([data[place] ^ 1]) + data[place + 1:]
        names.append(str(folder / ("%06d.fit" % at)))
        pathlib.Path(names[-1]).write_bytes(own)
    return names, len(data)


@contextlib.contextmanager
def killing(is_on, workers):
    """Kills the first of the workers every two seconds."""
    ended = threading.Event()

    def kill():
        while not ended.wait(2):
            for pid in workers()[:1]:
                with contextlib.suppress(ProcessLookupError, TypeError):
                    os.kill(pid, signal.SIGKILL)

    if is_on:
        thread = threading.Thread(target=kill)
        thread.start()
    try:
        yield
    finally:
        ended.set()


def children():
    listed = pathlib.Path("/proc/self/task/%d/children" % os.getpid()).read_text()
    return [int(it) for it in listed.split()]


def by_processes(words, names):
    import fitrec

    begun, rows, faults, beats = time.perf_counter(), 0, 0, 0
    workers = int(next(it for it in words if it.isdigit()))
    if "write" in words:
        written = fitrec.write_many(names, pathlib.Path(names[0]).parent / "written", TEN, workers=workers)
        rows, faults, beats = written.rows, written.faults, None
    else:
        with killing("killed" in words, children):
            for it in fitrec.iter_many(names, TEN, workers=workers):
                if it.fault:
                    faults += 1
                else:
                    rows += len(it.columns["heart_rate"])
                    beats += int(it.columns["heart_rate"].sum())
    took = time.perf_counter() - begun
    peak = max(resource.getrusage(it).ru_maxrss for it in (resource.RUSAGE_SELF, resource.RUSAGE_CHILDREN))
    return took, rows, faults, beats, peak


def peak_of():
    return resource.getrusage(resource.RUSAGE_SELF).ru_maxrss


def by_dask(words, names):
    import dask as engine
    import distributed

    from fitrec import dask

    workers = int(next(it for it in words if it.isdigit()))
    here = {"n_workers": workers, "threads_per_worker": 1, "processes": True, "dashboard_address": None, "silence_logs": 50}
    with engine.config.set({"distributed.scheduler.allowed-failures": 100}), distributed.LocalCluster(
            **here) as nodes, distributed.Client(nodes) as client:
        begun = time.perf_counter()
        if "write" in words:
            written = dask.write_many(names, pathlib.Path(names[0]).parent / "written", TEN)
            rows, faults, beats = written.rows, written.faults, None
        else:
            with killing("killed" in words, lambda: [it.pid for it in nodes.workers.values()]):
                table, refused = dask.from_paths(names, TEN)
                counted = table.map_partitions(lambda part: (len(part), int(part["heart_rate"].sum())), meta=(None, object))
                parts, faults = engine.compute(counted, refused)
                rows, beats, faults = sum(it[0] for it in parts), sum(it[1] for it in parts), len(faults)
        took = time.perf_counter() - begun
        return took, rows, faults, beats, max(client.run(peak_of).values())


def main(program, folder, many):
    names, size = rides(program, pathlib.Path(folder), int(many))
    listed = pathlib.Path(folder, "names")
    listed.write_text(json.dumps(names))
    print("rides of %d bytes, 3.5 %% damaged\t%d" % (size, len(names)), flush=True)
    first = None
    for mode, what in MODES.items():
        words = [sys.executable, "-B", __file__, mode, listed]
        said = subprocess.run(words, stdout=subprocess.PIPE, stderr=subprocess.DEVNULL, text=True, check=True)
        took, rows, faults, beats, peak = json.loads(said.stdout)
        first = first or (rows, faults, beats)
        if (rows, faults) != first[:2] or beats not in (None, first[2]):
            sys.exit("archive: %s has %s and not %s" % (mode, (rows, faults, beats), first))
        figures = len(names) / took, rows / took / 1e6, peak / 1024
        print("%s; memory of a process\t%.0f files/s, %.2f million rows/s; %.0f MB" % (what, *figures), flush=True)
        if "write" in mode:
            subprocess.run(["rm", "-r", pathlib.Path(folder, "written")], check=True)


if __name__ == "__main__":
    if len(sys.argv) == 4:
        main(*sys.argv[1:])
    else:
        words, names = sys.argv[1].split(), json.loads(pathlib.Path(sys.argv[2]).read_text())
        print(json.dumps((by_dask if words[0] == "dask" else by_processes)(words, names)))
