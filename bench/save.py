"""`fitrec save` over the recording of a ride of six hours and over a full one, samples of nine fields, one a second, the last one not
committed; beside `fitrec repair` of a copy and `fitrec plain` of its result, which have to make the same file."""

import shutil
import subprocess

from tools import START, compiled, launched, nine_fields, run


def recorded(program, work, samples):
    """The recording of so many committed samples."""
    script, folder = work / "script", work / str(samples)
    with open(script, "w") as file:
        file.write("start %d 7 cycling\n" % START)
        for at in range(samples + 1):
            file.write("commit\n" if at == samples else "")
            file.write("sample %d %s\n" % (START + at, nine_fields(at)))
    folder.mkdir()
    run(program, "replay", script, folder)
    return folder


def figures(work):
    program, measure = launched(), compiled(work, "save", "measure")

    def once(*words):
        """Milliseconds on the clock and of the processor, the peak of memory in kilobytes, and what is printed."""
        done = subprocess.run([measure, program, *words], capture_output=True, text=True)
        if done.returncode:
            raise SystemExit("save: %s: %s" % (words[0], done.stderr))
        return [float(it) for it in done.stderr.split()], done.stdout

    for name, samples in (("six hours of nine", 21_600), ("755,000 samples", 755_000)):
        folder, saved, plain, found = recorded(program, work, samples), work / "saved.fit", work / "plain.fit", {}
        for _ in range(5):
            copy = work / "copy"
            shutil.rmtree(copy, ignore_errors=True)
            shutil.copytree(folder, copy)
            for word, words in (("save", [folder, saved]), ("repair", [copy]), ("plain", [copy / "activity.fit", plain])):
                took, line = once(word, *words)
                if word != "plain" and not line.startswith("ok records=%d " % samples):
                    raise SystemExit("save: %s: %s" % (word, line))
                found.setdefault(word, []).append(took)
        if saved.read_bytes() != plain.read_bytes():
            raise SystemExit("save: it makes another file than repair and plain")
        for word, rows in found.items():
            _, busy, peak = zip(*rows)
            yield "`fitrec %s`, processor time and memory, %s" % (word, name), "%.1f ms, %.1f MB" % (min(busy), 1024 * max(peak) / 1e6)
