"""Compares the library for C (fit_c, include/fitrec.h) with the program, byte for byte: over recordings whose power went, over damaged
ones, and over files that are salvaged, finished, shifted, shown and checked. The C program is compiled with all warnings as errors, without and with
sanitizers, and with painted stacks."""

import os
import pathlib
import re
import shutil
import tempfile
from unittest import mock

from tools import release
from tools.checks import differs, unless
from tools.libraries import WARNINGS, build, declared, names_of, programs
from tools.library_calls import ANSWERS, of_files, of_finished, of_joined, of_mended, of_recordings, of_shifted, of_shown_and_checked, of_values
from tools.program import ROOT, run

NEEDS = ("fitrec", "rt", "cc")


def proved_and_built(archive):
    yield "proved and built", differs(build(archive), None)
    if pathlib.Path(archive).exists():
        yield release.same("libfit_c.a", archive)


def links_as_shown(archive):
    """The example of docs/EMBEDDING.md links by the line that is there, and runs."""
    text = (ROOT / "docs/EMBEDDING.md").read_text()
    example = re.search(r'(?m)^    #include "fitrec.h"\n(?:    .*\n|\n)+?    }\n', text)[0]
    with tempfile.TemporaryDirectory() as folder:
        here = pathlib.Path(folder)
        (here / "include").symlink_to(ROOT / "include")
        (here / "release").mkdir()
        shutil.copy(archive, here / "release/libfit_c.a")
        (here / "finish.c").write_text(re.sub("(?m)^    ", "", example))
        (here / "main.c").write_text('#include "fitrec.h"\nint finish(uint64_t *, uint64_t *);\n'
                                     "int main(void) { uint64_t none[2] = {0, 0}; return finish(&none[0], &none[1]); }\n")
        line = re.search(r"`(cc -Iinclude [^`]*)`", text)[1]
        said = run("sh", "-c", line + " && ./a.out", cwd=folder)
        yield "the example of docs/EMBEDDING.md", differs(said, (ANSWERS["NothingRecorded"], "", ""))


def of_memory(archive):
    """The library has no bytes that change, so that its calls may run side by side."""
    sections = re.findall(r"(?m)^ +\[ *\d+\] (\S+) +(?:PROGBITS|NOBITS) .* ([0-9a-f]+) +\d+ +WA ", run("readelf", "-SW", archive)[1])
    yield "what changes in memory", differs([it for it, size in sections if int(size, 16) and not it.startswith(".data.rel.ro")], [])


def stated_stacks():
    """How many bytes of the stack each call takes at most, as the header says."""
    rows = re.findall(r"(?m)^ +([\d,]+) bytes   (.*)$", (ROOT / "include/fitrec.h").read_text())
    found = {name: int(size.replace(",", "")) for size, names in rows for name in names.split(", ")}
    return {name: found.get(name, found["the others"]) for name in declared()[0]}


def of_stacks(given, archive):
    """What the calls take of a painted stack, over the same inputs. A call takes no more than the header says, and those of each line there
    are near it."""
    with tempfile.TemporaryDirectory() as folder:
        program, said = folder + "/library", pathlib.Path(folder, "stacks")
        # What is linked before the program begins takes no stack in a call.
        wrapped = ["-Wl,-z,now", *("-Wl,--wrap=" + it for it in declared()[0])]
        sources = [ROOT / "compare" / it for it in ("library.c", "stacks.c")]
        made = run("cc", "-O2", *WARNINGS, *wrapped, *sources, archive, "-o", program)
        yield "compiled with painted stacks", differs(made, (0, "", ""))
        with mock.patch.dict(os.environ, FITREC_STACKS=str(said)):
            yield from of_recordings(given.fitrec, program, given.files // 48, given.seed)
            for group in (of_files, of_finished, of_joined, of_mended, of_shifted, of_shown_and_checked, of_values):
                yield from group(given.fitrec, program, given.files // 96, given.seed)
        stated, most = stated_stacks(), {}
        for name, size in (it.split() for it in said.read_text().splitlines()):
            most[name] = max(most.get(name, 0), int(size))
        yield "calls that are measured", differs(sorted(most), sorted(stated))
        for name, size in most.items():
            yield "the stack of " + name, unless(size <= stated[name], size, "%d bytes at most" % stated[name])
        for size in set(stated.values()):
            found = max(most.get(name, 0) for name in stated if stated[name] == size)
            yield "the stacks of %d bytes" % size, unless(found > size * 0.6, found, "more than 60 % of what is stated")


def check(given):
    with tempfile.TemporaryDirectory() as folder:
        archive = folder + "/libfit_c.a"
        yield from given.checks(proved_and_built, archive)
        if not pathlib.Path(archive).exists():
            return
        yield from given.checks(names_of, archive, declared()[0])
        yield from given.checks(of_memory, archive)
        yield from given.checks(of_stacks, given, archive)
        yield from given.checks(links_as_shown, archive)
        with programs(ROOT / "compare/library.c", archive, words=("-std=c99", "-pedantic")) as made:
            for how, program in made.items():
                yield from given.checks(of_recordings, given.fitrec, program, given.files // 12, given.seed, under=how)
                for group in (of_files, of_finished, of_joined, of_mended, of_shifted, of_shown_and_checked, of_values):
                    yield from given.checks(group, given.fitrec, program, given.files // 48, given.seed, under=how)
