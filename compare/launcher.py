"""Checks the launcher, the script fitrec at the top: it runs the released program, or one that was built here, only where that was built
from the contents of the present sources. It is tried in a scratch tree with a file for each source, a stand-in for the kit's rt, and
programs that print whether they are the released, the old or the new one."""

import contextlib
import hashlib
import os
import pathlib
import shutil
import subprocess
import sys
import tempfile

from tools.checks import differs
from tools.program import ROOT, run

sys.path.insert(0, str(ROOT))
import kept

NEEDS = ()
WORDS = ["show", "a file"]
STATUS = 7
KIT = "rattle-kit-0", "logic 0123"
VERSION = "crates/fit_commands/src/version.rt"
REFUSED = "fitrec: release/fitrec is missing, damaged, or of other sources\n"

PROGRAM = """#!/bin/sh
printf %s {0}; printf ' <%s>' "$@"; echo
[ "$2" != "a file" ] || exit 7
"""

# Proves the crate that it runs in; for the program, all crates. It ends at the crate that is set to fail, and changes the source that is set
# to change. A library gets a stamp; the program gets the new program and is run.
RT = """#!/bin/sh
[ "$1" != version ] || { echo "rattle-kit-0 logic 0123"; exit; }
here=$(basename "$PWD")
echo "$here: $*" >>"$SCRATCH/calls"
[ -z "$CHANGES" ] || echo "changed by $here" >>"$CHANGES"
for crate in $(sed 's/:.*//' "$SCRATCH/crates.txt"); do
    case $here in fitrec | scratch | "$crate") ;; *) continue ;; esac
    echo "rt: chose --jobs 1 for $crate"
    if [ "$crate" = "$FAILS" ]; then
        echo "crate $crate: goals=1"
        echo "the last line of $crate" >&2
        exit 3
    fi
    echo "logic=proved functions=1"
done
mkdir -p out/rlib
touch out/rlib/stamp
if [ "$here $1" = "fitrec run" ]; then
    cp "$SCRATCH/new" out/fitrec
    grep "^const VERSION" ../fit_commands/src/version.rt >"$SCRATCH/stated"
    while [ $# -gt 0 ] && [ "$1" != -- ]; do shift; done
    [ $# -eq 0 ] || shift
    out/fitrec "$@"
fi
"""


def crates_of(tree):
    """Each crate, with the crates of this tree that it uses."""
    lines = kept.crates(tree)
    return {name: kept.used_by(name, lines) for name in lines}


def all_below(crates, name):
    return {name}.union(*(all_below(crates, other) for other in crates[name]))


def executable(path, text):
    path.parent.mkdir(parents=True, exist_ok=True)
    path.write_text(text)
    path.chmod(0o755)


class Scratch:
    """A tree with a release of its sources, and perhaps a program that was built here."""

    def __init__(self, folder, is_built):
        self.folder = pathlib.Path(folder) / "scratch"
        self.folder.mkdir()
        for path in ROOT.iterdir():
            if path.is_file():
                shutil.copy(path, self.folder)
        self.crates = crates_of(self.folder)
        self.sources = [self.folder / "crates.txt"]
        for crate in self.crates:
            for part in ("src/lib.rt", "specs/Lib.antt", "proofs/Lib.antt"):
                path = self.folder / "crates" / crate / part
                path.parent.mkdir(parents=True)
                path.write_text("as it was")
                self.sources.append(path)
        shutil.copy(ROOT / VERSION, self.folder / VERSION)
        self.release, self.out = self.folder / "release", self.folder / "crates/fitrec/out"
        executable(self.folder / "new", PROGRAM.format("new"))
        executable(pathlib.Path(folder) / "bin/rt", RT)
        line = subprocess.run([self.folder / "sources", "crates"], capture_output=True, text=True, check=True).stdout
        self.add(self.release, "released", BUILT_FROM="version 1\nkit %s %s\n%s" % (*KIT, line))
        if is_built:
            self.add(self.out, "old", built=line)

    @staticmethod
    def add(folder, age, **files):
        """Puts a program into a folder, with the files that say what it was built from, and its checksum."""
        executable(folder / "fitrec", PROGRAM.format(age))
        for name, text in files.items():
            (folder / name.replace("_", "-")).write_text(text)
        with open(folder / ("built" if "built" in files else "SHA256SUMS"), "a") as it:
            it.write("%s  fitrec\n" % hashlib.sha256((folder / "fitrec").read_bytes()).hexdigest())

    def run(self, fails="", changes="", build=""):
        """What the launcher prints, and whether it started a build."""
        settings = {"PATH": "%s/bin:%s" % (self.folder.parent, os.environ["PATH"]), "SCRATCH": str(self.folder), "FAILS": fails,
                    "CHANGES": str(changes), "FITREC_BUILD": build}
        (self.folder / "calls").unlink(missing_ok=True)
        said = run(self.folder / "fitrec", *WORDS, env=os.environ | settings)
        return said, (self.folder / "calls").exists()


@contextlib.contextmanager
def scratch(is_built=False):
    with tempfile.TemporaryDirectory() as folder:
        yield Scratch(folder, is_built)


def change(path, text="and more"):
    """Gives a file other contents, and its times again."""
    found = path.stat()
    path.write_text(text)
    os.utime(path, ns=(found.st_atime_ns, found.st_mtime_ns))


def said_by(age):
    """The status and the output of a program of this age."""
    return STATUS, age + "".join(" <%s>" % word for word in WORDS) + "\n"


def damages():
    """What is done to a release, each of which is refused."""
    yield "none", lambda release: shutil.rmtree(release)
    yield "no program", lambda release: (release / "fitrec").unlink()
    yield "no checksums", lambda release: (release / "SHA256SUMS").unlink()
    yield "a changed program", lambda release: change(release / "fitrec", PROGRAM.format("foreign"))
    yield "a changed checksum", lambda release: change(release / "SHA256SUMS", "0" * 64 + "  fitrec\n")
    yield "no word on the sources", lambda release: change(release / "BUILT-FROM", "version 1\n")
    yield "other sources", lambda release: change(release / "BUILT-FROM", "crates %s\n" % ("0" * 64))


def runs_the_released():
    """The released program runs, unless it is damaged or left out."""
    with scratch() as tree:
        yield "the released program", differs(tree.run(), ((*said_by("released"), ""), False))
        for is_built in (True, False):
            said, was_built = tree.run(build="1")
            yield "the released program is left out", differs((said[:2], was_built, REFUSED in said[2]), (said_by("new"), is_built, False))
            if is_built:
                yield "the other program", differs(said[2].splitlines()[-1], "fitrec: the program is not bit for bit the released one")
        yield "the released program again", differs(tree.run(), ((*said_by("released"), ""), False))
    with scratch() as tree:
        shutil.copy(tree.release / "fitrec", tree.folder / "new")
        said, _ = tree.run(build="1")
        yield "the same program", differs(said[2].splitlines()[-1], "fitrec: the program is bit for bit the released one")
    for name, damage in damages():
        for is_old in (False, True):
            with scratch(is_old) as tree:
                damage(tree.release)
                said, is_built = tree.run()
                wanted = (said_by("old"), False, False) if is_old else (said_by("new"), True, True)
                yield "a release with " + name, differs((said[:2], is_built, REFUSED in said[2]), wanted)


def builds():
    """It builds if the contents of a source are others, though its time is the same, and only then. Those of tests do not count. Words and
    status are passed through."""
    # crates.txt, and one of the three sources of each crate, in turn.
    for at in [0, *(3 * crate + 1 + crate % 3 for crate in range(len(crates_of(ROOT))))]:
        with scratch(True) as tree:
            path = tree.sources[at]
            before = path.read_text()
            change(path, before + " \n")
            is_of_tests = "_tests/" in path.as_posix()
            for is_built in (not is_of_tests, False):
                said, was_built = tree.run()
                wanted = said_by("released" if is_of_tests else "new"), is_built
                yield "a source is another", differs((said[:2], was_built), wanted)
            change(path, before)
            yield "a source as it was", differs(tree.run(), ((*said_by("released"), ""), False))
    for gone in ("crates/fit_base/src/lib.rt", "crates/fit_commands/specs/Lib.antt"):
        with scratch(True) as tree:
            (tree.folder / gone).unlink()
            said, is_built = tree.run()
            yield "without " + gone, differs((said[:2], is_built), (said_by("new"), True))
    with scratch(True) as tree:
        os.utime(tree.sources[1])
        yield "a source is newer alone", differs(tree.run(), ((*said_by("released"), ""), False))
        stated = (tree.folder / VERSION).read_text()
        change(tree.sources[1])
        tree.run()
        wanted = 'const VERSION: &str = "fitrec %s\\n%s\\n%s\\n";\n' % (stated.split('"fitrec ')[1].split("\\n")[0], *KIT)
        yield "the kit that is here is stated", differs(((tree.folder / "stated").read_text(), (tree.folder / VERSION).read_text()), (wanted, stated))


def builds_again():
    """A program whose sources changed while it was built is not run later, nor what was changed in it since."""
    with scratch() as tree:
        change(tree.sources[1])
        said, _ = tree.run(changes=tree.sources[-1])
        yield "a source changes in a build", differs(said[:2], said_by("new"))
        for is_built in (True, False):
            said, was_built = tree.run()
            yield "after a source changed in a build", differs((said[:2], was_built), (said_by("new"), is_built))
        change(tree.out / "fitrec", PROGRAM.format("foreign"))
        said, was_built = tree.run()
        yield "a program that was changed", differs((said[:2], was_built), (said_by("new"), True))


def builds_that_fail():
    """If a crate is not proved, no program runs, the last lines of the build are shown, and the next run builds again."""
    crates = crates_of(ROOT)
    for crate in sorted(all_below(crates, "fitrec")):
        with scratch(True) as tree:
            change(tree.folder / "crates" / crate / "src/lib.rt")
            for _ in range(2):
                (status, out, fault), is_built = tree.run(crate)
                is_shown = "the last line of " + crate in fault
                yield "a crate that is not proved", differs((status, out, is_shown, is_built), (3, "", True, True))
                # The second time there is no old program either.
                shutil.rmtree(tree.out, ignore_errors=True)
            said, is_built = tree.run()
            yield "a crate that is proved then", differs((said[:2], is_built), (said_by("new"), True))


def check(given):
    for group in (runs_the_released, builds, builds_again, builds_that_fail):
        yield from given.checks(group)
