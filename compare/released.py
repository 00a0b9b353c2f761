"""Checks release/: it is of the sources that are there, each file has its checksum and the bytes that are made here from what is proved, and
a clone on a machine without the kit saves a ride by it. Faults that are planted in a copy of the folder are seen.

What is made here is compared where it is made: the page in page.py, the static libraries in library.py and device.py, and the objects for
devices there too; the shared library and the wheel here."""

import hashlib
import os
import pathlib
import re
import shutil
import tempfile
import zipfile
import zlib

from tools.checks import differs, unless
from tools.needs import missing
from tools.program import ROOT, bytes_of, run
from tools.release import OBJECTS, RELEASE, is_of_these_sources, kept, said_by, same, stated
from tools.rides import script_of

NEEDS = ("fitrec", "node", "dpkg", "rt", "cc", "python3-setuptools", "python3-wheel", "python3-pip")
MOST = 3_200_000
# What is taken as it stands in the tree.
COPIED = ["include/fitrec.h", "include/fitrec_device.h", "docs/fitrec.1", "completions/fitrec.bash", "completions/_fitrec", "completions/fitrec.fish"]
MADE = ["fitrec", "fitrec.html", "manifest.webmanifest", "service-worker.js", "icon.svg", "libfit_c.a", "libfit_device.a", "libfitrec.so", *OBJECTS]
# For every Python, on a system with the C library that the shared one needs.
WHEEL = "fitrec-%s-py3-none-manylinux_2_14_x86_64.whl"
# What the launcher needs of a system.
TOOLS = ["sh", "dirname", "readlink", "find", "sort", "xargs", "sha256sum", "grep"]


def faults_of(release):
    """What is wrong with a release, whatever was made here."""
    of, present = stated(release), sorted(it.name for it in release.iterdir()) if release.is_dir() else []
    if not is_of_these_sources(release):
        yield "it is of other sources: ./build-release makes it anew"
    package = "fitrec_%s_amd64.deb" % of.get("version")
    wanted = ["BUILT-FROM", "SHA256SUMS", package, WHEEL % of.get("version"), *MADE, *(pathlib.Path(it).name for it in COPIED)]
    if present != sorted(wanted):
        yield "it has other files: %s" % (set(present) ^ set(wanted))
        return
    sums = "".join("%s  %s\n" % (hashlib.sha256(bytes_of(release / it)).hexdigest(), it) for it in present if it != "SHA256SUMS")
    if bytes_of(release / "SHA256SUMS") != sums.encode():
        yield "SHA256SUMS has other checksums"
        return
    for it in COPIED:
        if bytes_of(release / pathlib.Path(it).name) != bytes_of(ROOT / it):
            yield it + " is another"
    if run(release / "fitrec", "version")[1] != "fitrec %s\n%s\n" % (of.get("version"), of.get("kit", "").replace(" ", "\n", 1)):
        yield "the program states another version or kit than BUILT-FROM"
    if sum(it.stat().st_size for it in release.iterdir()) > MOST:
        yield "it has more than %d bytes" % MOST
    depends = "libc6 (>= %s)\n" % needed_by(release / "fitrec")
    if shutil.which("dpkg-deb") and run("dpkg-deb", "--field", release / package, "Depends")[1] != depends:
        yield "the package needs something else than the C library of the program"
    yield from faults_of_wheel(release, release / (WHEEL % of.get("version")))


def faults_of_wheel(release, wheel):
    """What is wrong with the wheel: what is in it, and what it says that its library needs."""
    said = said_by("readelf", "-dW", release / "libfitrec.so")
    if re.findall(r"\((NEEDED|SONAME)\).*\[(.+)\]", said) != [("NEEDED", "libc.so.6"), ("SONAME", "libfitrec.so." + wheel.name.split("-")[1][0])]:
        yield "the shared library needs another one, or has another name: " + said
    if "manylinux_%s_x86_64.whl" % needed_by(release / "libfitrec.so").replace(".", "_") != wheel.name.split("-")[-1]:
        yield "the wheel is for another C library than its own"
    with zipfile.ZipFile(wheel) as opened:
        its = {it: opened.read(it) for it in opened.namelist() if ".dist-info/" not in it}
    wanted = {"fitrec/" + it.name: it.read_bytes() for it in (ROOT / "python/fitrec").iterdir() if it.is_file()}
    if its != wanted | {"fitrec/libfitrec.so": bytes_of(release / "libfitrec.so")}:
        yield "the wheel has other files than python/fitrec and the shared library"


def bytes_in(text):
    """The bytes of a text in base 94: eleven letters for each nine bytes, and a tab and ~ for a quotation mark and a backslash."""
    digits, found = [ord(it) - 32 for it in text.replace("~", "\\").replace("\t", '"')], b""
    for at in range(0, len(digits), 11):
        n = 0
        for it in digits[at:at + 11]:
            n = 94 * n + it
        found += n.to_bytes(9, "big")
    return found.lstrip(b"\0")


def needed_by(program):
    """The version of the C library that a program needs."""
    found = re.findall(r"\bGLIBC_([\d.]+)", said_by("objdump", "-T", program))
    return max(found, key=lambda it: [int(number) for number in it.split(".")])


def plants():
    """Faults of a release, each as a name and what makes it."""
    def changed(name):
        def plant(release):
            data = bytearray((release / name).read_bytes())
            data[len(data) // 2] ^= 1
            (release / name).write_bytes(data)
        return plant

    def renamed(word, text):
        def plant(release):
            path = release / "BUILT-FROM"
            path.write_text(re.sub(r"(?m)^%s .*$" % word, word + " " + text, path.read_text()))
            with_sums(release)
        return plant

    def with_sums(release):
        (release / "SHA256SUMS").write_text("".join("%s  %s\n" % (hashlib.sha256(it.read_bytes()).hexdigest(), it.name)
                                                    for it in sorted(release.iterdir()) if it.name != "SHA256SUMS"))

    def other_copy(release):
        changed("fitrec.h")(release)
        with_sums(release)

    for it in sorted(RELEASE.iterdir()):
        yield "a changed byte of " + it.name, changed(it.name)
        yield "without " + it.name, lambda release, name=it.name: (release / name).unlink()
    yield "another file", lambda release: (release / "more").write_text("")
    yield "another header, with its checksum", other_copy
    for word, text in (("version", "9.9.9"), ("kit", "rattle-kit-0 logic 0"), ("crates", "0" * 64), ("others", "0" * 64)):
        yield "another " + word, renamed(word, text)


def of_folder(fitrec):
    """The folder as it is, and what is planted in a copy."""
    found = list(faults_of(RELEASE))
    yield "of these sources, with its checksums", differs(found, [])
    yield same("fitrec", fitrec)
    if found:
        return
    with tempfile.TemporaryDirectory() as folder:
        for at, (name, plant) in enumerate(plants()):
            copy = shutil.copytree(RELEASE, pathlib.Path(folder, str(at)))
            plant(copy)
            yield "a planted fault is seen", unless(list(faults_of(copy)), "nothing", name)


def of_the_libraries():
    """The shared library and the wheel, as they are made here of the released static library."""
    with tempfile.TemporaryDirectory() as folder:
        kept.shared_library(RELEASE / "libfit_c.a", folder)
        yield same("libfitrec.so", folder + "/libfitrec.so")
        why, name = missing("python3-setuptools", "python3-wheel", "python3-pip"), WHEEL % stated(RELEASE)["version"]
        if why:
            yield name + " has the released bytes", why
            return
        run(ROOT / "python/build-wheel", folder + "/libfitrec.so", folder)
        yield same(name, pathlib.Path(folder, name))


def clone(to):
    """Copies what git keeps, and the release; where git does not answer, the whole tree."""
    listed = run("git", "ls-files", "-z", cwd=ROOT)[1] if shutil.which("git") else ""
    if not listed:
        shutil.copytree(ROOT, to, ignore=shutil.ignore_patterns("out", ".git"))
        return
    for it in listed.strip("\0").split("\0"):
        (to / it).parent.mkdir(parents=True, exist_ok=True)
        shutil.copy(ROOT / it, to / it)
    shutil.copytree(RELEASE, to / "release", dirs_exist_ok=True)


def of_a_clone(fitrec):
    """A clone on a machine without the kit saves a ride by the program and by the module of the page."""
    with tempfile.TemporaryDirectory() as folder:
        folder = pathlib.Path(folder)
        clone(folder / "clone")
        (folder / "bin").mkdir()
        for it in TOOLS:
            (folder / "bin" / it).symlink_to(shutil.which(it))
        (folder / "script").write_text(script_of(50, 9))
        (folder / "FOLDER").mkdir()
        run(fitrec, "replay", folder / "script", folder / "FOLDER")
        wanted = run(fitrec, "save", folder / "FOLDER", folder / "wanted.fit")
        said = run(folder / "clone/fitrec", "save", folder / "FOLDER", folder / "ride.fit", env={"PATH": str(folder / "bin")})
        yield "a clone without the kit", differs((said, bytes_of(folder / "ride.fit")), (wanted, bytes_of(folder / "wanted.fit")))
        if missing("node"):
            yield "the page of a clone", missing("node")
        else:
            # The page has its scripts and the module deflated, and a module begins with these bytes.
            packed = re.findall(r'"([^"\n]{1000,})"', (folder / "clone/release/fitrec.html").read_text())
            (module,) = (it for it in (zlib.decompress(bytes_in(it)) for it in packed) if it.startswith(b"\0asm"))
            (folder / "module.wasm").write_bytes(module)
            words = ["save", folder / "FOLDER/activity.fit", folder / "FOLDER/activity.frj", folder / "page.fit"]
            said = run(ROOT / "compare/module.mjs", *words, env=os.environ | {"FITREC_MODULE": str(folder / "module.wasm")})
            wanted = 0, "0\n" + wanted[1], ""
            yield "the page of a clone", differs((said, bytes_of(folder / "page.fit")), (wanted, bytes_of(folder / "wanted.fit")))


def check(given):
    yield from given.checks(of_folder, given.fitrec)
    yield from given.checks(of_the_libraries)
    if (RELEASE / "fitrec").exists():
        yield from given.checks(of_a_clone, given.fitrec)
