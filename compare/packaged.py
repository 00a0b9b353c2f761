"""Checks `install` and the package of release/: each file is in its place with its bytes, C programs find the static libraries by pkg-config and
the shared one by its names, and what was installed is taken away again."""

import gzip
import os
import pathlib
import re
import tempfile

from tools.checks import Skipped, differs
from tools.needs import missing
from tools.program import ROOT, run
from tools.release import RELEASE, stated

NEEDS = ("man", "cc", "desktop-file-validate", "pkg-config", "dpkg", "lintian")

VERSION = stated(RELEASE).get("version", "")
# The name by which programs ask for the shared library.
SHARED = "libfitrec.so." + VERSION.partition(".")[0]
PLACES = {"bin/fitrec": "release/fitrec", "share/man/man1/fitrec.1": "docs/fitrec.1", "include/fitrec.h": "include/fitrec.h", "include/fitrec_device.h": "include/fitrec_device.h",
          "share/bash-completion/completions/fitrec": "completions/fitrec.bash", "share/zsh/site-functions/_fitrec": "completions/_fitrec",
          "share/fish/vendor_completions.d/fitrec.fish": "completions/fitrec.fish", "share/fitrec/fitrec.html": "release/fitrec.html",
          "share/applications/fitrec.desktop": None, "lib/pkgconfig/fitrec.pc": None, "lib/libfit_c.a": "release/libfit_c.a",
          "lib/libfit_device.a": "release/libfit_device.a", "lib/libfitrec.so": "release/libfitrec.so",
          "lib/" + SHARED: "release/libfitrec.so"}
# Where the package has its libraries, what has another place in it, and what it has besides.
MULTIARCH = "/usr/lib/x86_64-linux-gnu"
MOVED = {"share/man/man1/fitrec.1": "share/man/man1/fitrec.1.gz", "share/zsh/site-functions/_fitrec": "share/zsh/vendor-completions/_fitrec"}
MORE = ["share/doc/fitrec/changelog.gz", "share/doc/fitrec/copyright", "share/lintian/overrides/fitrec"]
# What lintian finds: only who hands the package on can name the copyright and an address.
FOUND = {"bogus-mail-host", "bogus-mail-host-in-debian-changelog", "copyright-without-copyright-notice"}
CALLER = """#include "fitrec.h"
int main(void) {
    struct fitrec_recorder recorder = {0};
    struct fitrec_state state;
    return fitrec_version() != 1 || fitrec_state_of(&recorder, &state) != FITREC_NO_RECORDER;
}
"""
SHARER = """#include "fitrec.h"
int main(void) {
    uint64_t place = 0;
    struct fitrec_summary summary;
    return fitrec_version() != 1 || fitrec_check((const uint8_t *)"fit", 3, &summary, &place) != FITREC_HEADER_SIZE;
}
"""


def files_of(top):
    return {str(it.relative_to(top)): it.read_bytes() for it in top.rglob("*") if it.is_file()}


def of_the_install():
    with tempfile.TemporaryDirectory() as folder:
        for prefix, settings in ((folder + "/usr", {}), ("/usr", {"DESTDIR": folder + "/more"})):
            top = pathlib.Path(settings.get("DESTDIR", "") + prefix)
            said, there = run(ROOT / "install", prefix, env=os.environ | settings), files_of(top)
            yield "installed", differs((said, sorted(there)), ((0, "", ""), sorted(PLACES)))
            its = {place: (ROOT / source).read_bytes() for place, source in PLACES.items() if source}
            yield "installed: its bytes", differs([it for it in its if there.get(it) != its[it]], [])
            entry, found = (there.get(it, b"").decode() for it in ("share/applications/fitrec.desktop", "lib/pkgconfig/fitrec.pc"))
            named = prefix + "/share/fitrec/fitrec.html" in entry, "prefix=%s\n" % prefix in found
            yield "installed: named places", differs(named, (True, True))
            yield "installed: entry", missing("desktop-file-validate") or differs(
                run("desktop-file-validate", top / "share/applications/fitrec.desktop"), (0, "", ""))
            said = run(top / "bin/fitrec", "version")
            yield "installed: runs", differs(said, run(RELEASE / "fitrec", "version"))
            yield "installed: man page", differs(run("man", "-M", top / "share/man", "-w", "fitrec")[:2], (0, "%s/share/man/man1/fitrec.1\n" % top))
            if not settings:
                words = run("pkg-config", "--cflags", "--libs", "fitrec", env=os.environ | {"PKG_CONFIG_PATH": str(top / "lib/pkgconfig")})[1]
                yield "installed: found by pkg-config", missing("pkg-config") or linked(top, CALLER, words.split(), [])
                words = ["-I", top / "include", "-L", top / "lib", "-lfitrec"]
                yield "installed: the shared library", linked(top, SHARER, words, [SHARED])
            said = run(ROOT / "install", "--remove", prefix, env=os.environ | settings)
            yield "taken away", differs((said, files_of(top)), ((0, "", ""), {}))
        yield "wrong words", differs(run(ROOT / "install", "--other")[0], 2)


def linked(top, source, words, needed):
    """What goes wrong where a C program is built with these words, runs, and needs libraries of these names beside that of C."""
    (top / "caller.c").write_text(source)
    made = run("cc", "-Wall", "-Werror", "-o", top / "caller", top / "caller.c", *words)
    ran = run(top / "caller", env={"LD_LIBRARY_PATH": str(top / "lib")}) if made[0] == 0 else None
    found = re.findall(r"\(NEEDED\).*\[(.+)\]", run("readelf", "-dW", top / "caller")[1])
    for it in top.glob("caller*"):
        it.unlink()
    return differs((made, ran, sorted(found)), ((0, "", ""), (0, "", ""), sorted([*needed, "libc.so.6"])))


def of_the_package():
    """The package has what `install` installs, and dpkg installs and removes it."""
    if missing("dpkg"):
        yield "installed by dpkg", missing("dpkg")
        return
    package = RELEASE / ("fitrec_%s_amd64.deb" % VERSION)
    with tempfile.TemporaryDirectory() as folder:
        run(ROOT / "install", "/usr", env=os.environ | {"DESTDIR": folder + "/ours", "LIBDIR": MULTIARCH})
        ours = {MOVED.get(it, it): data for it, data in files_of(pathlib.Path(folder, "ours/usr")).items()}
        root = pathlib.Path(folder, "root")
        for it in ("info", "updates"):
            (root / "var/lib/dpkg" / it).mkdir(parents=True)
        (root / "var/lib/dpkg/status").touch()
        words = ["dpkg", "--root=%s" % root, "--force-not-root", "--force-bad-path", "--force-depends", "--log=/dev/null"]
        yield "installed by dpkg", differs(run(*words, "-i", package)[0], 0)
        there = files_of(root / "usr")
        opened = {it: gzip.decompress(data) if it.endswith("1.gz") else data for it, data in there.items() if it not in MORE}
        yield "installed by dpkg: its files", differs(sorted(there), sorted([*ours, *MORE]))
        yield "installed by dpkg: its bytes", differs([it for it in ours if opened.get(it) != ours[it]], [])
        links = {it.name: os.readlink(it) for it in (root / MULTIARCH[1:]).iterdir() if it.is_symlink()}
        yield "installed by dpkg: the shared library", differs(links, {"libfitrec.so": SHARED})
        yield "removed by dpkg", differs((run(*words, "--purge", "fitrec")[0], (root / "usr").exists()), (0, False))
    wanted = "%s %s fitrec (>= %s)\nactivate-noawait ldconfig\n" % (*SHARED.split(".so."), VERSION)
    yield "what the package says of the library", differs(run("dpkg-deb", "--info", package, "shlibs", "triggers"), (0, wanted, ""))
    yield "checked by lintian", missing("lintian") or differs(
        set(re.findall(r"(?m)^[EWI]: fitrec: (\S+)", run("lintian", "--allow-root", package)[1])), FOUND)


def check(given):
    if not RELEASE.exists():
        yield "installed", Skipped("release/")
        return
    for group in (of_the_install, of_the_package):
        yield from given.checks(group)
