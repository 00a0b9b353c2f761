"""What is proved of the crates is kept in crates/NAME/out. Here a tree is made of some crates with what is kept of them, and a static
library is built in it: for web/build, device/build and bench/. The library for devices also gets the session, which is in C. What `rt` does
and none of its subcommands is asked of here, as a module. And what release/ is made by beside that: the tools of the kit, and those of
Debian that make the wheel."""

import importlib.machinery
import importlib.util
import os
import pathlib
import shutil
import subprocess
import sys
import tempfile

ROOT = pathlib.Path(__file__).resolve().parent
# How the session is compiled, and what it includes: the kit's clang has no headers.
SMALLEST = ["-std=c99", "-Oz", "-Wall", "-Wextra", "-Werror", "-ffreestanding", "-nostdinc", "-ffunction-sections", "-fdata-sections",
            "-fno-asynchronous-unwind-tables"]
HEADERS = {"stdbool.h": "#define bool _Bool\n#define true 1\n#define false 0\n",
           "stddef.h": "typedef __SIZE_TYPE__ size_t;\n#define offsetof(of, field) __builtin_offsetof(of, field)\n",
           "stdint.h": "".join("typedef __%sINT%d_TYPE__ %sint%d_t;\n" % (sign, bits, sign.lower(), bits) for sign in ("", "U") for bits in (8, 16, 32, 64))
           + "#define UINT32_MAX __UINT32_MAX__\n",
           "string.h": "#include <stddef.h>\nvoid *memset(void *, int, size_t);\n"}
# Prints the version of zopfli, in a line, which it does not tell itself.
ZOPFLI = ["dpkg-query", "-W", "-f", "zopfli ${Version}\n", "zopfli"]
# Prints the versions of what makes the wheel, in a line: Debian's python3-pip, python3-setuptools and python3-wheel.
WHEEL_TOOLS = ["/usr/bin/python3", "-c", "import importlib.metadata as it; print(*(w for n in ('pip', 'setuptools', 'wheel') for w in (n, it.version(n))))"]


def load_rt(path=None):
    """The kit's command `rt` as a module: the one of this path, or else the one that is found by its name."""
    path = os.path.realpath(path or shutil.which("rt") or sys.exit("there is no command rt"))
    loader = importlib.machinery.SourceFileLoader("rt", path)
    module = importlib.util.module_from_spec(importlib.util.spec_from_loader("rt", loader))
    loader.exec_module(module)
    return module


def crates(root=ROOT):
    """The line of each crate of a tree, by its name."""
    return {line.split()[0].rstrip(":"): line for line in (root / "crates.txt").read_text().splitlines() if line.strip()}


def used_by(name, lines):
    """The crates of the tree that the line of a crate names."""
    return [dep for dep in lines[name].partition(":")[2].split() if dep in lines]


def below(name):
    """The crates of the tree that a crate uses, each after those that it uses itself. The crate is the last."""
    found = []
    for used in used_by(name, crates()):
        found += [dep for dep in below(used) if dep not in found]
    return [*found, name]


def link_or_copy(source, to):
    """Gives a file a second name: `rt` replaces such files, and changes none."""
    try:
        os.link(source, to)
    except OSError:
        shutil.copy2(source, to)


def tree_of(to, names, changed=()):
    """Makes a tree of these crates and all below them, with what is kept: of a library its proved form, of a static library the proofs. The lines
    of crates in it are those of `changed`, where it has them."""
    wanted = list(dict.fromkeys(it for name in names for it in below(name)))
    for name in wanted:
        for part in ("src", "specs", "proofs", "out/incremental" if " staticlib:" in crates()[name] else "out/rlib"):
            if (ROOT / "crates" / name / part).is_dir():
                copy = link_or_copy if part == "out/rlib" else shutil.copy2
                shutil.copytree(ROOT / "crates" / name / part, to / "crates" / name / part, copy_function=copy)
    (to / "crates.txt").write_text("".join(dict(changed).get(name, crates()[name]) + "\n" for name in wanted))
    return to / "crates"


def sources():
    """The line of the sources that crates are proved from."""
    return subprocess.run([ROOT / "sources", "crates"], stdout=subprocess.PIPE, text=True, check=True).stdout


def has_passed(name, line):
    """Whether the gate has proved a crate from the sources of this line."""
    passed = ROOT / "crates" / name / "out/passed"
    return passed.exists() and passed.read_text() == line


def are_proved(crates):
    """Whether these libraries, as `rt` knows them, are there: all as `rt` proved them, or all as the gate did, which leaves no stamp by which
    `rt` would know that; any other build leaves one."""
    line = sources()
    if all(it.is_built() for it in crates):
        return True
    rlibs = [ROOT / "crates" / it.name / "out/rlib" for it in crates]
    return all(it.is_dir() and not (it / "stamp").exists() for it in rlibs) and all(has_passed(it.name, line) for it in crates)


def static_library(crate, rt):
    """Proves and builds the static library in this folder of a tree, over what is kept of the libraries below. If that is not all of them, `rt`
    proves the others first. Answers its status."""
    its = next(it for it in load_rt(rt).rtlib.crates_below(str(crate.parent.parent)) if it.name == crate.name)
    # What is printed elsewhere stays apart.
    its.out = sys.stderr
    if are_proved(its.below()):
        os.makedirs(crate / "out", exist_ok=True)
        return its.build_static(["--jobs", "1"])
    return subprocess.run([rt, "lib", "--jobs", "1"], cwd=crate).returncode


def tool(name):
    """A tool of the kit."""
    return pathlib.Path(shutil.which("rt")).resolve().parent.parent / "toolchain/bin" / name


def shared_library(archive, folder):
    """Makes the shared library of a static one by the kit's compiler and linker."""
    words = {"CC": "%s -fuse-ld=lld" % tool("clang")}
    subprocess.run([ROOT / "build-shared", folder, archive], check=True, env=os.environ | words)


def compiled_session(to, *words):
    """Compiles the session of a device by the kit's clang, as these words have it."""
    with tempfile.TemporaryDirectory() as headers:
        for name, text in HEADERS.items():
            pathlib.Path(headers, name).write_text("#pragma once\n" + text)
        subprocess.run([tool("clang"), *words, *SMALLEST, "-I", headers, "-I", ROOT / "include", ROOT / "device/session.c", "-o", to], check=True)


def add_session(archive):
    """Puts the session into the library of fit_device for x86-64."""
    with tempfile.TemporaryDirectory() as folder:
        compiled_session(folder + "/session.o", "--target=x86_64-linux-gnu", "-c")
        subprocess.run([tool("llvm-ar"), "rcsD", archive, folder + "/session.o"], check=True)
