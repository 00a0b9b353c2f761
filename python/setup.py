"""Puts the shared library into the package. It is built by ../build-shared, unless FITREC_LIBRARY names one. A wheel is for every Python,
and for the systems that have the C library which the shared one needs. The version is the program's."""

import os
import pathlib
import re
import shutil
import subprocess

from setuptools import setup
from setuptools.command.build_py import build_py
from setuptools.dist import Distribution

try:
    from setuptools.command.bdist_wheel import bdist_wheel
except ImportError:
    from wheel.bdist_wheel import bdist_wheel

HERE = pathlib.Path(__file__).resolve().parent
VERSION = re.search(r'"fitrec ([\d.]+)', (HERE.parent / "crates/fit_commands/src/version.rt").read_text())[1]


def library_in(folder):
    return pathlib.Path(folder, "fitrec/libfitrec.so")


class WithLibrary(build_py):
    def run(self):
        super().run()
        to = library_in(self.build_lib)
        to.parent.mkdir(parents=True, exist_ok=True)
        if "FITREC_LIBRARY" in os.environ:
            shutil.copyfile(os.environ["FITREC_LIBRARY"], to)
        else:
            subprocess.run([HERE.parent / "build-shared", to.parent], check=True)
        to.chmod(0o644)


class ForOneSystem(bdist_wheel):
    def get_tag(self):
        library = library_in(self.get_finalized_command("build").build_lib).read_bytes()
        needed = max((int(it[1]), int(it[2])) for it in re.finditer(rb"GLIBC_(\d+)\.(\d+)", library))
        return "py3", "none", "manylinux_%d_%d_x86_64" % needed


class WithBinary(Distribution):
    def has_ext_modules(self):
        return True


setup(version=VERSION, cmdclass={"build_py": WithLibrary, "bdist_wheel": ForOneSystem}, distclass=WithBinary)
