"""A ride as columns: `fitrec table`, the shared library by the Python package, and, to compare, `show --json` read by Python and gpsbabel,
over records of ten fields (67 MB), and over 1,000 rides of 22 KB. It needs Debian's python3-numpy and python3-pandas."""

from tools import ROOT, launched, python_package, run


def figures(work):
    words = "/usr/bin/python3", "-B", ROOT / "bench/columns/run.py", launched(), work
    for line in run(*words, env=python_package(work, "columns")).splitlines():
        yield line.split("\t")
