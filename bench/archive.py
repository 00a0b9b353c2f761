"""The Python package over 100,000 rides of 14 KB, 3.5 % of them damaged: by one process, by four, and by clusters of Dask, also where a
worker is killed every two seconds. It needs Debian's python3-numpy, python3-pandas, python3-dask, python3-distributed and python3-fsspec."""

from tools import ROOT, launched, python_package, run

FILES = 100_000


def figures(work):
    words = "/usr/bin/python3", "-B", ROOT / "bench/archive/run.py", launched(), work, FILES
    for line in run(*words, env=python_package(work, "archive")).splitlines():
        yield line.split("\t")
