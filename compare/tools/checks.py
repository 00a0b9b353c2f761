"""What a part of compare/run yields: for each check a name, and None, a difference, or why it was skipped."""

import concurrent.futures
import pathlib
import traceback
from dataclasses import dataclass
from typing import NamedTuple

from tools.program import CORES, FITREC, ROOT


class Difference(NamedTuple):
    """What was wanted and what came, and what it was about, such as a place or the bytes of a file."""

    wanted: object
    came: object
    about: object = None


class Skipped(NamedTuple):
    """A check that cannot be made here: the Debian package that is missing, or another reason."""

    why: str


def differs(came, wanted, about=None):
    """None if both are equal."""
    return None if came == wanted else Difference(wanted, came, about)


def unless(is_right, came, wanted):
    """None if a condition holds. What is wanted is then said in words."""
    return None if is_right else Difference(wanted, came)


class Check(NamedTuple):
    """A check that was made: the function that made it, its name, how it ended, and its number if it is one of many made inputs."""

    group: str
    name: str
    outcome: object
    number: int | None = None


def ended_early(group):
    """The check that failed because its function did, with the lines where it did."""
    return Check(group, "it runs to its end", Difference("its end", traceback.format_exc()))


@dataclass
class Run:
    """What a part is given: the program, how many random files are made, and the seed. What is run alone, if anything is. Whether it waits
    for what the gate is proving."""

    files: int = 3000
    seed: int = 1
    groups: tuple = ()
    number: int | None = None
    waits: bool = False
    fitrec: pathlib.Path = FITREC

    @property
    def small(self):
        """The bytes of a small file that is shown."""
        return (ROOT / "crates/fitrec/data/row3.fit").read_bytes()

    def checks(self, function, *given, under=""):
        """The checks of a function, whose names may begin with the same words."""
        # What it builds is needed by the other groups too.
        if self.groups and function.__name__ not in (*self.groups, "proved_and_built"):
            return
        try:
            for it in function(*given):
                it = it if isinstance(it, Check) else Check("", *it)
                yield it._replace(group=function.__name__, name=under and "%s: %s" % (under, it.name) or it.name)
        except Exception:
            yield ended_early(function.__name__)

    def judged(self, judge, inputs):
        """The checks of a function that is given a number and an input, and answers a name and a difference. They run side by side."""
        numbered = [it for it in enumerate(inputs) if self.number in (None, it[0])]
        with concurrent.futures.ThreadPoolExecutor(CORES) as pool:
            for (number, _), (name, outcome) in zip(numbered, pool.map(lambda it: judge(*it), numbered)):
                yield Check("", name, outcome, number)
