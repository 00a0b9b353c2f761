"""Rides on a card that changes, mixes up or forgets bytes. A recovery may refuse such a ride, or find an earlier commit of it, but never
makes a ride that nobody recorded, since the journal states the checksum of what it counts, which one of 4,294,967,296 changed bodies has by
chance. compare/cards.c makes the rides and judges them, for the libraries of release/. Here the same is seen of the program, for each changed bit."""

import pathlib
import re
import subprocess
import tempfile

from tools.checks import differs, unless
from tools.program import NAMES, ROOT, bytes_of, holds, room, run

NEEDS = ("fitrec", "cc")
LIBRARIES = [ROOT / "release" / it for it in ("libfit_device.a", "libfit_c.a")]
# What a card does, and how many states, pairs or rides of that are made.
KINDS = {"flips": 6, "mixes": 1000, "forgets": 6000, "rots": 6000}
CHANGED = ("fitrec: Damaged\nfitrec: bytes of the recording have changed since they were committed; salvage copies what is readable of "
           "activity.fit, and save --earlier what the commit before counts\n")
RIDE = """start 1000000000 7 running
sample 1000000000 hr=100
sample 1000000031 hr=101 dist=3100
commit
lap 1000000040
sample 1000000063 hr=102 dist=6000
commit
""".splitlines()


def counts_of(program, *words):
    """How many states there were, and how many of them had which outcome."""
    said = run(program, *words)
    found = re.fullmatch(r"(\d+) states: (\d+) refused, (\d+) last, (\d+) earlier, (\d+) wrong\n", said[1])
    return said if said[0] or not found else tuple(map(int, found.groups()))


def of_states(seed):
    """With checksums no state becomes a ride that nobody recorded. Without them some do, so the states are hard ones."""
    with tempfile.TemporaryDirectory() as folder:
        program = folder + "/cards"
        cc = ["cc", "-std=gnu11", "-O2", "-Wall", "-Wextra", "-Werror", "-I", ROOT / "include"]
        subprocess.run([*cc, ROOT / "compare/cards.c", *LIBRARIES, "-o", program], check=True)
        for kind, many in KINDS.items():
            found = counts_of(program, kind, str(seed), str(many))
            is_right = len(found) == 5 and found[0] >= many and found[-1] == 0 and found[2] + found[3] > 0
            yield "a card that " + kind, unless(is_right, found, "no wrong ones")
            found = counts_of(program, kind, str(seed), str(many), "unchecked")
            yield "a card that %s, without checksums" % kind, unless(len(found) == 5 and found[-1] > 0, found, "some wrong ones")


def of_changed_bits(fitrec):
    """Each bit of both files of a small ride is changed, and the ride saved: as one of its commits, or not at all."""
    with room() as (script, new):
        folder, out = pathlib.Path(new()), pathlib.Path(new(), "out.fit")

        def saved(pair):
            for name, content in zip(NAMES, pair):
                (folder / name).write_bytes(content)
            out.unlink(missing_ok=True)
            return run(fitrec, "save", folder, out)[:2], bytes_of(out)

        pairs = []
        for lines in (1, 4, 7):
            script.write_text("".join(line + "\n" for line in RIDE[:lines]))
            run(fitrec, "replay", "--checked", script, ride := new())
            pairs.append(holds(ride))
        honest = [saved(pair) for pair in pairs]
        yield "a small ride is saved", differs([said[0] for said, _ in honest], [0, 0, 0])
        for at, first in ((0, 14), (1, 0)):
            for bit in range(8 * first, 8 * len(pairs[-1][at])):
                changed = [bytearray(it) for it in pairs[-1]]
                changed[at][bit // 8] ^= 1 << bit % 8
                said, made = saved(changed)
                is_right = (said, made) in honest if said[0] == 0 else made is None
                yield "a changed bit of " + NAMES[at], unless(is_right, (bit, said), "one of its commits, or nothing")


def with_the_commit_before(fitrec):
    """If what the last commit counts has changed, `save` says so, and `save --earlier` takes the commit before it."""
    with room() as (script, new):
        def ride(lines):
            script.write_text("".join(line + "\n" for line in RIDE[:lines]))
            run(fitrec, "replay", "--checked", script, folder := new())
            return pathlib.Path(folder)

        def saved(folder, *words):
            out = pathlib.Path(new(), "out.fit")
            return run(fitrec, "save", *words, folder, out), bytes_of(out)

        before, last = ride(4), ride(7)
        whole = saved(last)
        yield "a whole ride by --earlier", differs((whole[0][0], saved(last, "--earlier")), (0, whole))
        data, journal = holds(last)
        counted = sorted(int.from_bytes(journal[at + 1:at + 5], "little") for at in (8, 24, 40) if journal[at] == 0xA5)
        refused = ((1, "", CHANGED), None)
        (said, made), left_out = saved(before), counted[1] - counted[0]
        earlier = (said[0], said[1], "fitrec: %d bytes of the last commit are left out, since what it counts has changed\n" % left_out), made
        for place, expected in ((14 + counted[1] - 1, earlier), (14 + counted[0] - 1, refused)):
            changed = bytearray(data)
            changed[place] ^= 4
            (last / NAMES[0]).write_bytes(changed)
            yield "a changed byte", differs(saved(last), refused)
            yield "a changed byte, by --earlier", differs(saved(last, "--earlier"), expected)


def check(given):
    yield from given.checks(of_states, given.seed)
    for group in (of_changed_bits, with_the_commit_before):
        yield from given.checks(group, given.fitrec)
