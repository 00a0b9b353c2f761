"""Tries the wrong bodies of crates/NAME/wrong/in_gate: the prover has to refuse each by a goal of the function that it changes. Several are
tried in one check, of the changed functions and what they call. Those of crates/NAME/wrong are tried by hand (compare/wrong); here each has to
change a text that still stands."""

import concurrent.futures
import pathlib
import re
import sys
import tempfile
import time

from tools.checks import Check, differs, unless
from tools.edits import MOST, Edit, batches_of, merged, refused_in
from tools.program import CORES, ROOT

sys.path.insert(0, str(ROOT))
import kept

NEEDS = ("rt",)
JOBS = ["--jobs", "1"]


def bodies_of(crate):
    return sorted(pathlib.Path(crate.folder, "wrong/in_gate").glob("*.edit"))


def lost(rt, crate):
    """The names of the wrong bodies that change no text, or not just one."""
    return [it.stem for it in sorted(pathlib.Path(crate.folder, "wrong").glob("*.edit")) if not rt.read_edit(it, crate.folder)[0]]


def tried(rt, crate, waits):
    """The checks of a crate's wrong bodies, once the gate has proved the crate if they wait for that."""
    while waits and not kept.has_passed(crate.name, kept.sources()):
        time.sleep(5)
    edits = [Edit(it, crate.folder, rt.read_edit(it, crate.folder)[0]) for it in bodies_of(crate)]
    found = [Check(crate.name, it.path.stem, unless(it.function, "another edit", "a change of one function")) for it in edits if not it.function]
    with tempfile.TemporaryDirectory(prefix="wrong-") as work:
        left = batches_of([it for it in edits if it.function], MOST)
        while left:
            batch = left.pop(0)
            texts, functions = merged(batch, crate.folder), ["--only=" + it.function_path for it in batch]
            ran = rt.checked(crate, texts, [*JOBS, *functions], work)
            refused = refused_in(rt, batch, texts, ran) or {}
            # Another wrong body may hide what is wrong with one that calls it.
            left += [[it] for it in batch if it not in refused and len(batch) > 1]
            said = "\n".join(it for it in ran.stdout.splitlines() if re.search(r"\berror\b|\bnot proved\b", it))
            for it in batch if len(batch) == 1 else refused:
                wanted = "a goal of %s that is not proved" % it.function_path
                found.append(Check(crate.name, it.path.stem, unless(it in refused, said or ran.stdout[-1000:], wanted)))
    return found


def check(given):
    rt = kept.load_rt()
    rt.rtlib.guarded()
    named = [it for it in rt.rtlib.crates_below(str(ROOT)) if not given.groups or it.name in given.groups]
    for crate in named:
        yield crate.name + ", texts that wrong bodies change", differs(lost(rt, crate), [])
    crates = [it for it in named if bodies_of(it)]
    # The gate proves them in this order.
    crates.sort(key=lambda it: len(it.below()))
    for crate in () if given.waits else crates:
        if not kept.are_proved(crate.below()):
            yield "the crates below " + crate.name, differs([it.name for it in crate.below() if it.build_rlib(JOBS, anew=False)], [])
    with concurrent.futures.ThreadPoolExecutor(CORES) as pool:
        for found in pool.map(lambda it: tried(rt, it, given.waits), crates):
            yield from found
