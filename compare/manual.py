"""Checks what is made from the help of the program: the man page and the completions are those that `completions/make` makes, and each
shell completes by them. `fitrec version` names what README and CHANGELOG name."""

import os
import pathlib
import re
import subprocess
import tempfile

from tools.checks import Skipped, differs, unless
from tools.needs import is_there, missing
from tools.program import ROOT, run

NEEDS = ("fitrec", "man", "fish", "zsh")
MADE = ["docs/fitrec.1", "completions/fitrec.bash", "completions/_fitrec", "completions/fitrec.fish"]


def of_the_help():
    with tempfile.TemporaryDirectory() as folder:
        run(ROOT / "completions/make", folder)
        for name in MADE:
            yield "made from the help", differs((ROOT / name).read_text(), pathlib.Path(folder, name).read_text())


def of_the_page():
    status, text, warnings = run("man", "--warnings", "-l", ROOT / "docs/fitrec.1", env={"PATH": "/usr/bin:/bin", "LC_ALL": "C", "MANWIDTH": "100"})
    yield "man page: no warning", differs((status, warnings), (0, ""))
    yield "man page: commands", unless(
        all("fitrec " + word in text for word in ("show", "record", "save", "version")), text, "each command")


# The words of a command line, the last of which is completed, and what comes of it.
ASKED = [(["sa"], ["salvage", "save"]), (["rec"], ["record"]), (["show", "--"], ["--gpx", "--help", "--json", "--profile", "--utc"]), (["help", "ver"], ["version"]),
         (["record", "--c"], ["--commit"])]
# The name of a file, what is typed of it, and what the program then gets.
TYPED = [("one.fit", "show on"), ("a long ride.fit", "show a"), ("a long ride.fit", r"show a\ l"), ("a long ride.fit", 'show "a l'), ("it's (1).fit", "plain it")]


def of_bash():
    script = "source %s; COMP_WORDS=(fitrec \"$@\"); COMP_CWORD=$#; _fitrec; printf '%%s\\n' \"${COMPREPLY[@]}\"" % (ROOT / "completions/fitrec.bash")
    for words, answers in ASKED:
        said = run("bash", "-c", script, "bash", *words)[1].split()
        yield "completed by bash", differs(sorted(said), answers)
    for name, line in TYPED:
        yield "a name completed by bash", differs(typed(name, line), [line.split()[0], name])


def typed(name, line):
    """The words that the program gets of a line that is typed with a tab at its end, in a folder with a file of this name."""
    with tempfile.TemporaryDirectory() as folder:
        pathlib.Path(folder, "files").mkdir()
        pathlib.Path(folder, "files", name).touch()
        begin = "source %s; fitrec() { printf '%%s\\n' \"$@\" >../got; exit; }; cd files\n" % (ROOT / "completions/fitrec.bash")
        ours, its = os.openpty()
        words = ["bash", "--noprofile", "--norc", "-i"]
        how = {"cwd": folder, "start_new_session": True, "env": {"PATH": os.environ["PATH"], "TERM": "dumb"}}
        with subprocess.Popen(words, stdin=its, stdout=its, stderr=its, **how) as shell:
            os.close(its)
            os.write(ours, (begin + "fitrec " + line + "\t\n").encode())
            try:
                shell.wait(20)
            except subprocess.TimeoutExpired:
                shell.kill()
        os.close(ours)
        got = pathlib.Path(folder, "got")
        return got.read_text().splitlines() if got.exists() else []


def of_other_shells():
    for words, answers in [] if missing("fish") else ASKED[:2] + ASKED[4:]:
        line = "complete -C 'fitrec %s'" % " ".join(words)
        said = run("fish", "--no-config", "-c", "source %s; %s" % (ROOT / "completions/fitrec.fish", line))
        yield "completed by fish", differs(([it.split("\t")[0] for it in said[1].splitlines()], said[2]), (answers, ""))
    if missing("fish"):
        yield "completed by fish", missing("fish")
    yield "read by zsh", missing("zsh") or differs(run("zsh", "-n", ROOT / "completions/_fitrec"), (0, "", ""))


def of_the_version(fitrec):
    version = re.search(r"^## (\S+)", (ROOT / "CHANGELOG.md").read_text(), re.M)[1]
    stated = "%s logic %s\n" % re.search(r"\((rattle-kit-\w+), logic (\w+)\)", (ROOT / "README.md").read_text()).groups()
    here = run("rt", "version")[1] if is_there("rt") else stated
    said = run(fitrec, "version")
    # What `./build` makes names the kit that is here, what `rt ci` makes the one of the sources.
    wanted = [(0, "fitrec %s\n%s" % (version, kit.replace(" ", "\n", 1)), "") for kit in (stated, here)]
    yield "version", unless(said in wanted, said, wanted)
    if here != stated:
        yield "version of the kit", Skipped("README names %s, and here is %s" % (stated.strip(), here.strip()))


def check(given):
    for group in (of_the_help, of_the_page, of_bash, of_other_shells):
        yield from given.checks(group)
    yield from given.checks(of_the_version, given.fitrec)
