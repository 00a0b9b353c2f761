"""Checks that each file and each name that README and docs/ cite in backquotes exists, that the map draws the crates as they are,
and that the Makefile names what is there."""

import re
import subprocess
import sys

from tools.checks import differs
from tools.program import ROOT

sys.path.insert(0, str(ROOT))
from kept import crates, used_by

NEEDS = "make",

PATH = re.compile(r"[\w.*-]+(?:/[\w.*-]+)+/?|[\w-]+\.(?:rt|antt|py|sh|md|edit|txt|c|h|fit|frj)")
NAME = re.compile(r"\w+(?:(?:::|\.)\w+)*")
# Names of other programs, of a user's files, names with a part to fill in, and what is built.
OTHERS = {"activity.fit", "activity.frj", "ride.fit", "message_N", "field_N", "developer_INDEX_NUMBER", "FRJ2", "FRJC", "FRJD", "Xvfb", "out/libfit_c.a", "out/libfit_device.a",
          "fitrec_module.c", "fitrec_module.h",
          "web/out/", "web/out/fitrec.html", "web/out/fit_c.wasm"}


def texts_of(root):
    """The text of each file that may be cited, by its path."""
    parts = ["crates", "include", "web", "device", "compare", "bench", "examples", "docs", "completions", "python", ".ci"]
    files = [it for part in parts for it in (root / part).rglob("*") if it.is_file() and "out" not in it.relative_to(root).parts]
    files += [root / it for it in ("crates.txt", "HANDLES", "fitrec", "build", "install", "CHANGELOG.md")]
    return {it: it.read_text(errors="replace") for it in files}


def is_there(root, files, cited):
    """Whether a path leads to a file or folder: from the top, or as the end of a path below it, with or without its suffix."""
    if cited in OTHERS or (root / cited).exists():
        return True
    wanted = re.compile(r"(?:.*/)?" + re.escape(cited.rstrip("/")).replace(r"\*", "[^/]*") + r"(?:\.(?:rt|antt|edit|py|sh))?(?:/.*)?")
    return any(wanted.fullmatch(it) for it in files)


def of_pages(root):
    texts = texts_of(root)
    files = [str(it.relative_to(root)) for it in texts]
    sources = [text for file, text in texts.items() if file.suffix != ".md"]
    words = set(re.findall(r"\w+", "\n".join(sources))) | {it for file in files for it in re.split(r"[/.]", file)}
    for page in [*sorted(root.glob("*.md")), *sorted((root / "docs").glob("*.md"))]:
        # Blocks are examples, which documented.py runs.
        prose = re.sub(r"(?m)^    [^\n]*$|^```.*?^```$", "", page.read_text(), flags=re.S | re.M)
        lost = []
        for cited in re.findall(r"`([^`\n]+)`", prose):
            if PATH.fullmatch(cited):
                if not is_there(root, files, cited):
                    lost.append(cited)
            elif NAME.fullmatch(cited) and cited not in OTHERS and not set(re.split(r"::|\.", cited)) <= words:
                lost.append(cited)
        yield "what %s cites is there" % page.name, differs(lost, [])


def all_below(name, used):
    return set(used[name]).union(*(all_below(it, used) for it in used[name]))


def drawn_in(text):
    """Which crates each crate of the picture leads to: those below it in the tree, and those after its arrow."""
    leads, path = {}, []
    for line in re.findall(r"(?m)^    ((?:│  |   )*(?:├─ |└─ )?)(fit\w+) (.*)$", text):
        depth, name, rest = len(line[0]) // 3, line[1], line[2]
        leads[name] = re.findall(r"fit_\w+", rest.partition("→")[2])
        path[depth:] = [name]
        if depth:
            leads[path[depth - 1]].append(name)
    return leads


def of_the_map(root):
    lines = crates(root)
    used = {name: used_by(name, lines) for name in lines if not name.endswith("_tests")}
    direct = {name: sorted(it for it in used[name] if not any(it in all_below(other, used) for other in used[name])) for name in used}
    drawn = {name: sorted(to) for name, to in drawn_in((root / "docs/ARCHITECTURE.md").read_text()).items()}
    yield "the map draws each crate over those that it stands on", differs(drawn, direct)


def of_the_makefile(root):
    text = (root / "Makefile").read_text()
    listed = run_at(root, ["make", "--no-print-directory"])
    yield "make lists each target", differs(re.findall(r"(?m)^make (\w+)", listed), re.findall(r"(?m)^\.PHONY: list (.*)$", text)[0].split())
    commands = re.findall(r"(?m)^\t(?:.* && )?(\.?[\w./-]+)", text)
    yield "what the Makefile runs is there", differs([it for it in commands if "/" in it and not (root / it).is_file()], [])


def run_at(root, words):
    return subprocess.run(words, cwd=root, stdout=subprocess.PIPE, text=True, check=True).stdout


def check(given):
    yield from given.checks(of_pages, ROOT)
    yield from given.checks(of_the_map, ROOT)
    yield from given.checks(of_the_makefile, ROOT)
