"""Wrong bodies as edits of the sources: the function that an edit changes, several edits in one text, and which of them a check refuses."""

import os
import pathlib
import re

# The most edits in one check. Each failed search takes memory.
MOST = 16
# A goal at a place of a source, and a line on the proof of one function.
PLACE = re.compile(r"(?:note: )?(?:\./)?(src/\S+?):(\d+):\d+: .*(\bnot proved\b|\bfound no proof\b)")
PROOF = re.compile(r"(?:\./)?proofs/(\S+?)(?:/[A-Z]\w*)?/\+?(\w+)/\w+\.antt:\d+:\d+: (.*)")
# What is printed for a proof that was not checked, because something that it names does not exist.
LOST = re.compile(r"not admitted|not checked|was rejected|not in scope|has no ")
# What is printed of those that name a declaration that failed, which has a line of its own.
BELOW = re.compile(r"error: \d+ declarations? that depends? on `[^`]*`, which was rejected, w(?:as|ere) not checked")


def functions_of(text):
    """For each function its name, its first line (that of its attributes, if it has any), the line of its body's `{` and its last line.
    Relies on the layout of rt fmt."""
    lines, found, after = text.split("\n"), [], 0
    for first, line in enumerate(lines):
        head = re.match(r'( {0,4})(?:[\w()"]+ )*fn (\w+)', line)
        # A trait's function without a body ends with a semicolon.
        begins = next((it for it in lines[first:] if it.endswith(("{", ";"))), "")
        if head and first >= after and begins.endswith("{") and f"{head[1]}}}" in lines[first:]:
            after = lines.index(f"{head[1]}}}", first)
            opens = [i for i in range(first, after) if lines[i] == f"{head[1]}{{"]
            opens += [i for i in range(first, after) if lines[i].endswith(" {")]
            opens += [first]
            while first and lines[first - 1].startswith(f"{head[1]}#["):
                first -= 1
            found.append((head[2], first, opens[0], after))
    return found


def owner_of(line):
    """What a check prints for the type of an `impl`: with the types that it is given, and with its trait if it has one."""
    line, is_generic = line.removeprefix("impl").partition(" where ")[0].removesuffix(" {"), line.startswith("impl<")
    line = re.sub(r"'\w+(?:, )?", "", line)
    while "<" in line:
        line = re.sub(r"<([^<>]*)>", lambda it: "" if is_generic or not it[1] else "+" + it[1], line)
    return "".join(it.strip().rpartition("::")[2] for it in reversed(line.split(" for ")))


def path_of(file, text, name, first):
    """What `rt check --only` takes for a function: its path below the crate, or a method's type and name."""
    lines, modules = text.split("\n"), file.removeprefix("src/").removesuffix(".rt").split("/")
    owners = [it for it in lines[:first] if it.startswith("impl")] if lines[first].startswith(" ") else []
    return "::".join([*([owner_of(it) for it in owners[-1:]] or [it for it in modules if it not in ("lib", "main", "mod")]), name])


class Edit:
    """An edit, and the one function whose body it changes, if there is one."""

    def __init__(self, path, folder, texts):
        """An edit of a crate's folder that gives these files these texts. The texts are None if it cannot be read."""
        self.path, self.function = path, None
        if len(texts or []) != 1 or not [*texts][0].startswith("src/"):
            return
        (self.file, new), = texts.items()
        old = pathlib.Path(folder, self.file).read_text(encoding="utf-8")
        start = len(os.path.commonprefix([old, new]))
        after = len(os.path.commonprefix([old[start:][::-1], new[start:][::-1]]))
        self.span, self.new = (start, len(old) - after), new[start:len(new) - after]
        first, last = (old.count("\n", 0, at) for at in self.span)
        for number, (name, head, opens, ends) in enumerate(functions_of(old)):
            if opens < first and last < ends:
                self.name, self.function, self.function_path = name, (self.file, number), path_of(self.file, old, name, head)


def batches_of(edits, most):
    """Batches with at most one edit for each function, and at most so many edits."""
    batches = []
    for it in edits:
        fits = [b for b in batches if len(b) < most and it.function not in [other.function for other in b]]
        if fits:
            fits[0].append(it)
        else:
            batches.append([it])
    return batches


def merged(batch, folder):
    """The texts of the files with all edits of the batch."""
    texts = {}
    for it in sorted(batch, key=lambda it: it.span, reverse=True):
        text = texts.get(it.file) or pathlib.Path(folder, it.file).read_text(encoding="utf-8")
        texts[it.file] = text[:it.span[0]] + it.new + text[it.span[1]:]
    return texts


def refused_in(rt, batch, texts, ran):
    """The edits of a batch that were refused by a goal of their own, with its place. None if nothing was judged."""
    lines = ran.stdout.rstrip("\n").split("\n")
    if ran.returncode != 1 or not lines[-1].startswith(("logic=not-proved", "only=")) or any(rt.unread(it, texts) for it in lines):
        return None
    places = [(at[1], int(at[2])) for at in map(PLACE.match, lines) if at]
    proofs = [((f"src/{at[1]}.rt", at[2]), at[3]) for at in map(PROOF.match, lines) if at and not BELOW.match(at[3])]
    lost = [at for at, words in proofs if LOST.search(words)]
    failed = [at for at, words in proofs if words.startswith("error") and at not in lost]
    found = {}
    for it in batch:
        functions = functions_of(texts[it.file])
        name, first, _, last = functions[it.function[1]]
        own = [f"{file}:{line}" for file, line in places if file == it.file and first < line <= last + 1]
        is_only = [other[0] for other in functions].count(name) == 1
        own += [f"an answer of {name}"] * (is_only and (it.file, name) in failed)
        if name == it.name and own and (it.file, name) not in lost:
            found[it] = own[0]
    return found
