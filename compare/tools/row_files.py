"""The rows of compare/rows: what a folder holds, a command, and what it has to do.

A row begins with `= NAME` and has a new folder, in which the program runs. Each line of it is a word and its arguments. The lines
below it that are indented by four blanks belong to it. Lines that begin with `#` are comments. What the folder holds:

    bytes FILE      a file of these bytes, in hexadecimal
    records FILE    a file of these records, in hexadecimal, after a header of 14 bytes and with right checksums
    lines FILE      a file of these lines
    text FILE TEXT  a file of this text, in which each of \\n, \\r, \\t and \\xFF is one byte
    folder NAME     a folder
    remove FILE     a file that was there is removed

What is run:

    run WORDS       the program with these words, which are quoted as in a shell; it prints exactly these lines, or, if
                    the first is `...`, the others at the end; the lines of a table end with CR and LF
    status N        its exit status, 0 if none is given
    error LINE      what it prints on standard error, nothing if no line is given
    named TEXT      what it prints on standard error contains this

What the folder holds now:

    left FILE       a file of exactly these bytes, in hexadecimal
    size N FILE     a file of so many bytes
    there NAME      something has this name
    absent NAME     nothing has this name"""

from tools.program import ROOT

ROWS = ROOT / "compare/rows"


class Step:
    """A line of a row and the lines that belong to it; for a run, also what it has to print."""

    def __init__(self, number, word, about):
        self.number, self.word, self.about, self.lines = number, word, about, []
        self.status, self.error, self.named = 0, "", []

    def wants(self, word, about):
        match word:
            case "status":
                self.status = int(about)
            case "error":
                self.error += about + "\n"
            case "named":
                self.named.append(about)

    def text(self):
        return "".join(line + "\n" for line in self.lines)

    def bytes(self):
        return bytes.fromhex(self.text())


def rows_of(text):
    """The names and the steps of the rows of a file."""
    rows, empty = [], 0
    for number, line in enumerate(text.splitlines(), 1):
        word, _, about = line.partition(" ")
        if line.startswith("    "):
            # Empty lines between two lines of a step belong to it too.
            rows[-1][1][-1].lines += [""] * empty + [line[4:]]
        elif word == "=":
            rows.append((about, []))
        elif word in ("status", "error", "named"):
            if rows[-1][1][-1].word != "run":
                raise ValueError("line %d: no run before it: %s" % (number, line))
            rows[-1][1][-1].wants(word, about)
        elif line and word != "#":
            rows[-1][1].append(Step(number, word, about))
        empty = 0 if line else empty + 1
    return rows
