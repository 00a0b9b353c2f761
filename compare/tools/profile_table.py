"""The tables of the public FIT Profile, python/fitrec/profile.txt and enums.txt, as these checks read them."""

from tools.program import ROOT

TABLE = ROOT / "python/fitrec/profile.txt"
ENUMS = ROOT / "python/fitrec/enums.txt"


def titles_of(path=TABLE):
    """The name of each message, by its number."""
    lines = [it.split() for it in path.read_text().splitlines() if not it.startswith((" ", "#"))]
    return {int(number): title for number, title in lines}


def rows_of(path=TABLE):
    """Of each field, by the numbers of its message and its own: the name of the message, the name, the unit, the scale and the offset."""
    found = {}
    for line in path.read_text().splitlines():
        words = line.split()
        if line.startswith(" "):
            name, unit, scale, offset = [*words[1:], *["-", "1", "0"][len(words) - 2:]]
            found[message, int(words[0])] = title, name, "" if unit == "-" else unit, float(scale), float(offset)
        elif not line.startswith("#"):
            message, title = int(words[0]), words[1]
    return found


def enums_of(path=ENUMS):
    """Of each type, by its name, the fields that have it, and the name of each value."""
    found = {}
    for line in path.read_text().splitlines():
        words = line.split()
        if line.startswith(" "):
            number, name = words
            names[int(number)] = name
        elif not line.startswith("#"):
            names = {}
            found[words[0]] = words[1:], names
    return found
