"""The structs of include/fitrec.h and fitrec_device.h and those of the Rattle crates: sizes, and places of the fields. A struct that C
and Rattle share has a row in STRUCTS."""

import pathlib
import re
import subprocess
import sys
import tempfile

from tools.checks import differs
from tools.program import ROOT

sys.path.insert(0, str(ROOT))
from kept import below

NEEDS = ("cc",)
# Each struct of the header with the one that the library takes for it. Of a recorder and a recovery only the first fields are the host's.
STRUCTS = {"summary": "RideSummary", "salvage_counts": "SalvageCounts", "finish_counts": "FinishCounts", "piece": "FilePiece", "value": "ValueHead", "call": "Call", "plan": "DevicePlan", "sample": "DeviceSample", "state": "DeviceState", "recorder": "Handle",
           "recovery": "RecoveryHandle"}
OTHER_NAMES = {"lon": "long"}
OWN = ("numbers",)


def rattle():
    """The fields of each struct that has the layout of C, in the crates that the libraries have, and the constants that their types name.
    A name stands for the constant of its own crate, if that has one."""
    structs, constants = {}, {}
    for crate in {*below("fit_c"), *below("fit_device")}:
        texts = [re.sub(r"//.*", "", it.read_text()) for it in (ROOT / "crates" / crate / "src").rglob("*.rt")]
        own = dict(it for text in texts for it in re.findall(r"const (\w+): usize = (\d+);", text))
        constants.update(own)
        for name, body in (it for text in texts for it in re.findall(r"#\[repr\(C\)\]\s*(?:#\[[^\]]*\]\s*)*pub struct (\w+) \{(.*?)\n\}", text, re.S)):
            lines = [line.strip() for line in body.splitlines()]
            fields = [re.fullmatch(r"(?:pub(?:\(crate\))? )?(\w+): (.*?),", line) for line in lines if not re.match(r"(pub )?ghost ", line)]
            structs[name] = [(it[1], re.sub(r"(?<=; )\w+(?=\])", lambda size: own.get(size[0], size[0]), it[2])) for it in fields if it]
    return structs, constants


def layout(kind, structs, constants):
    """The size and the alignment of a type, and the places of its fields, by the rules of C."""
    number = re.fullmatch(r"[ui](8|16|32|64)", kind)
    if number:
        return int(number[1]) // 8, int(number[1]) // 8, {}
    array = re.fullmatch(r"\[(.*); (\w+)\]", kind)
    if array:
        size, align, _ = layout(array[1], structs, constants)
        return size * int(constants.get(array[2], array[2])), align, {}
    at, most, places = 0, 1, {}
    for name, of in structs[kind]:
        size, align, _ = layout(of, structs, constants)
        at = -(-at // align) * align
        places[name], at, most = at, at + size, max(most, align)
    return -(-at // most) * most, most, places


def of_c():
    """What the C compiler makes of the header: for each struct its size, and the place of each field."""
    header = "".join((ROOT / "include" / it).read_text() for it in ("fitrec.h", "fitrec_device.h"))
    lines = []
    for name in STRUCTS:
        body = re.search(r"struct fitrec_%s \{(.*?)\};" % name, header, re.S)[1]
        fields = re.findall(r"(\w+)(?:\[\w+\])?;", re.sub(r"/\*.*?\*/", "", body, flags=re.S))
        lines.append('printf("%s sizeof %%zu\\n", sizeof(struct fitrec_%s));' % (name, name))
        lines += ['printf("%s %s %%zu\\n", offsetof(struct fitrec_%s, %s));' % (name, it, name, it) for it in fields if it not in OWN]
    with tempfile.TemporaryDirectory() as folder:
        source = pathlib.Path(folder, "layout.c")
        source.write_text("#include <fitrec.h>\n#include <stdio.h>\nint main(void) {\n%s\nreturn 0;\n}\n" % "\n".join(lines))
        subprocess.run(["cc", "-std=gnu11", "-Wall", "-Werror", "-I", ROOT / "include", source, "-o", folder + "/layout"], check=True)
        said = subprocess.run([folder + "/layout"], capture_output=True, text=True, check=True).stdout
    return [line.split() for line in said.splitlines()]


def of_the_header():
    structs, constants = rattle()
    for name, field, place in of_c():
        size, _, places = layout(STRUCTS[name], structs, constants)
        expected = size if field == "sizeof" else places.get(OTHER_NAMES.get(field, field))
        yield "the layout of the header", differs((name, field, int(place)), (name, field, expected))


def check(given):
    yield from given.checks(of_the_header)
