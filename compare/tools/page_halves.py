"""The page in a browser: files that look like parts of one activity, and the one that is made of them."""

import pathlib

import joining
from tools.checks import differs, unless
from tools.page_forms import MAY_LEAVE
from tools.page_people import takes
from tools.pages import START, recorded, tour
from tools.program import bytes_of, run
from tools.visits import RESCUED, WIDTHS

ASKED, JOIN, SAVE = {"evaluate": "document.getElementById('halves').innerText"}, {"click": "#halves button"}, {"download": "#save"}
TOLD = "These look like parts of one activity: %s."
# What it says in each language, and what makes one file.
SPOKEN = {"de": ("Das sieht nach Teilen einer Aktivität aus: %s.", "Zu einer Datei verbinden", "Deine Fahrt ist in einer Datei"),
          "es": ("Parecen partes de una misma actividad: %s.", "Unirlas en un archivo", "Tu salida está en un solo archivo"),
          "fr": ("On dirait les parties d’une même activité : %s.", "Les réunir en un fichier", "Votre sortie est dans un seul fichier"),
          "it": ("Sembrano parti della stessa attività: %s.", "Uniscile in un file", "La tua uscita è in un solo file")}
MORE = "The new file has the 2 parts one after another. The distance goes on, and the time between them is a pause."


def of_halves(fitrec, folder, browser):
    """Two files of one ride, of which the first was cut off, become one, as the program makes it; what is no part of it is not offered."""
    run(fitrec, "save", recorded(fitrec, folder / "ride", tour(900)), folder / "ride.fit")
    parts = joining.halves((folder / "ride.fit").read_bytes(), 400)
    names = [folder / "first.fit", folder / "second.fit"]
    whole = [folder / "1.fit", folder / "2.fit"]
    for name, rescued, part in zip(names, whole, parts):
        name.write_bytes(part)
        run(fitrec, "salvage", "--finish", "--plain", name, rescued)
    run(fitrec, "join", folder / "joined.fit", *whole)
    joined = bytes_of(folder / "joined.fit")
    said = run(fitrec, "check", folder / "joined.fit")

    def judge(shown, made):
        listed, one = shown[0], shown[2]
        yield "the list", differs([it[4] for it in listed["list"]], [RESCUED] * 2)
        yield "what is offered", differs(made[1], TOLD % "first.fit, second.fit" + "\n\nJoin them into one file")
        yield "what is made", differs((one["heading"], one["focus"]), ("Your ride is in one file", "result"))
        yield "what it says", unless(MORE in one["reason"], one["reason"], MORE)
        yield "the whole distance", differs(one["numbers"]["Distance"].split("\n")[0], "%.2f km" % (int(said[1].split("distance_cm=")[1].split()[0]) / 1e5))
        yield "it warns before it is left", differs(made[3], False)
        yield "the file is what the program makes", differs(bytes_of(pathlib.Path(made[4])), joined)
        yield "its name", differs(one["download"], "2024-11-08-ride.fit")

    steps = [{"files": names}, ASKED, JOIN, {"evaluate": MAY_LEAVE}, SAVE]
    for width, window in WIDTHS.items():
        browser.visit("halves at %s" % width, steps, judge, **window)

    def spoken(wanted):
        def judge(shown, made):
            yield "its words", differs((made[2].split("\n\n"), shown[3]["heading"]), ([wanted[0] % "first.fit, second.fit", wanted[1]], wanted[2]))
        return judge

    for language, wanted in SPOKEN.items():
        browser.visit("halves in " + language, [{"files": names}, takes("language", language), ASKED, JOIN], spoken(wanted))

    # The same file twice, one that begins before the other one ends, another sport, hours later, and after one that is fine.
    later = lambda name, source, seconds: (run(fitrec, "shift", "--by", seconds, source, folder / name), folder / name)[1]
    run(fitrec, "save", recorded(fitrec, folder / "run", ["start %d 1" % (START + 905), *("sample %d" % (START + 905 + at) for at in range(300))]),
        folder / "run.fit")
    far = ["start %d 7 cycling" % (START + 3600), *("sample %d dist=%d" % (START + 3600 + at, 9_000_000 + 500 * at) for at in range(300))]
    run(fitrec, "save", recorded(fitrec, folder / "far", far), folder / "far.fit")
    others = {"a distance that does not begin anew": [names[0], folder / "far.fit"], "one that overlaps": [names[0], later("early.fit", names[1], -5)],
              "another sport": [names[0], folder / "run.fit"], "hours later": [names[0], later("late.fit", names[1], 5 * 3600)],
              "an hour after a whole one": [whole[0], later("hour.fit", whole[1], 3600)]}

    def none(shown, made):
        yield "a list", unless(len(shown[0]["list"]) == 2, shown[0]["list"], "two")
        yield "nothing is offered", differs(made[1], "")

    for name, files in others.items():
        browser.visit(name, [{"files": files}, ASKED], none)
    yield from browser.outcomes()
