"""`fitrec replay` over a script of 100 MB, 1,890,000 samples of four fields, one a second, and a commit; reading such a script, by one whose
last line is wrong; and `fitrec repair` of the ride."""

from tools import START, Took, launched

SAMPLES = 1_890_000


def figures(work):
    program, script, wrong = launched(), work / "script", work / "wrong"
    with open(script, "w") as file:
        file.write("start %d 7 cycling\n" % START)
        for at in range(SAMPLES):
            file.write("sample %d hr=%d cad=%d power=%d temp=-%d\n" % (START + at, 100 + at % 80, 100 + at % 9, 1000 + at % 500, 10 + at % 90))
        file.write("commit\n")
    wrong.write_bytes(script.read_bytes() + b"lap\n")
    read = Took([program, "replay", wrong, work], status=1)
    if read.said != "fitrec: line %d: MissingWord\n" % (SAMPLES + 3):
        raise SystemExit("replay: " + read.said)

    def replayed(number):
        (work / str(number)).mkdir()
        return Took([program, "replay", script, work / str(number)], 1)

    ride = min(map(replayed, range(3)), key=lambda it: it.clock)
    what = "`fitrec replay`, 1.89 million samples of four fields"
    yield what, "{:,.0f} events/s; {:.1f} of the script in memory".format((SAMPLES + 2) / ride.clock, ride.peak / script.stat().st_size)
    yield "reading the script alone", "%.0f MB/s" % (script.stat().st_size / 1e6 / read.clock)
    repair = Took([program, "repair", work / "0"], 1)
    yield "`fitrec repair` of it", "%.1f million records/s" % (SAMPLES / 1e6 / repair.clock)
