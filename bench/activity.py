"""`check`, `add` and `speak` of fit_activity for a sample of nine fields, over a list of a million."""

from tools import proved, run


def figures(work):
    program = proved(work, "activity", "fit_activity")
    rows = [[int(it) for it in run(program).split()] for _ in range(5)]
    if any(row[:3] != [1_000_000] * 3 for row in rows):
        raise SystemExit("activity: not all samples were taken")
    check, add, speak = (min(row[at] for row in rows) / 1e6 for at in (3, 4, 5))
    yield "`check`, `add`, `speak`, nine", "%.0f, %.0f, %.0f ns" % (check, add - check, speak - check)
