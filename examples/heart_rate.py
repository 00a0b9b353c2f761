#!/usr/bin/env python3
"""Records what a heart-rate strap sends, once a second, into a folder by `fitrec record`. Any end keeps what was committed.

    examples/heart_rate.py FOLDER [SECONDS [PACE]]

FOLDER is made if it is missing. SECONDS is how long it records (3,600), and PACE how many seconds it waits between two samples (1)."""
import math
import pathlib
import subprocess
import sys
import time

EPOCH = 631065600  # 1989-12-31T00:00:00Z
FITREC = pathlib.Path(__file__).resolve().parent.parent / "fitrec"


def main(folder, seconds=3600, pace=1.0):
    pathlib.Path(folder).mkdir(exist_ok=True)
    ride = subprocess.Popen([FITREC, "record", folder], stdin=subprocess.PIPE, stdout=subprocess.PIPE, text=True)

    def tell(line):
        print(line, file=ride.stdin, flush=True)
        answer = ride.stdout.readline()
        print(answer, end="", flush=True)
        return answer.endswith(" ok\n")

    start = int(time.time()) - EPOCH
    if not tell(f"start {start} 1 running"):
        return 1
    for second in range(int(seconds)):
        tell(f"sample {start + second} hr={round(130 + 20 * math.sin(second / 60))}")  # a strap's reading goes here
        time.sleep(float(pace))
    tell(f"stop {start + int(seconds)}")
    ride.stdin.close()
    return ride.wait()


if len(sys.argv) not in (2, 3, 4):
    sys.exit(__doc__)
sys.exit(main(*sys.argv[1:]))
