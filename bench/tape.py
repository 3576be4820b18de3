#!/usr/bin/env python3
"""Times 5,000 appends to the tape of a real file beside the two syncs of each alone, in one run.

    bench/tape.py [FOLDER]    on the file system of this folder, the current one if none is named

It prints the microseconds of an append, those of two syncs with the writes before them, and the ratio: the middle one of three runs by
the ratio, and the ratios of all. It ends with status 1 where the middle ratio is above 1.1. Build first: `rt run` in crates/bench_tape.
"""

import os
import subprocess
import sys
import tempfile

TOP = os.path.dirname(os.path.dirname(os.path.abspath(__file__)))
PROGRAM = os.path.join(TOP, "crates/bench_tape/out/bench_tape")
APPENDS = 5_000
MOST = 1.1


def main():
    folder = sys.argv[1] if len(sys.argv) > 1 else "."
    runs = []
    for _ in range(3):
        with tempfile.TemporaryDirectory(dir=folder) as inside:
            out = subprocess.run([PROGRAM, "time"], cwd=inside, check=True, capture_output=True, text=True).stdout
        appended, synced = (int(word) for word in out.split())
        runs.append((appended / synced, appended / APPENDS, synced / APPENDS))
    runs.sort()
    ratio, appended, synced = runs[1]
    print("an append %.1f us, two syncs %.1f us, ratio %.3f of %s" % (appended, synced, ratio, ["%.3f" % it[0] for it in runs]))
    sys.exit(ratio > MOST)


if __name__ == "__main__":
    main()
