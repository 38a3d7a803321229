#!/usr/bin/env python3
"""Instructions for one read, write and taking away in stores of several sizes, counted by valgrind's callgrind.

    python3 bench/store_costs.py

The program is run twice, the second time doing the same thing oftener; the difference, divided by how much oftener, is
what one costs. A taking away is counted together with the write before it, and the write is subtracted.
"""
import re
import subprocess
import sys
import tempfile
from pathlib import Path

sys.path.insert(0, str(Path(__file__).resolve().parent.parent / "tests"))
from programs import built  # noqa: E402

PROGRAM = built("store_costs")
FEW, MANY = 120, 360


def instructions(*words):
    with tempfile.TemporaryDirectory() as scratch:
        run = subprocess.run(["valgrind", "--tool=callgrind", f"--callgrind-out-file={scratch}/out", str(PROGRAM), *words],
                             capture_output=True, text=True, check=True)
    return int(re.search(r"Collected : (\d+)", run.stderr).group(1))


def cost(kind, places, what):
    counts = [instructions(kind, str(places), what, str(times)) for times in (FEW, MANY)]
    return (counts[1] - counts[0]) / (MANY - FEW)


print("kind     places    read   write    take")
for kind, places in (("pool", 24), ("pool", 600), ("pool", 4096), ("journal", 1000), ("journal", 4096)):
    read, write, both = (cost(kind, places, what) for what in ("read", "write", "take"))
    print(f"{kind:<8} {places:>6} {read:>7.1f} {write:>7.1f} {both - write:>7.1f}")
