#!/usr/bin/env python3
"""The days of examples/: makes their files and what they should print anew, or compares the programs with them.

    python3 tests/examples.py --make      writes examples/*.day and examples/*.out from the descriptions
    python3 tests/examples.py             runs both programs on each day and compares

What should be printed is worked out by tests/reference.py; for the files of examples/refused.txt by hand.
"""
import subprocess
import sys
from pathlib import Path

from reference import Store, output

ROOT = Path(__file__).resolve().parent.parent
EXAMPLES = ROOT / "examples"
DAYS = (("worked", None), ("corrections", "newer"), ("corrections", "older"))


def name(day, edition):
    return day if edition is None else f"{day}_{edition}"


def make(day, edition):
    words = [str(EXAMPLES / f"{day}.txt")] + ([] if edition is None else [edition])
    made = subprocess.run([sys.executable, str(EXAMPLES / "make_day.py"), *words], capture_output=True, check=True).stdout
    (EXAMPLES / f"{name(day, edition)}.day").write_bytes(made)
    (EXAMPLES / f"{name(day, edition)}.out").write_text(output(made, Store(600, 0))[0])


def same(day, edition):
    data = (EXAMPLES / f"{name(day, edition)}.day").read_bytes()
    expected = (EXAMPLES / f"{name(day, edition)}.out").read_bytes()
    good = True
    for program in ("day-pool", "day-journal"):
        run = subprocess.run([str(ROOT / program)], input=data, capture_output=True)
        if run.stdout != expected or run.returncode != 0:
            print(f"{program} prints something else for {name(day, edition)}")
            good = False
    return good


def refused():
    """(the line printed, the bytes) of each file that is refused as a whole."""
    for line in (EXAMPLES / "refused.txt").read_text().splitlines():
        expected, _, written = line.partition("#")[0].partition(":")
        if expected.strip():
            parts = [part.partition("*") for part in written.split()]
            yield expected, b"".join(bytes.fromhex(byte) * int(times or 1) for byte, _, times in parts)


def same_refusal(expected, data):
    good = True
    for program in ("day-pool", "day-journal"):
        run = subprocess.run([str(ROOT / program)], input=data, capture_output=True)
        if run.stdout != f"{expected}\n".encode() or run.returncode != 1:
            print(f"{program} prints something else than {expected}, or does not end with status 1")
            good = False
    return good


if sys.argv[1:] == ["--make"]:
    for each in DAYS:
        make(*each)
elif not all([same(*each) for each in DAYS] + [same_refusal(*each) for each in refused()]):
    sys.exit(1)
else:
    print(f"{len(DAYS)} stored days, {len(list(refused()))} refused files: both programs print what is stored")
