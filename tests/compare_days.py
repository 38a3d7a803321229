#!/usr/bin/env python3
"""Runs the programs day_pool and day_journal on random days and on damaged files, and compares what they print with what
tests/reference.py works out on its own.

    python3 tests/compare_days.py [days [damaged [seed]]]

It stops at the first difference and leaves the input in the file that it names.
"""
import random
import subprocess
import sys
from pathlib import Path

from programs import built
from reference import POSTING, SCHEDULE, Store, encode, output

PROGRAMS = ((built("day_pool"), 600, 0), (built("day_journal"), 1000, 1))
POWERS = ("average", "transactions", "spin", "generation")
EDGES = (-2**31, -2_000_001, -2_000_000, -1_000_001, -1_000_000, -1, 0, 1, 1_000_000, 1_000_001, 2_000_000, 2_000_001, 2**31 - 1)


def figure(rng, name, wild):
    if rng.random() < wild:
        return rng.choice(EDGES)
    if rng.random() < 0.1:
        return 0
    if name in POWERS:
        return rng.choice((rng.randint(0, 2_000_000), rng.randint(0, 90_000), rng.randint(0, 5)))
    if name in ("rtd", "agc", "limit"):
        return rng.choice((rng.randint(-2_000_000, 2_000_000), rng.randint(-100, 90_000)))
    return rng.choice((rng.randint(-1_000_000, 1_000_000), rng.randint(-9_000, 20_000)))


def flags(rng, wild):
    if rng.random() < wild:
        return rng.randint(0, 255)
    return rng.choice((0, 0, 1, 2, 4, 8, 24, 32, 64, 96, 56, 88, 127))


def record(rng, seconds, wild):
    return {"seconds": seconds, "flags": flags(rng, wild), **{name: figure(rng, name, wild) for name in POSTING}}


def lengths(rng):
    """Lengths that add up to an hour."""
    parts = rng.choice((1, 2, 3, 4, 5, 6, 12, 13, 24))
    if rng.random() < 0.5:
        even = [3600 // parts] * parts
        even[-1] += 3600 - sum(even)
        return even
    cuts = sorted(rng.sample(range(1, 600), parts - 1))
    return [6 * (b - a) for a, b in zip([0] + cuts, cuts + [600])]


def full_hour(rng, hour, wild):
    """An hour's schedule, postings and mostly a reading, shuffled."""
    entries = []
    if rng.random() < 0.9:
        entries.append((1, hour, 0, {name: figure(rng, name, wild) for name in SCHEDULE}))
    slots = rng.sample(range(24), 24)
    idle = rng.random() < 0.1
    for slot, seconds in zip(slots, lengths(rng)):
        posted = record(rng, seconds, wild)
        if idle:
            posted["average"] = 0
        entries.append((2, hour, slot, posted))
    if rng.random() < 0.6:
        entries.append((4, hour, 0, figure(rng, "average", wild)))
    rng.shuffle(entries)
    return entries


def correction(rng, hours):
    """A late call: a correction, a withdrawal, an interval sent again, or one that is refused."""
    hour = rng.choice((rng.randrange(hours), rng.randrange(hours), rng.randint(22, 26), rng.randint(0, 255)))
    slot = rng.choice((rng.randrange(24), rng.randrange(24), rng.randint(22, 26), rng.randint(0, 255)))
    kind = rng.choice((1, 2, 2, 2, 3, 3, 4, 5))
    if kind == 1:
        return 1, hour, 0, {name: figure(rng, name, 0.05) for name in SCHEDULE}
    if kind == 2:
        return 2, hour, slot, record(rng, rng.choice((300, 300, 150, 900, 3600, 5, 6, 3601, rng.randint(0, 65535))), 0.02)
    if kind == 3:
        return 3, hour, slot, None
    return (4, hour, 0, figure(rng, "average", 0.1)) if kind == 4 else (5, hour, 0, None)


def random_day(rng):
    hours = rng.choice((23, 24, 25))
    wild = rng.choice((0, 0, 0, 0.01))
    entries = []
    for hour in rng.sample(range(hours), rng.randint(0, min(hours, 12))):
        entries += full_hour(rng, hour, wild)
    for _ in range(rng.choice((0, 3, 20, 200))):
        # mostly late, sometimes early
        at = len(entries) if rng.random() < 0.7 else rng.randint(0, len(entries))
        again = entries and rng.random() < 0.3
        entries.insert(at, rng.choice(entries) if again else correction(rng, hours))
    return encode(hours, rng.randint(0, 1), rng.randint(0, 1), entries[:1000])


def damaged(rng):
    """A file with something wrong with it, or no file at all."""
    data = bytearray(random_day(rng))
    way = rng.randrange(7)
    if way == 0:
        return bytes(rng.randrange(256) for _ in range(rng.choice((0, 1, 5, 6, 7, 58, 300))))
    if way == 1:
        return bytes(data[:rng.randint(0, len(data))])
    if way == 2:
        return bytes(data) + bytes(rng.randint(1, 60))
    if way == 3:
        return encode(24, 1, 0, [(5, 1, 0, None)] * 1000) + bytes(rng.choice((0, 52, 20_000)))
    if way == 4:
        data[rng.randrange(6)] = rng.randrange(256)
        return bytes(data)
    for _ in range(rng.randint(1, 4)):
        data[rng.randrange(len(data))] = rng.choice((0, 1, 255, rng.randrange(256)))
    return bytes(data)


def compare(data):
    for program, capacity, charge in PROGRAMS:
        expected, status = output(data, Store(capacity, charge))
        run = subprocess.run([str(program)], input=data, capture_output=True)
        if run.stdout != expected.encode() or run.returncode != status:
            bad = Path("bad.day")
            bad.write_bytes(data)
            print(f"{program.name} differs on {bad}: status {run.returncode} for {status}")
            print(f"expected:\n{expected}printed:\n{run.stdout.decode(errors='replace')}")
            return False
    return True


def main():
    days, bad, seed = [int(word) for word in sys.argv[1:]] + [500, 500, 20261118][len(sys.argv) - 1:]
    rng = random.Random(seed)
    for make, times in ((random_day, days), (damaged, bad)):
        for _ in range(times):
            if not compare(make(rng)):
                return 1
    print(f"{days} random days and {bad} damaged files: both programs print what was worked out")
    return 0


sys.exit(main())
