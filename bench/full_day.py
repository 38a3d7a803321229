#!/usr/bin/env python3
"""Instructions that a full day takes, against a plain Rust program with a directly indexed table.

    python3 bench/full_day.py

The day has 25 hours, a schedule row and a reading for each, 600 postings that settle every hour, and 350 corrections of
postings: 1,000 calls in all. Counted by valgrind's callgrind; the peer is bench/peer/main.rs, built by rustc -O.
"""
import random
import re
import subprocess
import sys
import tempfile
from pathlib import Path

ROOT = Path(__file__).resolve().parent.parent
sys.path.insert(0, str(ROOT / "tests"))
from programs import built  # noqa: E402
from reference import POSTING, SCHEDULE, encode  # noqa: E402


def figure(rng, name):
    if name in ("rtd", "agc", "limit", "average", "transactions", "spin", "generation"):
        return rng.randint(0, 90_000)
    return rng.randint(-9_000, 20_000)


def posting(rng, hour, slot):
    flags = rng.choice((0, 4, 8, 24, 32, 64))
    return 2, hour, slot, {"seconds": 150, "flags": flags, **{name: figure(rng, name) for name in POSTING}}


def full_day(rng):
    entries = []
    for hour in range(25):
        entries.append((1, hour, 0, {name: figure(rng, name) for name in SCHEDULE}))
        entries.append((4, hour, 0, rng.randint(0, 90_000)))
        entries += [posting(rng, hour, slot) for slot in range(24)]
    entries += [posting(rng, rng.randrange(25), rng.randrange(24)) for _ in range(350)]
    return encode(25, 1, 0, entries)


def instructions(program, data, scratch):
    run = subprocess.run(["valgrind", "--tool=callgrind", f"--callgrind-out-file={scratch}/out", str(program)],
                         input=data, capture_output=True, check=True)
    return run.stdout, int(re.search(rb"Collected : (\d+)", run.stderr).group(1))


with tempfile.TemporaryDirectory() as scratch:
    peer = Path(scratch) / "peer"
    subprocess.run(["rustc", "-O", "-o", str(peer), str(ROOT / "bench" / "peer" / "main.rs")], check=True)
    data = full_day(random.Random(20261118))
    expected, least = instructions(peer, data, scratch)
    print(f"{'peer':<12} {least:>12,}")
    for name in ("day_pool", "day_journal"):
        printed, count = instructions(built(name), data, scratch)
        if printed != expected:
            sys.exit(f"{name} prints something else than the peer")
        print(f"{name:<12} {count:>12,}  {count / least:.2f} times the peer")
