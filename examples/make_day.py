#!/usr/bin/env python3
"""Turns the description of a day into a day file.

    python3 examples/make_day.py examples/worked.txt > worked.day
    python3 examples/make_day.py examples/corrections.txt older > corrections_older.day

A second word is the edition, in the place of the description's. A description has a line for each fact. Empty lines and what follows a # are passed over.

    day HOURS EDITION REGION                    23, 24 or 25; older or newer; East or West
    schedule HOUR GENERATION TRANSACTIONS SPIN ENERGY LOSS CONGESTION
    post HOUR SLOT SECONDS FLAGS AVERAGE RTD AGC LIMIT TRANSACTIONS SPIN ENERGY LOSS CONGESTION EAST WEST
    withdraw HOUR SLOT
    read HOUR KWH
    unread HOUR

A slot may be a range, as 0-11: then the line stands for one call for each slot.
"""
import struct
import sys


def calls(words):
    """The keys and bodies of the entries that a line stands for."""
    kind, hour, rest = words[0], int(words[1]), words[2:]
    if kind == "schedule":
        return [(bytes([1, hour, 0, 0]), struct.pack(">6i", *map(int, rest)))]
    if kind == "read":
        return [(bytes([4, hour, 0, 0]), struct.pack(">i", int(rest[0])))]
    if kind == "unread":
        return [(bytes([5, hour, 0, 0]), b"")]
    first, _, last = rest[0].partition("-")
    slots = range(int(first), int(last or first) + 1)
    if kind == "withdraw":
        return [(bytes([3, hour, slot, 0]), b"") for slot in slots]
    if kind != "post":
        sys.exit(f"no such line: {' '.join(words)}")
    seconds, flags, *figures = map(int, rest[1:])
    return [(bytes([2, hour, slot, 0]), struct.pack(">HBx11i", seconds, flags, *figures)) for slot in slots]


def main():
    header, entries = b"", []
    for line in open(sys.argv[1], encoding="utf-8"):
        words = line.split("#")[0].split()
        if not words:
            continue
        if words[0] == "day":
            edition = ["older", "newer"].index((sys.argv[2:] or words[2:])[0])
            region = ["East", "West"].index(words[3])
            header = bytes([int(words[1]), edition, region, 0])
        else:
            entries += calls(words)
    keys = b"".join(key for key, _ in entries)
    bodies = b"".join(body.ljust(48, b"\0") for _, body in entries)
    sys.stdout.buffer.write(header + struct.pack(">H", len(entries)) + keys + bodies)


main()
