#!/usr/bin/env python3
"""What the program worked_hour should print, worked out on its own in exact fractions.

    python3 tests/worked_hour.py | diff - crates/worked_hour/stdout
"""
from fractions import Fraction
from math import floor

LIMITS = {"rtd": 0, "agc": 0, "energy": 0}
FREE = (1, 2, 4)


def nearest(x):
    """A fraction to the nearest whole number, a half away from zero."""
    whole = floor(abs(x) + Fraction(1, 2))
    return whole if x >= 0 else -whole


def five_minutes():
    return {"seconds": 300, "flags": 4, "average": 65000, "limits": LIMITS, "transactions": 0, "spin": 0,
            "prices": (3365, 172, 0), "reserve": {"East": 0, "West": 0}}


def interval(seconds, flags, average, prices):
    return {"seconds": seconds, "flags": flags, "average": average,
            "limits": {"rtd": -40, "agc": 30000, "energy": 18000}, "transactions": 4000, "spin": 2500,
            "prices": prices, "reserve": {"East": 500, "West": 625}}


HOURS = [
    ("50 MW sold the day before, 65 MW metered, twelve intervals, East", "East",
     {"generation": 50000, "transactions": 0, "spin": 0, "prices": (2525, 306, -549)}, None,
     {slot: five_minutes() for slot in range(12)}),
    ("An interval of each scenario, a reading of 25,000 kWh, negative prices, West", "West",
     {"generation": 21000, "transactions": 3500, "spin": 3000, "prices": (3129, 210, -1)}, 25000,
     {0: interval(900, 2, 40000, (2817, 143, -61)), 1: interval(900, 32, 12000, (-1250, -38, 215)),
      2: interval(900, 64, 33333, (5019, 301, -777)), 3: interval(600, 0, 20001, (-333, 17, 0)),
      5: interval(300, 24, 7500, (-9999, -412, 1024))}),
]


def basis(edition, record, adjusted):
    flags, limits = record["flags"], record["limits"]
    wind_unlimited = flags & 8 and not flags & 16
    if any(flags & f for f in FREE) or wind_unlimited:
        kw = adjusted
    elif flags & 32:
        kw = min(adjusted, limits["rtd"])
    elif flags & 64:
        kw = min(adjusted, limits["agc"])
    else:
        kw = min(adjusted, limits["energy"])
    return max(kw, 0) if edition == "older" else kw


def cents(kw, price, seconds):
    """kW over seconds at cents per MWh."""
    return nearest(Fraction(kw, 1000) * price * Fraction(seconds, 3600))


def show_hour(title, region, row, reading, records):
    print(title)
    volume = sum(r["average"] * r["seconds"] for r in records.values())
    for edition in ("newer", "older"):
        sign = -1 if edition == "newer" else 1
        print(f"{edition} edition")
        print("  slot   adjusted      basis    balance     energy       loss congestion       spin")
        sums = [0] * 5
        for slot, r in sorted(records.items()):
            if reading is None:
                adjusted = r["average"]
            elif volume > 0:
                adjusted = nearest(Fraction(r["average"]) * reading / Fraction(volume, 3600))
            else:
                adjusted = reading
            kw = basis(edition, r, adjusted)
            balance = kw - row["generation"] - (r["transactions"] - row["transactions"])
            energy, loss, congestion = (cents(balance, p, r["seconds"]) for p in r["prices"])
            congestion *= sign
            spin = cents(r["spin"] - row["spin"], r["reserve"][region], r["seconds"])
            figures = (adjusted, kw, balance, energy, loss, congestion, spin)
            print(f"{slot:>6}" + "".join(f" {x:>10}" for x in figures))
            for at, x in enumerate((balance * r["seconds"], energy, loss, congestion, spin)):
                sums[at] += x
        net = row["generation"] - row["transactions"]
        ahead = [nearest(Fraction(net, 1000) * p) for p in row["prices"]]
        ahead[2] = -ahead[2]
        seconds = sum(r["seconds"] for r in records.values())
        assert seconds == 3600
        balancing = sums[1] + sums[2] - sign * sums[3]
        print(f"  settled, {len(records)} intervals, {seconds} seconds")
        print(f"  {'day-ahead':<10} energy {ahead[0]}, loss {ahead[1]}, congestion {ahead[2]}, total {sum(ahead)}")
        print(f"  {'balancing':<10} energy {sums[1]}, loss {sums[2]}, congestion {sums[3]}, total {balancing}")
        print(f"  balance {sums[0]} kW seconds, spin {sums[4]}, total {sum(ahead) + balancing + sums[4]}")


for at, hour in enumerate(HOURS):
    if at > 0:
        print()
    show_hour(*hour)
