#!/usr/bin/env python3
"""What the program worked_calls should print, worked out on its own in exact fractions.

    python3 tests/worked_calls.py | diff - crates/worked_calls/stdout
"""
from reference import Day, Store

HOUR = 7
LAYERS = {"B": "statement", "S": "store"}
NOTHING = {name: 0 for name in ("rtd", "agc", "limit", "transactions", "spin", "congestion", "east", "west")}
FIVE_MINUTES = {**NOTHING, "seconds": 300, "flags": 4, "average": 65000, "energy": 3365, "loss": 172}
SOLD = {"generation": 50000, "transactions": 0, "spin": 0, "energy": 2525, "loss": 306, "congestion": -549}


def interval(seconds, flags, average, energy, loss, congestion):
    return {"seconds": seconds, "flags": flags, "average": average, "rtd": -40, "agc": 30000, "limit": 18000,
            "transactions": 4000, "spin": 2500, "energy": energy, "loss": loss, "congestion": congestion,
            "east": 500, "west": 625}


HOURS = [
    ("50 MW sold the day before, 65 MW metered, twelve intervals, East", False, SOLD, None,
     {slot: FIVE_MINUTES for slot in range(12)}),
    ("An interval of each scenario, a reading of 25,000 kWh, negative prices, West", True,
     {"generation": 21000, "transactions": 3500, "spin": 3000, "energy": 3129, "loss": 210, "congestion": -1}, 25000,
     {0: interval(900, 2, 40000, 2817, 143, -61), 1: interval(900, 32, 12000, -1250, -38, 215),
      2: interval(900, 64, 33333, 5019, 301, -777), 3: interval(600, 0, 20001, -333, 17, 0),
      5: interval(300, 24, 7500, -9999, -412, 1024)}),
]


def quarter(average):
    return {**FIVE_MINUTES, "seconds": 900, "average": average}


CORRECTED = [("schedule", HOUR, 0, SOLD)]
CORRECTED += [("post", HOUR, slot, quarter(kw)) for slot, kw in ((0, 52000), (1, 60000), (2, 48000), (3, 40000))]
CORRECTED += [
    ("ask", HOUR), ("read", HOUR, 0, 51000), ("ask", HOUR), ("read", HOUR, 0, 50500), ("ask", HOUR),
    ("post", HOUR, 2, quarter(50000)), ("post", HOUR, 2, quarter(50000)), ("figures", HOUR, 2),
    ("post", HOUR, 4, FIVE_MINUTES), ("withdraw", HOUR, 3, None), ("withdraw", HOUR, 3, None), ("figures", HOUR, 3),
    ("figures", HOUR, 0), ("ask", HOUR), ("post", HOUR, 3, quarter(40000)), ("schedule", 24, 0, SOLD), ("day",)]


def show_figures(day, hour, slot):
    figures = day.figures(hour, day.store.records(hour)[slot])
    print(f"{slot:>6}" + "".join(f" {x:>10}" for x in figures))


def show_line(line, state):
    print(f"  {state}, {line['intervals']} intervals, {line['seconds']} seconds")
    print(f"  {'day-ahead':<10} energy {line['ahead_energy']}, loss {line['ahead_loss']}, "
          f"congestion {line['ahead_congestion']}, total {line['ahead']}")
    print(f"  {'balancing':<10} energy {line['energy']}, loss {line['loss']}, "
          f"congestion {line['congestion']}, total {line['balancing']}")
    print(f"  balance {line['balance']} kW seconds, spin {line['spin']}, total {line['total']}")


def show_hour_line(day, hour):
    line = day.line(hour)
    show_line(line, "settled" if line["settled"] else "unsettled")


def show_hour(title, west, row, reading, records):
    print(title)
    for edition in ("newer", "older"):
        day = Day(24, edition == "newer", west, Store(24, 0))
        assert day.schedule(HOUR, 0, row) is None
        assert reading is None or day.read(HOUR, 0, reading) is None
        for slot, record in records.items():
            assert day.post(HOUR, slot, record) is None
        print(f"{edition} edition")
        print("  slot   adjusted      basis    balance     energy       loss congestion       spin")
        for slot in sorted(records):
            show_figures(day, HOUR, slot)
        show_hour_line(day, HOUR)


def show_refusal(layer, number, hour, slot):
    print(f"refused by the {LAYERS[layer]}: {number}, hour {hour}, slot {slot}")


def show_call(day, kind, *args):
    if kind == "day":
        print("ask for the day: ")
        line = day.day()
        show_line(line, f"{line['settled']} settled")
    elif kind == "ask":
        print(f"ask for hour {args[0]}: ")
        show_hour_line(day, args[0])
    elif kind == "figures":
        hour, slot = args
        print(f"ask for hour {hour}, slot {slot}: ", end="")
        if slot not in day.store.records(hour):
            show_refusal("B", 13, hour, slot)
        elif not day.settled(hour):
            show_refusal("B", 15, hour, slot)
        else:
            print()
            show_figures(day, hour, slot)
    else:
        hour, slot, figures = args
        words = {"schedule": f"schedule hour {hour}: ", "post": f"post hour {hour}, slot {slot}: ",
                 "withdraw": f"withdraw hour {hour}, slot {slot}: ", "read": f"read hour {hour}, {figures} kWh: "}
        print(words[kind], end="")
        refusal = day.call(kind, hour, slot, figures)
        if refusal is None:
            print("done")
        else:
            show_refusal(*refusal)


for hour in HOURS:
    show_hour(*hour)
    print()
print("An hour corrected call by call, the newer edition, East")
corrected = Day(24, True, False, Store(24, 0))
for call in CORRECTED:
    show_call(corrected, *call)
