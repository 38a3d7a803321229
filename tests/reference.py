"""The day of a power station worked out on its own, in exact fractions: the tests' second opinion.

It shares no code with the crates, and keeps only what was last accepted: every line is worked out afresh when it is asked
for.
"""
from fractions import Fraction
from math import floor

POWER = (0, 2_000_000)
BASEPOINT = (-2_000_000, 2_000_000)
PRICE = (-1_000_000, 1_000_000)
HEADING = "HOUR,STATE,DAY_AHEAD,ENERGY,LOSS,CONGESTION,SPIN,TOTAL"
# The fields of a posting after its seconds and flags, and those of a schedule row, as they stand in a day file.
POSTING = ("average", "rtd", "agc", "limit", "transactions", "spin", "energy", "loss", "congestion", "east", "west")
SCHEDULE = ("generation", "transactions", "spin", "energy", "loss", "congestion")
PRICES = ("energy", "loss", "congestion", "east", "west")


def nearest(x):
    """A fraction to the nearest whole number, a half away from zero."""
    whole = floor(abs(x) + Fraction(1, 2))
    return whole if x >= 0 else -whole


def cents(kw, price, seconds):
    """kW over seconds at cents per MWh."""
    return nearest(Fraction(kw, 1000) * price * Fraction(seconds, 3600))


def within(x, limits):
    return limits[0] <= x <= limits[1]


def bad_prices(figures):
    return any(not within(figures[p], PRICE) for p in PRICES if p in figures)


def bad_record(r):
    """The number of the first limit that a record breaks, or None."""
    if not 6 <= r["seconds"] <= 3600:
        return 7
    if r["flags"] > 127 or (r["flags"] & 16 and not r["flags"] & 8):
        return 8
    if any(not within(r[p], POWER) for p in ("average", "transactions", "spin")):
        return 9
    if any(not within(r[p], BASEPOINT) for p in ("rtd", "agc", "limit")):
        return 9
    return 10 if bad_prices(r) else None


def bad_row(g):
    if any(not within(g[p], POWER) for p in ("generation", "transactions", "spin")):
        return 9
    return 10 if bad_prices(g) else None


class Store:
    """What stands in each slot of each hour, and what is spent; a rewrite costs the charge."""

    def __init__(self, capacity, charge):
        self.capacity, self.charge, self.spent, self.standing = capacity, charge, 0, {}

    def write(self, hour, slot, record):
        cost = self.charge if (hour, slot) in self.standing else 1
        if self.spent + cost > self.capacity:
            return False
        self.spent += cost
        self.standing[hour, slot] = record
        return True

    def take(self, hour, slot):
        if self.charge == 1 and self.spent + 1 > self.capacity:
            return False
        self.spent += 1 if self.charge == 1 else -1
        del self.standing[hour, slot]
        return True

    def records(self, hour):
        return {s: r for (h, s), r in sorted(self.standing.items()) if h == hour}


class Day:
    """The plain book of a day. A call answers None, or its refusal: layer, number, hour, slot."""

    def __init__(self, hours, newer, west, store):
        self.hours, self.newer, self.west, self.store = hours, newer, west, store
        self.rows, self.readings = {}, {}

    def call(self, kind, hour, slot, figures):
        if hour >= self.hours:
            return "B", 5, hour, slot
        number = getattr(self, kind)(hour, slot, figures)
        if number is None:
            return None
        return ("S" if number == 12 else "B"), number, hour, slot

    def schedule(self, hour, _slot, row):
        number = bad_row(row)
        if number is None:
            self.rows[hour] = row
        return number

    def post(self, hour, slot, record):
        if slot > 23:
            return 6
        number = bad_record(record)
        if number is not None:
            return number
        others = sum(r["seconds"] for s, r in self.store.records(hour).items() if s != slot)
        if others + record["seconds"] > 3600:
            return 11
        return None if self.store.write(hour, slot, record) else 12

    def withdraw(self, hour, slot, _):
        if slot > 23:
            return 6
        if (hour, slot) not in self.store.standing:
            return 13
        return None if self.store.take(hour, slot) else 12

    def read(self, hour, _slot, kwh):
        if not within(kwh, POWER):
            return 14
        self.readings[hour] = kwh
        return None

    def unread(self, hour, _slot, _):
        return None if self.readings.pop(hour, None) is not None else 13

    def settled(self, hour):
        return hour in self.rows and sum(r["seconds"] for r in self.store.records(hour).values()) == 3600

    def adjusted(self, hour, record):
        reading = self.readings.get(hour)
        volume = sum(r["average"] * r["seconds"] for r in self.store.records(hour).values())
        if reading is None:
            return record["average"]
        return nearest(Fraction(3600 * record["average"] * reading, volume)) if volume > 0 else reading

    def basis(self, record, adjusted):
        flags = record["flags"]
        if flags & 7 or (flags & 8 and not flags & 16):
            kw = adjusted
        elif flags & 32:
            kw = min(adjusted, record["rtd"])
        elif flags & 64:
            kw = min(adjusted, record["agc"])
        else:
            kw = min(adjusted, record["limit"])
        return kw if self.newer else max(kw, 0)

    def figures(self, hour, record):
        """adjusted, basis, balance, energy, loss, congestion, spin of an interval of a settled hour."""
        row, seconds = self.rows[hour], record["seconds"]
        adjusted = self.adjusted(hour, record)
        basis = self.basis(record, adjusted)
        balance = basis - row["generation"] - (record["transactions"] - row["transactions"])
        amounts = [cents(balance, record[p], seconds) for p in ("energy", "loss", "congestion")]
        if self.newer:
            amounts[2] = -amounts[2]
        spin = cents(record["spin"] - row["spin"], record["west" if self.west else "east"], seconds)
        return (adjusted, basis, balance, *amounts, spin)

    def line(self, hour):
        """The line of an hour, by name."""
        records = self.store.records(hour)
        seconds = sum(r["seconds"] for r in records.values())
        ahead = [0, 0, 0]
        if hour in self.rows:
            row = self.rows[hour]
            net = row["generation"] - row["transactions"]
            ahead = [nearest(Fraction(net * row[p], 1000)) for p in ("energy", "loss", "congestion")]
            ahead[2] = -ahead[2]
        sums = [0] * 5
        if self.settled(hour):
            for r in records.values():
                f = self.figures(hour, r)
                for at, x in enumerate((f[2] * r["seconds"], f[3], f[4], f[5], f[6])):
                    sums[at] += x
        congestion = -sums[3] if self.newer else sums[3]
        balancing = sums[1] + sums[2] - congestion
        return {"settled": int(self.settled(hour)), "intervals": len(records), "seconds": seconds,
                "ahead_energy": ahead[0], "ahead_loss": ahead[1], "ahead_congestion": ahead[2],
                "ahead": sum(ahead), "balance": sums[0], "energy": sums[1], "loss": sums[2],
                "congestion": sums[3], "balancing": balancing, "spin": sums[4],
                "total": sum(ahead) + balancing + sums[4]}

    def day(self):
        lines = [self.line(hour) for hour in range(self.hours)]
        return {name: sum(line[name] for line in lines) for name in lines[0]}

    def listing(self):
        columns = ("ahead", "energy", "loss", "congestion", "spin", "total")
        text = [HEADING]
        for hour in sorted(self.rows):
            line = self.line(hour)
            text.append(",".join([str(hour), "S" if line["settled"] else "U"] + [str(line[c]) for c in columns]))
        day = self.day()
        text.append(",".join(["DAY", str(day["settled"])] + [str(day[c]) for c in columns]))
        return "".join(line + "\n" for line in text)


# The kinds of a day file's entries, with the call that each makes.
KINDS = {1: "schedule", 2: "post", 3: "withdraw", 4: "read", 5: "unread"}
BODY = 48
MOST_CALLS = 1000
MOST_INPUT = 65_536


def number(value, width=4):
    return value.to_bytes(width, "big", signed=width == 4)


def encode_entry(kind, hour, slot, figures):
    """The key and the body of an entry."""
    if kind == 1:
        body = b"".join(number(figures[name]) for name in SCHEDULE)
    elif kind == 2:
        body = number(figures["seconds"], 2) + bytes([figures["flags"], 0])
        body += b"".join(number(figures[name]) for name in POSTING)
    else:
        body = number(figures) if kind == 4 else b""
    return bytes([kind, hour, slot, 0]), body.ljust(BODY, b"\0")


def encode(hours, edition, region, entries):
    parts = [encode_entry(*entry) for entry in entries]
    head = bytes([hours, edition, region, 0]) + number(len(parts), 2)
    return head + b"".join(key for key, _ in parts) + b"".join(body for _, body in parts)


class BadFile(Exception):
    """A file's refusal: its number and its place."""


def words(body, start, names):
    return {name: int.from_bytes(body[start + 4 * at:start + 4 * at + 4], "big", signed=True) for at, name in enumerate(names)}


def decode_entry(key, body, key_place, body_place):
    kind, hour, slot = key[0], key[1], key[2]
    if kind not in KINDS:
        raise BadFile(18, key_place)
    zeros = [(key_place + at, key[at]) for at in ((3,) if kind in (2, 3) else (2, 3))]
    used = {1: range(24, 48), 2: range(3, 4), 4: range(4, 48)}.get(kind, range(48))
    zeros += [(body_place + at, body[at]) for at in used]
    for place, byte in zeros:
        if byte != 0:
            raise BadFile(19, place)
    if kind == 1:
        figures = words(body, 0, SCHEDULE)
    elif kind == 2:
        figures = {"seconds": body[0] * 256 + body[1], "flags": body[2], **words(body, 4, POSTING)}
    else:
        figures = words(body, 0, ["kwh"])["kwh"] if kind == 4 else None
    return KINDS[kind], hour, slot, figures


def decode(data):
    """Hours, edition and region of a day file, and its calls."""
    if len(data) < 6:
        raise BadFile(16, len(data))
    for place, good in enumerate((data[0] in (23, 24, 25), data[1] < 2, data[2] < 2, data[3] == 0)):
        if not good:
            raise BadFile(17, place)
    count = data[4] * 256 + data[5]
    if count > MOST_CALLS:
        raise BadFile(17, 4)
    if len(data) != 6 + 52 * count:
        raise BadFile(16, len(data))
    calls = []
    for at in range(count):
        key, body = 6 + 4 * at, 6 + 4 * count + BODY * at
        calls.append(decode_entry(data[key:key + 4], data[body:body + BODY], key, body))
    return data[0], data[1], data[2], calls


def output(data, store):
    """What a program prints for its input, and its status."""
    try:
        hours, edition, region, calls = decode(data[:MOST_INPUT])
    except BadFile as bad:
        return f"FILE,{bad.args[0]},{bad.args[1]}\n", 1
    day = Day(hours, edition == 1, region == 1, store)
    text = ""
    for entry, call in enumerate(calls):
        refusal = day.call(*call)
        if refusal is not None:
            text += "REFUSED," + ",".join(str(field) for field in (entry, *refusal)) + "\n"
    return text + day.listing(), 0
