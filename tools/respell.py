#!/usr/bin/env python3
"""Brings the repository's own definitions and lemmas to today's spelling: words in snake case, facts and types in camel
case. Run once, at the top, after the toolchain's own script; a second run changes nothing.

A name is respelled wherever it stands as a whole name in specs/, proofs/ and the clauses of src/; comments, strings and
the names that the toolchain makes of the code (`returns-then-x`, `loop-x-preserved`) are left alone.
"""
import glob
import re

# Tests that ended in a question mark, facts that were written small or with a dash, and sums over whole numbers.
BY_HAND = {
    "power?": "fits_power", "basepoint?": "fits_basepoint", "price?": "fits_price", "prices?": "fits_prices",
    "set?": "has_flag", "flags?": "fits_flags", "limits?": "fits_limits", "length?": "fits_length",
    "powers?": "fits_powers", "real-time-prices?": "fits_real_time_prices", "sold?": "fits_sold",
    "small?": "is_small", "small-amounts?": "is_small_amounts", "small-line?": "is_small_line", "free?": "is_free",
    "full?": "is_full", "kind?": "is_kind_byte", "slot?": "names_slot",
    "Fit-record": "FitRecord", "Fit-key": "FitKey", "Fit-figures": "FitFigures", "File-of": "FileOf", "Day-of": "DayOf",
    "Calls-in": "CallsIn", "So-far": "SoFar", "In-header": "InHeader",
    "so-far-none": "SoFar-none", "so-far-stop": "SoFar-stop",
    "sumZ": "sum_ℤ", "sumBy-scale": "sum_by_scale", "nearest-neg": "nearest-neg", "ofZ_below": "of_z_below",
}
# Names within one proof, and names brought in under another one.
LOCAL = {
    "zero-scales": "zero_scales", "scaled-sum": "scaled_sum", "scaled-seconds": "scaled_seconds", "others-is": "others_is",
    "yes-in": "yes_in", "laid-is": "laid_is", "dropped-is": "dropped_is", "statement-report": "statement_report",
    "reportOf": "report_of", "keyBytes": "key_bytes", "bodyBytes": "body_bytes", "refusedBy": "refused_by",
    "noMemory": "no_memory", "headingOf": "heading_of", "standingIn": "standing_of",
}
# Facts written small, in the crate that has them.
IN_CRATE = {"day_file": {"passes": "Passes", "stops": "Stops"}}
# A dash stays where it joins the names of two functions.
JOINED = {"length": {"words", "key", "keys", "body", "bodies", "encode", "heading", "listing"},
          "sumZ": {"push", "append", "neg"}, "nearest": {"neg"}}
# Names brought in under another name, since the code has theirs.
ALIAS = re.compile(r"^(amount|nearest|sums|sold|shown|figures|ahead|adjusted)Z$")

NAME = r"[^\s(){}\[\].,;:=λ\"]+"
SIGNATURE = re.compile(r"^\s*(?:(?:abbrev|unfoldable|pub|mutual|record|data|private) )*(" + NAME + r")(?:\s*[({][^:]*?:[^)}]*[)}])*\s*:\s*(.*)$")


def antt_files():
    return sorted(glob.glob("crates/*/specs/**/*.antt", recursive=True)
                  + glob.glob("crates/*/proofs/**/*.antt", recursive=True))


def own_names():
    names = set()
    for path in antt_files():
        for line in open(path, encoding="utf8"):
            if line.startswith(("use ", "pub mod ", "mod ")) or line.lstrip().startswith("--"):
                continue
            match = SIGNATURE.match(line)
            if match and not match.group(2).startswith("goal."):
                names.add(match.group(1))
    return names


def respelled(name):
    if name in BY_HAND:
        return BY_HAND[name]
    head, _, rest = name.partition("-")
    joined = "-" if rest in JOINED.get(head, ()) else "_"
    head = re.sub(r"Z$", "_ℤ", head) if head == "sumZ" else head
    return (head + joined + rest.replace("-", "_")) if rest else name


def spelling():
    table = {}
    for name in own_names():
        if "-" in name or name in BY_HAND:
            if re.fullmatch(r"[A-Za-z][A-Za-z0-9_'?-]*", name) and respelled(name) != name:
                table[name] = respelled(name)
    table["In-header"] = BY_HAND["In-header"]
    return {**table, **LOCAL}


TOKEN = re.compile(r"[A-Za-z0-9_'?ℤℕ+\-]+")


def turn(text, table, comment):
    """The text with each whole name respelled, comments and strings left as they are."""
    out = []
    pieces = re.split("(" + comment + r"[^\n]*|\"(?:\\.|[^\"\\\n])*\")", text)
    for at, piece in enumerate(pieces):
        if at % 2 == 1:
            out.append(piece)
            continue
        def one(match):
            token = match.group(0)
            if match.start() > 0 and piece[match.start() - 1] == "." and (token.startswith(("returns", "loop-", "if-", "in-"))):
                return token
            if token in table:
                return table[token]
            alias = ALIAS.match(token)
            return alias.group(1) + "_ℤ" if alias else token
        out.append(TOKEN.sub(one, piece))
    return "".join(out)


def main():
    table = spelling()
    taken = {}
    for old, new in sorted(table.items()):
        if new in taken or (new in own_names() and new not in table):
            print(f"falls together: {old} -> {new}, also {taken.get(new, new)}")
        taken[new] = old
    for path in antt_files() + sorted(glob.glob("crates/*/src/**/*.rt", recursive=True)):
        crate = path.split("/")[1]
        words = {**table, **IN_CRATE.get(crate, {})} if path.endswith(".antt") else table
        text = open(path, encoding="utf8").read()
        new = turn(text, words, "--" if path.endswith(".antt") else "//")
        if new != text:
            open(path, "w", encoding="utf8").write(new)
    print(f"{len(table)} names")


if __name__ == "__main__":
    main()
