#!/usr/bin/env python3
"""Plants bugs one at a time in a copy of the repository, checks the crate, and says what became of each.

    python3 tests/plant.py                  every planting of tests/plantings.txt and every must-fail edit
    python3 tests/plant.py record_store     those of one crate
    python3 tests/plant.py record_store second_place
    python3 tests/plant.py --listed         those of tests/plantings.txt alone, --listed=CRATE of one crate
    python3 tests/plant.py --table          prints the table of docs/ASSURANCE.md, and plants nothing

A planting is a block of lines `crate:`, `name:`, `file:`, `old:` (standing once in the file) and `new:`, the last two as
often as need be; a must-fail edit has the same lines without the first two. What earlier checks on this machine kept serves
the copy too, so that only what a bug touches is checked again. A bug is *refused* where the check fails, and has *survived*
where the crate is still proved. The first error is printed with each.
"""
import re
import shutil
import subprocess
import sys
import tempfile
from pathlib import Path

ROOT = Path(__file__).resolve().parent.parent


def edits():
    """(crate, name, replacements) of every must-fail edit; a replacement is (file, old, new)."""
    for edit in sorted(ROOT.glob("crates/*/must-fail/*.edit")):
        yield edit.parts[-3], edit.stem, replacements(edit.read_text())


def listed():
    """The same of every planting."""
    for block in (ROOT / "tests" / "plantings.txt").read_text().split("\n\n"):
        crate, name = (re.search(rf"^{word}: (.*)$", block, re.M).group(1) for word in ("crate", "name"))
        yield crate, name, replacements(block)


def replacements(text):
    found, file, old = [], "", ""
    for line in text.splitlines():
        word, _, rest = line.partition(":")
        rest = rest[1:] if rest.startswith(" ") else rest
        if word == "file":
            file = rest
        elif word == "old":
            old = rest
        elif word == "new":
            found.append((file, old, rest))
    return found


def table():
    """The rows of docs/ASSURANCE.md: the must-fail edits of a crate, then its other plantings."""
    order = [line.split(":")[0] for line in (ROOT / "crates.txt").read_text().splitlines() if not line.startswith("#")]
    gate = {(crate, name): changes for crate, name, changes in edits()}
    others = {(crate, name): changes for crate, name, changes in listed() if (crate, name) not in gate}
    rows = [(order.index(crate), yes != "yes", name, crate, yes, changes)
            for yes, some in (("yes", gate), ("", others)) for (crate, name), changes in some.items()]
    for _, _, name, crate, yes, changes in sorted(rows):
        shown = [[text.replace("|", "\\|").strip() for text in (file.removeprefix("src/"), old, new)] for file, old, new in changes]
        cells = [" ".join(dict.fromkeys(f"`{file}`" for file, _, _ in shown))]
        cells += ["; ".join(f"`{row[i]}`" for row in shown) for i in (1, 2)]
        print(f"| `{crate}` | {name} | {yes} | " + " | ".join(cells) + " |")


def first_error(out):
    """The first line that tells why a check failed."""
    for pattern in (r"error.*", r"no proof:.*", r"note: .*is to show.*"):
        found = re.search(pattern, out)
        if found:
            return found.group(0)[:150]
    return out.strip().splitlines()[-1][:150] if out.strip() else ""


def plant(copy, crate, changes):
    before = {}
    for file, old, new in changes:
        source = copy / "crates" / crate / file
        text = source.read_text()
        before.setdefault(source, text)
        if text.count(old) != 1:
            return f"stands {text.count(old)} times", old
        source.write_text(text.replace(old, new))
    run = subprocess.run(["rt", "check"], cwd=copy / "crates" / crate, capture_output=True, text=True)
    for source, text in before.items():
        source.write_text(text)
    out = run.stdout + run.stderr
    return ("survived" if run.returncode == 0 else "refused"), ("" if run.returncode == 0 else first_error(out))


def main():
    words = sys.argv[1:]
    if words == ["--table"]:
        return table()
    only = bool(words) and words[0].startswith("--listed")
    crate = words[0].partition("=")[2] if only else "".join(words[:1])
    every = list(listed()) if only else list(edits()) + list(listed())
    chosen = [b for b in every if crate in ("", b[0]) and (not words[1:] or b[1] in words[1:])]
    copy = Path(tempfile.mkdtemp(prefix="planted_"))
    shutil.copytree(ROOT, copy / "repo", ignore=shutil.ignore_patterns(".git", "out"))
    survived = 0
    for block in chosen:
        verdict, why = plant(copy / "repo", block[0], block[2])
        survived += verdict == "survived"
        print(f"{block[0]}/{block[1]}: {verdict}: {why}", flush=True)
    shutil.rmtree(copy)
    print(f"{len(chosen)} planted, {survived} survived")
    return 1 if survived else 0


if __name__ == "__main__":
    sys.exit(main())
