#!/usr/bin/env python3
"""Uses of a statement that must not build, each tried on a copy of the crate that has the right use.

    python3 tests/must_not_build.py

The compiler has to refuse each for the reason that stands with it.
"""
import shutil
import subprocess
import sys
import tempfile
from pathlib import Path

ROOT = Path(__file__).resolve().parent.parent
CRATE, FILE = "statement_tests", "src/locking.rt"
# What is tried, what it replaces, what stands in its place, and the compiler's reason.
TRIES = (
    ("posting to a locked statement", "Ok(locked.day_line())",
     "locked.post(store, 3, 0, &samples::FIVE_MINUTES)?; Ok(locked.day_line())", "no method named `post` found for type `Locked`"),
    ("a statement used after it was locked", "Ok(locked.day_line())",
     "statement.schedule(store, 3, &SOLD)?; Ok(locked.day_line())", "borrow of moved value: `statement`"),
    ("a statement copied", "let locked = statement.lock();",
     "let copy = statement; let locked = statement.lock();", "use of moved value: `statement`"),
    ("a statement cloned", "let locked = statement.lock();",
     "let copy = Clone::clone(&statement); let locked = statement.lock();", "the trait bound `Statement<Newer>: Clone` is not satisfied"),
    ("a locked statement copied", "Ok(locked.day_line())",
     "let copy = locked; Ok(locked.day_line())", "borrow of moved value: `locked`"),
    ("the listing of an open statement", "let locked = statement.lock();",
     "let _ = listing::listing_length(&statement); let locked = statement.lock();", "expected `&Locked`, found `&Statement<Newer>`"),
)


def main():
    failed = 0
    with tempfile.TemporaryDirectory() as scratch:
        copy = Path(scratch) / "repo"
        shutil.copytree(ROOT, copy, ignore=shutil.ignore_patterns(".git", "out", "must-fail"))
        source = copy / "crates" / CRATE / FILE
        text = source.read_text()
        for what, old, new, reason in TRIES:
            assert text.count(old) == 1, what
            source.write_text(text.replace(old, new))
            run = subprocess.run(["rt", "check"], cwd=copy / "crates" / CRATE, capture_output=True, text=True)
            out = run.stdout + run.stderr
            refused = run.returncode != 0 and reason in out and "logic=not-proved" not in out.split("crate " + CRATE)[-1]
            print(f"{what}: {'does not build' if refused else 'NOT REFUSED AS IT MUST BE'}")
            if not refused:
                failed += 1
                print("\n".join(line for line in out.splitlines() if "error" in line)[:2000])
    return 1 if failed else 0


sys.exit(main())
