"""The programs of the repository, proved and built where that is still to be done."""
import subprocess
from pathlib import Path

ROOT = Path(__file__).resolve().parent.parent


def built(name):
    """Where a program is once it is built. Building it runs it too, on the input that lies in its crate."""
    crate = ROOT / "crates" / name
    given = crate / "stdin"
    if subprocess.run(["rt", "check"], cwd=crate, capture_output=True).returncode != 0:
        raise SystemExit(f"{name} does not check")
    subprocess.run(["rt", "run"], cwd=crate, input=given.read_bytes() if given.exists() else b"", capture_output=True)
    program = crate / "out" / name
    if not program.exists():
        raise SystemExit(f"{name} does not build")
    return program
