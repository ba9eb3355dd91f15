"""The proved program, which the checks run, and no other."""

import subprocess
import sys
from pathlib import Path

ROOT = Path(__file__).resolve().parent.parent


def program(*words):
    """Where the proved program of these sources is, or with the words `--tests CRATE` that of a crate's tests, or with
    `--program CRATE` a crate's own (tools/proved_program). Where it isn't there, the check fails and ends."""
    run = subprocess.run([ROOT / "tools" / "proved_program", *words], stdout=subprocess.PIPE, text=True, check=False)
    if run.returncode:
        print("0 passed, 1 failed")
        sys.exit(1)
    return run.stdout.rstrip("\n")
