"""The program that the launcher runs: the launcher alone says where it is, and whether it fits its sources."""

import subprocess
import sys
from pathlib import Path

TOP = Path(__file__).resolve().parent.parent


def program(*words):
    """The path that `zq which` prints; with `--proved` the proved program or none. Where it prints none, this ends."""
    asked = subprocess.run([TOP / 'zq', 'which', *words], stdout=subprocess.PIPE, text=True)
    if asked.returncode != 0:
        sys.exit(2)
    return Path(asked.stdout.removesuffix('\n'))
