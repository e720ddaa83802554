"""The tools that tests run by and that may be missing: scripts/need knows which are, and what they are for."""

import os
import shlex
import subprocess
from functools import lru_cache
from pathlib import Path

NEED = Path(__file__).resolve().parent.parent.parent / "scripts/need"
# These variables may name other compilers.
VARIABLES = {"cc": "CC", "c++": "CXX"}


def command_of(tool):
    """The words that run a tool."""
    return shlex.split(os.environ.get(VARIABLES.get(tool, ""), "")) or [tool]


@lru_cache(maxsize=None)
def lack_of(tool):
    """What is said of a tool that is missing, and nothing of one that is there."""
    return subprocess.run([NEED, tool], capture_output=True, text=True, check=False).stderr.strip()
