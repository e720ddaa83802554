"""shellcheck has nothing to say of what is written in bash or sh. `.shellcheckrc` has what it is not asked."""

import os
import re
import subprocess
from pathlib import Path

import pytest

SHELL = re.compile(r"#!.*\b(?:ba)?sh\b|# shellcheck shell=")


def scripts(top):
    """The scripts of the repository, but for those that are built or fetched."""
    for folder, folders, names in os.walk(top):
        folders[:] = set(folders) - {".git", "out", "target"}
        for path in (Path(folder, name) for name in names if "." not in name):
            with path.open(errors="replace") as file:
                if SHELL.match(file.readline()):
                    yield path.relative_to(top)


@pytest.mark.needs("shellcheck")
def test_shellcheck_has_nothing_to_say(top):
    files = sorted(scripts(top))
    assert Path(".ci/run") in files and Path("scripts/top") in files
    ran = subprocess.run(["shellcheck", "-f", "gcc", *files], cwd=top, capture_output=True, text=True, check=False)
    assert ran.stdout + ran.stderr == ""
