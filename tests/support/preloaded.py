"""Libraries in C that are loaded into a program before others (LD_PRELOAD), and the environments that load them."""

import os
import shutil
import subprocess
from pathlib import Path

import pytest


def compiler():
    """The C compiler, or that of the toolchain: what is loaded needs no header."""
    if found := shutil.which("cc"):
        return found
    page = subprocess.run(["rt", "doc"], capture_output=True, text=True, check=True).stdout.strip()
    return Path(page).parent / "toolchain/bin/clang"


def preloaded(source, folder):
    """Compiles a source into a folder, and returns the environment that loads it."""
    library = folder / source.with_suffix(".so").name
    subprocess.run([compiler(), "-shared", "-fPIC", "-nostdlib", "-O2", "-o", library, source], check=True)
    return os.environ | {"LD_PRELOAD": str(library)}


@pytest.fixture(scope="session")
def refusing(top, tmp_path_factory):
    """Returns the environment in which a program is refused its requests for memory from number FIRST to number LAST,
    or one of them."""
    loaded = preloaded(top / "tests/refused/refuse_memory.c", tmp_path_factory.mktemp("refusing"))

    def environment(first, last=None):
        return loaded | {"REFUSED_FROM": str(first), "REFUSED_TO": str(first if last is None else last)}

    return environment


@pytest.fixture(scope="session")
def slow_reads(top, tmp_path_factory):
    """Returns the environment in which a program reads its input octet by octet, up to one at which a read fails."""
    loaded = preloaded(top / "tests/explain/slow_reads.c", tmp_path_factory.mktemp("slow-reads"))

    def environment(fails_at=None):
        return loaded | ({} if fails_at is None else {"FAILS_AT": str(fails_at)})

    return environment
