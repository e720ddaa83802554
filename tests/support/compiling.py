"""Programs that are compiled over the library, as those of a switch are, and what they print."""

import os
import subprocess
from pathlib import Path

import pytest

from support.tools import command_of

TOP = Path(__file__).resolve().parents[2]
WORDS = {
    ".c": "-std=c11 -O2 -Wall -Wextra -Werror",
    ".cpp": "-O2 -Wall -Wextra -Wconversion -Wpedantic -Wshadow -Werror",
}
SANITIZERS = ["-g", "-fsanitize=address,undefined", "-fno-sanitize-recover=all"]


def output(*command, **options):
    """What a command prints, which has to end with status 0."""
    done = subprocess.run(command, capture_output=True, text=True, check=False, **options)
    if done.returncode != 0:
        raise AssertionError(f"status {done.returncode} of {command}:\n{done.stdout}{done.stderr}")
    return done.stdout


def compiler_of(source):
    """The words that compile a source, of which a warning is an error. CC and CXX may be of more than one word."""
    ending = Path(source).suffix
    return [*command_of("c++" if ending == ".cpp" else "cc"), *WORDS[ending].split()]


@pytest.fixture
def compiled(library, tmp_path):
    """Returns what compiles a source over the archive of the library, or over another one, to the path of a program."""

    def program_of(source, *words, archive=library / "libwenqolo.a"):
        program = tmp_path / Path(source).stem
        output(*compiler_of(source), f"-I{library}", "-o", program, TOP / source, *words, archive, "-lpthread")
        return program

    return program_of


@pytest.fixture(scope="session")
def sanitizers(tmp_path_factory):
    """The words for the sanitizers, which come with the compiler, but for some."""
    probe = [*command_of("cc"), "-x", "c", *SANITIZERS, "-o", tmp_path_factory.mktemp("sanitizers") / "probe", "-"]
    is_there = subprocess.run(probe, input=b"int main(void) { return 0; }", check=False).returncode == 0
    return SANITIZERS if is_there else []


def run_installed(folder, root, libdir, kind):
    """Compiles names.c by what pkg-config finds below a root, and runs it with the library of this kind."""
    libdir = f"{root}{libdir}"
    libs = "$(pkg-config --libs wenqolo)" if kind == "shared" else f"{libdir}/libwenqolo.a"
    commands = f'"$@" $(pkg-config --cflags wenqolo) {libs}; ldd ./program; ./program'
    found = {"PKG_CONFIG_LIBDIR": f"{libdir}/pkgconfig", "PKG_CONFIG_SYSROOT_DIR": root, "LD_LIBRARY_PATH": libdir}
    words = ["sh", "-euc", commands, "sh", *command_of("cc"), "-o", "program", TOP / "tests/library/names.c"]
    assert (f"=> {libdir}/libwenqolo.so.0 " in output(*words, cwd=folder, env=os.environ | found)) == (kind == "shared")
