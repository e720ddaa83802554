"""The library where it is installed: what pkg-config and CMake find, and the commands of docs/LIBRARY.md on a machine
without the toolchain."""

import os
import shlex
import shutil
import subprocess
from pathlib import Path

import pytest

from support.compiling import TOP, compiler_of, output, run_installed
from support.pages import commands_of, try_commands
from support.tools import command_of

pytestmark = pytest.mark.needs("cc", "pkg-config")
TAKEN = "{version} {series} 0 0.5...{next} 0.5...{version} {series}...<{next}".split()
# Another series may have other layouts.
REJECTED = "0.5 {next} 1 0.5...<{version} {next}...1".split()


@pytest.fixture(scope="module")
def root(library, tmp_path_factory):
    folder = tmp_path_factory.mktemp("root")
    output(TOP / "scripts/install", "/opt/wenqolo", "library", env=os.environ | {"DESTDIR": folder})
    return folder


def test_header_is_found_by_its_folder(root):
    command = [*compiler_of("main.c"), f"-I{root}/opt/wenqolo/include", "-fsyntax-only", "-x", "c", "-"]
    output(*command, input="#include <wenqolo/camel.h>\n")


@pytest.mark.parametrize("kind", ["shared", "static"])
def test_program_by_pkg_config(kind, root, tmp_path):
    run_installed(tmp_path, root, "/opt/wenqolo/lib", kind)


@pytest.mark.needs("cmake")
@pytest.mark.parametrize("wanted", TAKEN + REJECTED)
def test_version_by_cmake(wanted, root, tmp_path):
    """It finds this version by itself, or in a range, and its programs run with both libraries."""
    packages = os.environ | {"PKG_CONFIG_LIBDIR": f"{root}/opt/wenqolo/lib/pkgconfig"}
    version = output("pkg-config", "--modversion", "wenqolo", env=packages).strip()
    series = version.rpartition(".")[0]
    name = wanted.format(version=version, series=series, next=f"0.{int(series.partition('.')[2]) + 1}")
    words = ["-D", f"CMAKE_PREFIX_PATH={root}/opt/wenqolo", "-D", f"WANTED={name}"]
    done = subprocess.run(["cmake", "-S", TOP / "tests/library/cmake", "-B", tmp_path, *words], check=False)
    assert (done.returncode == 0) == (wanted in TAKEN)
    if wanted == "{version}":
        output("cmake", "--build", tmp_path)
        output(tmp_path / "shared")
        output(tmp_path / "static")


def compilers():
    """The commands that a vendor of switches has. A C compiler finds its own parts, but gcc looks for `as` and `ld` on
    the PATH, and rustc for `cc`. A compiler may be run by another program, as gcc is by ccache. cargo and rustc are the
    Rust toolchain's own programs, since those of rustup need its settings."""
    names = ["as", "ld", "pkg-config", *filter(shutil.which, command_of("cc") + command_of("c++"))]
    commands = {Path(name).name: [name] for name in names} | {tool: command_of(tool) for tool in ("cc", "c++")}
    rust = output("rustc", "--print", "sysroot").strip()
    return commands | {tool: [shutil.which(f"{rust}/bin/{tool}") or tool] for tool in ("cargo", "rustc")}


@pytest.fixture
def environment(library, tmp_path):
    """A PATH of the compilers, and little else, so that nothing finds `rt`."""
    (tmp_path / "tools").mkdir()
    for name, (program, *words) in compilers().items():
        script = tmp_path / "tools" / name
        script.write_text(f'#!/bin/sh\nexec {shlex.join([shutil.which(program), *words])} "$@"\n')
        script.chmod(0o755)
    output(TOP / "scripts/install", tmp_path, "library")
    found = {"PKG_CONFIG_PATH": tmp_path / "lib/pkgconfig", "LD_LIBRARY_PATH": tmp_path / "lib"}
    return {"PATH": tmp_path / "tools", "HOME": tmp_path} | found


@pytest.mark.needs("c++", "cargo", "rustc")
@pytest.mark.parametrize("commands, wanted, files", commands_of("docs/LIBRARY.md"))
def test_commands_of_the_page(commands, wanted, files, library, environment, tmp_path):
    """A folder has out/library, the crate in Rust and an example, where these are here, and nothing else."""
    folder = tmp_path / "shipped"
    shutil.copytree(library, folder / "out/library", symlinks=True)
    ignored = shutil.ignore_patterns("target", "Cargo.lock")
    shutil.copytree(TOP / "bindings/rust", folder / "bindings/rust", ignore=ignored)
    (folder / "examples").mkdir()
    shutil.copy(TOP / "examples/switch.c", folder / "examples")
    try_commands(commands, wanted, files, folder, environment)
