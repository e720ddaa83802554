"""The Debian packages of library and tools, unpacked: their pages, and what a user does with what they have."""

import fcntl
import os

import pytest

from support.compiling import TOP, compiler_of, output, run_installed

pytestmark = pytest.mark.needs("cc", "pkg-config", "objcopy", "dpkg-deb", "dpkg-shlibdeps", "gzip")


@pytest.fixture(scope="session")
def root(library, tmp_path_factory):
    """The folder in which all packages are unpacked. They are made once, by the first of several workers."""
    folder = tmp_path_factory.getbasetemp()
    if "PYTEST_XDIST_WORKER" in os.environ:
        folder = folder.parent
    with open(folder / "packages.lock", "w") as lock:
        fcntl.flock(lock, fcntl.LOCK_EX)
        if not (folder / "packages").exists():
            output(TOP / "scripts/deb")
            for package in (TOP / "out/deb").glob("*.deb"):
                output("dpkg-deb", "--extract", package, folder / "unpacked")
            (folder / "unpacked").rename(folder / "packages")
    return folder / "packages"


@pytest.mark.parametrize("package", ["libwenqolo-dev", "wenqolo-tools"])
def test_links_of_the_pages(package, root):
    output(TOP / "tests/pages/names", root / "usr/share/doc" / package)


@pytest.mark.parametrize("name", ["switch", "event_loop"])
def test_program_of_the_manual_compiles(name, root, tmp_path):
    source = root / f"usr/share/doc/libwenqolo-dev/examples/{name}.c"
    output(*compiler_of(source), f"-I{root}/usr/include/wenqolo", "-c", "-o", tmp_path / "program.o", source)


@pytest.mark.parametrize("kind", ["shared", "static"])
def test_program_by_pkg_config(kind, root, tmp_path):
    libdir = "/usr/lib/" + output("dpkg-architecture", "-q", "DEB_HOST_MULTIARCH").strip()
    run_installed(tmp_path, root, libdir, kind)


def test_tools(root):
    output(TOP / "tests/packages/tools", root)


@pytest.mark.needs("tshark")
def test_tools_over_a_capture(root):
    output(TOP / "tests/packages/tools", root, TOP / "tests/map")
