"""What is said of tools that are missing, before anything begins, and what the gate leaves out then."""

import subprocess
import sys

import pytest

OTHERS = "c++ rustc pkg-config cmake tshark shellcheck pytest-3 apt-get dpkg-source".split()
NOTE = 'echo "${0##*/} $*" >> "$STAGE/begun"'
TARGETS = """try try-explain try-map replay explain conformance program library tools deb test pages proofs tests fuzz
    map-check soak deb-check osmo-check standard-check edits""".split()
PARTS = ["pages", "proofs", "tests"]
NO_TSHARK = "tshark is missing: what another decoder reads of MAP, and captures (Debian: tshark)\n"


@pytest.fixture
def gate(yard):
    """Runs a command where all tools are there, and the parts of the gate are only noted. `begun` has them."""
    for tool in OTHERS:
        yard.put(tool)
    yard.put("cargo", "echo cargo 1.85.0")
    yard.put("make", NOTE, '[ "$2" != "$FAILS" ]')

    def run(*words, **more):
        (yard.stage / "begun").write_text("")
        ran = yard.run(*words, **more)
        ran.begun = (yard.stage / "begun").read_text().replace("make --no-print-directory ", "").splitlines()
        return ran

    return run


@pytest.mark.parametrize("target", TARGETS)
def test_missing_tools_are_named_before_anything_begins(yard, target):
    for tool in ["rt", "python3", "cc", "objcopy"]:
        (yard.tools / tool).unlink()
    ran = yard.run("make", target, CAPTURE="Makefile")
    assert (ran.returncode, ran.stdout, ran.asked) == (2, "", 0)
    first, *lines = ran.stderr.splitlines()
    assert " is missing: " in first
    assert all(" is missing: " in line or line.startswith(("test: nothing was begun", "make: ")) for line in lines)


# Python is asked by a line in Python.
PYTHON = 'case $1 in -c) exec {} -c "import sys; sys.version_info = (3, {}, 0); exec(sys.argv[1])" "$2" ;; esac'


@pytest.mark.parametrize("tool, older, newer", [
    ("cargo", "echo cargo 1.84.9", "echo cargo 1.99.0"),
    ("python3", *(PYTHON.format(sys.executable, number) for number in (9, 10))),
], ids=["cargo", "python3"])
def test_older_tool_is_none(gate, yard, tool, older, newer):
    yard.put(tool, older)
    assert gate("scripts/need", "test").stderr.startswith(f"{tool} is missing: ")
    yard.put(tool, newer)
    assert gate("scripts/need", "test").stderr == ""


def test_name_of_no_tool_is_a_fault(gate):
    assert gate("scripts/need", "tshrak").returncode == 2


def test_installed_library_needs_no_toolchain(gate, yard):
    (yard.tools / "rt").unlink()
    assert gate("scripts/need", "osmo-check").returncode == 2
    assert gate("scripts/need", "osmo-check", LIBRARY="/").returncode == 0
    ran = gate("examples/osmo-msc/check", "source", LIBRARY="/no library")
    said = "osmo-check: LIBRARY=/no library has no lib/pkgconfig/wenqolo.pc that names a folder with libwenqolo.a\n"
    assert (ran.returncode, ran.stdout, ran.stderr) == (2, "", said)


@pytest.mark.parametrize("program", ["tools/map2script", "conformance/run"])
def test_program_in_python_says_that_it_needs_a_later_one(program, top):
    older = "import runpy, sys; sys.version_info = (3, 9, 2); runpy.run_path(sys.argv.pop(1))"
    words = [sys.executable, "-c", older, top / program, "--help"]
    ran = subprocess.run(words, capture_output=True, text=True, check=False)
    said = f"{top / program}: Python 3.10 or later is needed, and this is "
    assert (ran.returncode, ran.stdout, ran.stderr.startswith(said)) == (2, "", True)


def test_gate_passes_all_parts_up_to_one_that_fails(gate):
    ran = gate("scripts/gate", *PARTS)
    assert (ran.returncode, ran.stdout, ran.begun) == (0, "test: 3 of 3 parts passed\n", PARTS)
    ran = gate("scripts/gate", *PARTS, FAILS="proofs")
    assert (ran.returncode, ran.stdout, ran.begun) == (1, "", PARTS[:2])


def test_gate_begins_nothing_without_a_tool_or_leaves_its_tests_out(gate, yard):
    (yard.tools / "tshark").unlink()
    ran = gate("scripts/gate", *PARTS)
    assert (ran.returncode, ran.begun, ran.stderr.startswith(NO_TSHARK)) == (2, [], True)
    ran = gate("scripts/gate", *PARTS, PARTS="any")
    said = f"test: 3 of 3 parts passed\nleft out: what runs by tools that are missing\n{NO_TSHARK}"
    assert (ran.returncode, ran.begun, ran.stdout) == (0, PARTS, said)
    assert gate("scripts/gate", *PARTS, PARTS="some").returncode == 2


@pytest.mark.parametrize("tool, status, begun", [("rt", 2, []), ("cc", 2, []), ("pytest-3", 0, PARTS[:2])])
def test_gate_leaves_out_a_part_if_others_can_do_without_the_tool(gate, yard, tool, status, begun):
    yard.put("python3", '[ "$1" = -c ]')
    (yard.tools / tool).unlink()
    ran = gate("scripts/gate", *PARTS, PARTS="any")
    assert (ran.returncode, ran.begun, f"{tool[:6]} is missing" in ran.stdout + ran.stderr) == (status, begun, True)


def test_ci_installs_what_is_missing_and_ends_as_the_gate_does(gate, yard):
    (yard.tools / "tshark").unlink()
    for tool in "apt-get", "make":
        yard.put(tool, NOTE, "exit 3")
    yard.put("sudo", 'shift', 'exec "$@"')
    yard.put("timeout", 'shift 3', 'exec "$@"')
    ran = gate(".ci/run")
    apt = "apt-get -qq -o DPkg::Lock::Timeout=60"
    said = [f"{apt} update", f"{apt} install -y --no-install-recommends tshark", "make test PARTS=any"]
    assert (ran.returncode, ran.begun) == (3, said)
