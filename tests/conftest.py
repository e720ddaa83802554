"""What all tests share: the programs and the library that are built, and what happens if a tool is missing."""

import os
from pathlib import Path

import pytest

pytest.register_assert_rewrite("support")
pytest_plugins = ["support.compiling", "support.preloaded", "support.processes"]

from support import tools  # noqa: E402

TOP = Path(__file__).resolve().parent.parent


def end_session(config, text):
    """Ends the session at once. A worker of pytest-xdist has its controller say why."""
    if hasattr(config, "workeroutput"):
        config.workeroutput["ended_by"] = text
    pytest.exit(text, 2)


@pytest.hookimpl(optionalhook=True)
def pytest_testnodedown(node):
    text = getattr(node, "workeroutput", {}).get("ended_by")
    if text:
        pytest.exit(text, 2)


@pytest.hookimpl(trylast=True)
def pytest_collection_modifyitems(config, items):
    """Ends the session if a test needs a tool that is missing, or with PARTS=any skips the test."""
    lacking = set()
    for item in items:
        needed = [tool for marker in item.iter_markers("needs") for tool in marker.args]
        if missing := [said for said in map(tools.lack_of, needed) if said]:
            lacking.update(missing)
            item.add_marker(pytest.mark.skip(reason="; ".join(missing)))
    if lacking and os.environ.get("PARTS") != "any":
        more = "no test was begun; PARTS=any skips those that need these tools"
        end_session(config, "\n".join([*sorted(lacking), more]))


@pytest.fixture(scope="session")
def top():
    """The folder of the repository."""
    return TOP


def built(config, path, target):
    if not path.exists():
        end_session(config, f"{path.relative_to(TOP)} is not built: `make {target}` builds it")
    return path


def program(name):
    """A fixture of the path of a program that is built."""

    def of_session(pytestconfig):
        return built(pytestconfig, TOP / "crates" / name / "out" / name, f"program CRATE={name}")

    return pytest.fixture(scope="session")(of_session)


replay = program("camel_replay")
explain = program("camel_explain")
map_check = program("camel_map_check")
refusals = program("camel_refusals")


@pytest.fixture(scope="session")
def library(pytestconfig):
    """The folder of the library for C, C++ and Rust."""
    built(pytestconfig, TOP / "out/library/libwenqolo.a", "library")
    return TOP / "out/library"
