"""camel_replay over the cases in this folder, and over the examples."""

from pathlib import Path

import pytest

from support.cases import PARTS, read_case, read_example, strays
from support.processes import run

FOLDER = Path(__file__).parent
EXAMPLES = FOLDER.parents[1] / "examples"


@pytest.mark.parametrize("path", sorted(FOLDER.glob("*.case")), ids=lambda path: path.stem)
def test_script_leaves_what_its_case_says(path, replay, top):
    case = read_case(path)
    case.check(run(replay, *case.words, octets=case.input * case.repeat, cwd=top))


def test_each_file_of_scripts_is_a_case():
    assert strays(FOLDER, ".case", ".py") == []


@pytest.mark.parametrize("script", sorted(EXAMPLES.glob("*.csv")), ids=lambda script: script.stem)
def test_example_leaves_what_is_beside_it(script, replay, top):
    case = read_example(script)
    case.check(run(replay, *case.words, octets=case.input, cwd=top))


def test_each_file_of_examples_is_known():
    """Beside examples there are pages, programs, the converter of addresses and the glue of osmo-msc."""
    for path in EXAMPLES.iterdir():
        if path.suffix in (".txt", *PARTS):
            assert path.with_suffix(".csv").exists(), path
        elif path.name not in ("address", "osmo-msc"):
            assert path.suffix in (".csv", ".md", ".c", ".cpp", ".rs"), path
