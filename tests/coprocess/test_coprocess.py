"""camel_replay as a child between pipes: of a switch in C, and of the first call of docs/PIPES.md."""

import os

import pytest

from support.compiling import TOP, compiler_of, output
from support.pages import commands_of, try_commands


@pytest.mark.needs("cc")
def test_switch_in_c(replay, tmp_path):
    """Each record has its line, also in CALLS round trips, and each child its end. Prints what a round trip takes."""
    source, program = TOP / "examples/coprocess.c", tmp_path / "coprocess"
    output(*compiler_of(source), "-o", program, source)
    print(output(program, replay, os.environ.get("CALLS", "1000")))


@pytest.mark.parametrize("commands, wanted, files", commands_of("docs/PIPES.md"))
def test_first_call(commands, wanted, files, replay, tmp_path):
    output(TOP / "scripts/install", tmp_path, "program")
    path = f"{tmp_path}/bin:{os.environ['PATH']}"
    try_commands(commands, wanted, files, tmp_path, os.environ | {"PATH": path})
