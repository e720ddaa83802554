"""The commands that a page shows, each with the files that it needs and what it prints.

A block of code whose first line names a file, as ```c first.c does, is that file, unless the repository has it. A block
of commands whose first line names a tool, as ```sh c++ does, is run by `sh -eu`, and prints the next block of text
(```text)."""

import re

import pytest

from support.compiling import TOP, output

BLOCK = re.compile(r"^```(\w+)(?: (\S+))?\n(.*?)^```$", re.M | re.S)


def commands_of(page):
    """A parameter of a test for each block of commands: the commands, what they print, and the files before them."""
    blocks = BLOCK.findall((TOP / page).read_text())
    files, commands = {}, []
    for at, (language, name, text) in enumerate(blocks):
        if language == "sh" and name:
            wanted = next((block[2] for block in blocks[at:] if block[0] == "text"), "")
            commands.append(pytest.param(text, wanted, dict(files), id=f"{len(commands) + 1}-{name}"))
        elif name and language not in ("sh", "text") and not (TOP / name).exists():
            files[name] = text
    return commands


def try_commands(commands, wanted, files, folder, environment):
    """Runs the commands in a folder that has the files, and compares what they print."""
    for name, text in files.items():
        (folder / name).parent.mkdir(parents=True, exist_ok=True)
        (folder / name).write_text(text)
    assert output("/bin/sh", "-euc", commands, cwd=folder, env=environment, input="") == wanted
