"""Processes that tests run, their streams and terminals, and how long a test waits for them."""

import os
import pty
import select
import signal
import subprocess
import tempfile
import termios
from contextlib import ExitStack
from fcntl import ioctl
from functools import partial
from pathlib import Path

import pytest

# Seconds without progress, after which a run has failed, and seconds of the processor that no run takes.
LIMIT = 120
MOST_OF_PROCESSOR = 1200
PIPE_HOLDS = 65536


def run(program, *words, octets=b"", **options):
    """Runs a program to its end over these octets. What it leaves is octets too."""
    used, used_before = 0, None
    with ExitStack() as stack:
        script = stack.enter_context(tempfile.TemporaryFile())
        script.write(octets)
        script.seek(0)
        streams = {"stdin": script, "stdout": subprocess.PIPE, "stderr": subprocess.PIPE}
        process = stack.enter_context(subprocess.Popen([program, *words], **{**streams, **options}))
        stack.callback(process.kill)
        while used != used_before and used < MOST_OF_PROCESSOR:
            try:
                output, error = process.communicate(timeout=LIMIT)
                return subprocess.CompletedProcess(process.args, process.returncode, output, error)
            except subprocess.TimeoutExpired:
                used, used_before = processor_time(process), used
    raise AssertionError(f"{process.args} doesn't end")


def processor_time(process):
    """The seconds of the processor that a process has used. They show on a busy machine too that it goes on."""
    ticks = Path(f"/proc/{process.pid}/stat").read_text().rpartition(")")[2].split()[11:13]
    return sum(map(int, ticks)) / os.sysconf("SC_CLK_TCK")


@pytest.fixture
def start():
    """Starts a program between three pipes, or with the streams that are named. It ends with the test at the latest.

    Who starts the tests may ignore signals, and a program would ignore them too."""
    numbers = [signal.SIGINT, signal.SIGTERM, signal.SIGHUP]
    ignored = [number for number in numbers if signal.getsignal(number) == signal.SIG_IGN]
    with ExitStack() as stack:
        for number in ignored:
            stack.callback(signal.signal, number, signal.signal(number, signal.SIG_DFL))

        def started(*command, **options):
            streams = {"stdin": subprocess.PIPE, "stdout": subprocess.PIPE, "stderr": subprocess.PIPE, "bufsize": 0}
            process = stack.enter_context(subprocess.Popen(command, **{**streams, **options}))
            stack.callback(process.kill)
            return process

        yield started


def receive(source, is_enough=lambda octets: False):
    """What comes until it is enough, or up to the end of the stream."""
    octets = b""
    while not is_enough(octets):
        assert select.select([source], [], [], LIMIT)[0], f"nothing came after {octets!r}"
        try:
            taken = os.read(source, PIPE_HOLDS)
        except OSError:  # so ends a terminal that no process has open any more
            break
        if not taken:
            break
        octets += taken
    return octets


@pytest.fixture
def terminal():
    """Both sides of a terminal: that of a person, and that of a program."""
    person, program = pty.openpty()
    yield person, program
    os.close(person)


def start_in_terminal(start, side, *command, **options):
    """Starts a program as the foreground job of a terminal. Its side of the terminal is closed here then."""
    take = partial(ioctl, 0, termios.TIOCSCTTY, 0)
    streams = {"stdin": side, "stdout": side, "stderr": side}
    process = start(*command, **streams, start_new_session=True, preexec_fn=take, **options)
    os.close(side)
    return process
