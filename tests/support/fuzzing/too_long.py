"""Scripts that are far too long, and threads that do not start: the status, what is written, and the most memory."""

import ctypes
import itertools
import os
import resource
import subprocess
import sys
import tempfile
from functools import partial
from pathlib import Path

from support.fuzzing.replays import FIRST_CALL, FIRST_CALL_LINES, MAX_RECORDS, PROGRAM, SHORT, SHORT_LINE, Fault

# The most memory of a run is BASE and MULTIPLE times the octets of the longest record. BASE is more than the program
# needs, since the process counts that starts it (support/measured.py). The system may give huge pages, most of which
# nobody uses, so the program is started without them.
BASE = 32 * 2**20
MULTIPLE = 28
PR_SET_THP_DISABLE = 41
MEASURED = Path(__file__).resolve().parent.parent / "measured.py"
LIBC = ctypes.CDLL(None)

UPDATE_LINES, CALL_LINE = FIRST_CALL_LINES[:3], FIRST_CALL_LINES[3]
REFUSED = b"refused 36\n"

# A name; the octets before the part that is repeated, that part, how often it is there, and the octets after it; and
# the fault of that record, which is the fifth one, or None if it is refused.
TOO_LONG = (
    ("a field of 10 MB", b"register,", b"1", 10_000_000, b"\n", 205),
    ("an address of 10 MB", b"insert,26201,o:2:100:", b"91", 5_000_000, b":0\n", None),
    ("numbers of 10 MB", b"insert,26201,oc:2:e/91", b"+91", 3_333_333, b"/:::\n", None),
    ("a quoted field of 10 MB", b'"', b"publish\n", 1_250_000, b'"\n', 202),
    ("a record of 10^5 fields", b"register,26201", b",26201", 100_000, b"\n", 203),
    ("a record of 10^5 rows", b"insert,26201", b",o:2:100:919471160000:0", 100_000, b"\n", None),
    ("a record of 10^6 entries", b"insert,26201", b",oc:2::::", 1_000_000, b"\n", None),
    ("a record of 10^7 empty fields", b"", b",", 10_000_000, b"\n", 202),
    ("an item of 10^5 parts", b"insert,26201,o:2:100:91:0", b":0", 100_000, b"\n", 203),
    ("a line of 50 MB without an end", b"register,26201", b"1", 50_000_000, b"", 205),
    ("an open quote before 50 MB", b'register,"', b"26201\n", 8_333_333, b"", 205),
)


def feed(pipe, pieces):
    """Writes each piece so many times, as far as they are read."""
    try:
        with pipe:
            for piece, times in pieces:
                at_once = max(1, min(times, 2**16 // max(1, len(piece))))
                for _ in range(times // at_once):
                    pipe.write(piece * at_once)
                pipe.write(piece * (times % at_once))
    except BrokenPipeError:
        pass


def prepare(limits):
    """Sets what holds for the program that this process becomes."""
    LIBC.prctl(PR_SET_THP_DISABLE, 1, 0, 0, 0)
    if limits:
        limits()


def replay(options, pieces, lines, fault, limits=None):
    """Runs the program over a script, and checks what it leaves. Returns its most memory in octets."""
    with tempfile.TemporaryFile() as out, tempfile.TemporaryFile() as err:
        report, told = os.pipe()
        command = [sys.executable, "-IS", MEASURED, str(told), PROGRAM, *options]
        child = subprocess.Popen(command, stdin=subprocess.PIPE, stdout=out, stderr=err, pass_fds=[told],
                                 preexec_fn=partial(prepare, limits))
        os.close(told)
        feed(child.stdin, pieces)
        with open(report, encoding="ascii") as kilobytes:
            most = int(kilobytes.read()) * 1024
        err.seek(0)
        assert err.read() == (f"camel_replay: {fault}\n".encode() if fault else b"")
        assert child.wait() == (1 if fault else 0)
        out.seek(0)
        for line in lines:
            assert out.readline() == line
        assert out.readline() == b""
        return most


def check_memory(longest, most):
    """Checks the most memory of a run over a script with a record of so many octets."""
    print(f"{most / 2**20:.1f} MiB, the base and {max(0, most - BASE) / longest:.1f} times the longest record")
    assert most <= BASE + MULTIPLE * longest, f"{most} octets of memory"


def check_too_long(before, part, times, after, code):
    """A script with one record that is far too long, on one thread and with two."""
    pieces = [(FIRST_CALL, 1), (before, 1), (part, times), (after, 1)]
    longest = len(before) + len(part) * times + len(after)
    refused = [] if code else [REFUSED]
    fault = Fault(5, code) if code else None
    check_memory(longest, replay([], pieces, [*UPDATE_LINES, CALL_LINE, *refused], fault))
    answered = [*UPDATE_LINES, *refused, b"session 0 call 0 " + CALL_LINE, b"audit ok\n"]
    check_memory(longest, replay(["--threads", "2"], pieces, [] if code else answered, fault))


def check_short_records(count, fault):
    """Short records, as many as a script may have or more."""
    lines = itertools.repeat(SHORT_LINE, MAX_RECORDS)
    check_memory(len(SHORT), replay([], [(SHORT, count)], lines, fault))


def check_threads_that_do_not_start(threads, stack):
    """A thread that asks for a greater stack than the process may have does not start."""

    def limit():
        resource.setrlimit(resource.RLIMIT_STACK, (stack, resource.RLIM_INFINITY))
        resource.setrlimit(resource.RLIMIT_AS, (2**29, 2**29))

    replay(["--threads", str(threads)], [(FIRST_CALL, 1)], [], Fault(None, 106), limit)
