"""camel_replay over the streams that a user gives it, and with the signals that a user sends: streams that are closed,
full or of the wrong kind, an output that nobody reads any more, an input that comes octet by octet, and a terminal.

What is written, the standard error and the end of each run are what docs/SCRIPT.md says.
"""

import mmap
import os
import re
import resource
import select
import signal
import tempfile
import termios
import threading
import time
from functools import partial

import pytest

from support.processes import LIMIT, PIPE_HOLDS, receive, run, start_in_terminal

RECORDS = [b"register,26201\n", b"insert,26201,o:2:1:91:0\n", b"publish\n", b"call,2,26201,t11,91,n\n"]
LINES = [b"accepted 1\n", b"accepted 2\n", b"published 2\n", b"front 2 trigger 2 1 91 continue\n"]
SCRIPT = b"".join(RECORDS)
OUTPUT = b"".join(LINES)
THREADS = ("--threads", "2")
THREADS_OUTPUT = b"".join(LINES[:3]) + b"session 0 call 0 " + LINES[3] + b"audit ok\n"
# So many calls that their lines are more than a pipe holds.
CALLS = 100_000
LONG_SCRIPT = b"".join(RECORDS[:3]) + CALLS * RECORDS[3]
LONG_OUTPUT = b"".join(LINES[:3]) + CALLS * LINES[3]
WAYS = ("one thread", "threads")
each_signal = pytest.mark.parametrize(
    "number", (signal.SIGINT, signal.SIGTERM, signal.SIGHUP), ids=lambda number: number.name
)

# The lines of faults on standard error: at the first or the third record, or at none.
AT_206 = b"camel_replay: record 1: fault 206\n"
AT_208 = b"camel_replay: record 1: fault 208\n"
THIRD_208 = b"camel_replay: record 3: fault 208\n"
AFTER_208 = b"camel_replay: fault 208\n"


@pytest.fixture
def begin(start, replay):
    """Starts the program between three pipes, or with the streams that are named."""
    return partial(start, replay)


def send(process, octets):
    os.write(process.stdin.fileno(), octets)


def receive_count(source, count):
    """So many octets, and what comes at once with the last."""
    return receive(source, lambda octets: len(octets) >= count)


def assert_silent(source, seconds=0.05):
    assert not select.select([source], [], [], seconds)[0], os.read(source, PIPE_HOLDS)


def assert_end(process, end, error=b""):
    """Waits for the end of a process, its status or its signal, and compares that and what it says."""
    code = process.wait(LIMIT)
    assert (code if code >= 0 else signal.Signals(-code)) == end
    assert not process.stderr or receive(process.stderr.fileno()) == error


def assert_rest(process, rest=b""):
    """The input ends, and then the run does."""
    process.stdin.close()
    assert receive(process.stdout.fileno()) == rest
    assert_end(process, 0)


def converse(sink, source, records):
    """Sends records, each after the line of the one before."""
    for at in records:
        os.write(sink, RECORDS[at])
        assert receive_count(source, len(LINES[at])) == LINES[at]


def converse_with(process, records=(0, 1)):
    converse(process.stdin.fileno(), process.stdout.fileno(), records)


# Redirections of the shell, and what a run over the script leaves then: its output, status and error, on one thread and
# with threads.
REDIRECTED = {
    "input empty": ("< /dev/null", (b"", 0, b""), (b"audit ok\n", 0, b"")),
    "input closed": ("<&-", (b"", 1, AT_206), (b"", 1, AT_206)),
    "input a directory": ("< .", (b"", 1, AT_206), (b"", 1, AT_206)),
    "input open for writing only": ("0> /dev/null", (b"", 1, AT_206), (b"", 1, AT_206)),
    "output closed": (">&-", (b"", 1, AT_208), (b"", 1, AFTER_208)),
    "output closed, nothing but the audit to write": (">&- < /dev/null", (b"", 0, b""), (b"", 1, AFTER_208)),
    "output full": ("> /dev/full", (b"", 1, AT_208), (b"", 1, AFTER_208)),
    "output open for reading only": ("1< /dev/null", (b"", 1, AT_208), (b"", 1, AFTER_208)),
}


@pytest.mark.parametrize("redirection, of_one_thread, of_threads", REDIRECTED.values(), ids=REDIRECTED)
def test_run_with_a_redirection(redirection, of_one_thread, of_threads, replay):
    for words, left in ((), of_one_thread), (THREADS, of_threads):
        ended = run("sh", "-c", f'exec "$@" {redirection}', "sh", replay, *words, octets=SCRIPT)
        assert (ended.stdout, ended.returncode, ended.stderr) == left, words


@pytest.mark.parametrize("redirection", ["2>&-", "2> /dev/full"], ids=["closed", "full"])
def test_fault_that_no_standard_error_takes_is_a_status(redirection, replay):
    left = run("sh", "-c", f'exec "$@" {redirection}', "sh", replay, octets=b"none\n")
    assert (left.stdout, left.returncode, left.stderr) == (b"", 1, b"")


@pytest.mark.parametrize("words, error", [((), AT_208), (THREADS, AFTER_208)], ids=WAYS)
def test_output_whose_reader_left_before_the_first_line_is_208(words, error, begin):
    source, sink = os.pipe()
    os.close(source)
    process = begin(*words, stdout=sink)
    os.close(sink)
    send(process, SCRIPT)
    process.stdin.close()
    assert_end(process, 1, error)


def test_output_whose_reader_leaves_after_two_lines_is_208(begin):
    process = begin()
    converse_with(process)
    process.stdout.close()
    send(process, RECORDS[2])
    assert_end(process, 1, THIRD_208)


def begin_long(begin, *words, **options):
    with tempfile.TemporaryFile() as script:
        script.write(LONG_SCRIPT)
        script.seek(0)
        return begin(*words, stdin=script, **options)


def assert_208(process, least, most):
    """Compares the fault of a write with how many octets the lines before its record have, at least and at most."""
    assert process.wait(LIMIT) == 1
    error = receive(process.stderr.fileno())
    told = re.fullmatch(rb"camel_replay: record (\d+): fault 208\n", error)
    assert told, error
    assert least <= sum(map(len, LONG_OUTPUT.splitlines(True)[: int(told[1]) - 1])) <= most


def test_reader_that_leaves_a_full_pipe_is_208(begin):
    process = begin_long(begin)
    found = receive_count(process.stdout.fileno(), 1000)
    process.stdout.close()
    assert LONG_OUTPUT.startswith(found)
    assert_208(process, len(found), len(found) + PIPE_HOLDS)


def test_reader_that_leaves_a_full_pipe_of_threads_is_208(begin):
    process = begin_long(begin, *THREADS)
    found = receive_count(process.stdout.fileno(), 1000)
    process.stdout.close()
    calls = (b"session 0 call %d %b" % (call, LINES[3]) for call in range(0, CALLS, 2))
    assert (b"".join(LINES[:3]) + b"".join(calls)).startswith(found)
    assert_end(process, 1, AFTER_208)


def test_output_that_refuses_what_does_not_fit_is_208(begin):
    source, sink = os.pipe()
    os.set_blocking(sink, False)
    process = begin_long(begin, stdout=sink)
    os.close(sink)
    process.wait(LIMIT)
    found = receive(source)
    os.close(source)
    assert LONG_OUTPUT.startswith(found) and found.endswith(LINES[3])
    assert_208(process, len(found), len(found))


def test_input_that_holds_no_more_and_says_so_is_206(replay):
    """Behind any octet. The lines of the records before are written."""
    for octets in range(len(SCRIPT) + 1):
        count = SCRIPT[:octets].count(b"\n")
        source, sink = os.pipe()
        os.set_blocking(source, False)
        os.write(sink, SCRIPT[:octets])
        left = run(replay, stdin=source)
        os.close(source)
        os.close(sink)
        assert left.stdout == b"".join(LINES[:count])
        assert (left.returncode, left.stderr) == (1, b"camel_replay: record %d: fault 206\n" % (count + 1))


AT_LIMIT = {
    "signal": ((), False, signal.SIGXFSZ, b""),
    "signal ignored": ((), True, 1, THIRD_208),
    "signal ignored, with threads": (THREADS, True, 1, AFTER_208),
}


def limit_files(most):
    resource.setrlimit(resource.RLIMIT_CORE, (0, 0))
    resource.setrlimit(resource.RLIMIT_FSIZE, (most, most))


@pytest.mark.parametrize("words, ignored, end, error", AT_LIMIT.values(), ids=AT_LIMIT)
def test_file_at_its_limit_has_what_there_is_room_for(words, ignored, end, error, begin):
    """A file that may hold 30 octets, in which the third line has room for a part of it."""
    with tempfile.TemporaryFile() as file:
        process = begin(*words, stdout=file, restore_signals=not ignored, preexec_fn=partial(limit_files, 30))
        send(process, SCRIPT)
        process.stdin.close()
        assert_end(process, end, error)
        file.seek(0)
        assert file.read() == OUTPUT[:30]


def test_write_that_fails_behind_any_octet_is_208(replay):
    for most in range(len(OUTPUT)):
        record = OUTPUT[:most].count(b"\n") + 1
        with tempfile.TemporaryFile() as file:
            limit = partial(limit_files, most)
            left = run(replay, octets=SCRIPT, stdout=file, restore_signals=False, preexec_fn=limit)
            file.seek(0)
            assert file.read() == OUTPUT[:most]
        assert (left.returncode, left.stderr) == (1, b"camel_replay: record %d: fault 208\n" % record)


def send_slowly(process, octets):
    for octet in octets:
        send(process, bytes([octet]))
        assert_silent(process.stdout.fileno(), 0.003)


SLOW = {
    "line feeds": (b"", b"\n"),
    "byte order mark": (b"\xef\xbb\xbf", b"\n"),
    "empty lines": (b"\n\n\n", b"\n"),
    "carriage returns": (b"", b"\r"),
    "carriage returns and line feeds": (b"", b"\r\n"),
}


@pytest.mark.parametrize("before, line_end", SLOW.values(), ids=SLOW)
def test_line_comes_with_the_octet_that_ends_its_record(before, line_end, begin):
    process = begin()
    assert_silent(process.stdout.fileno(), 0.1)  # by then it waits for the first octet
    send_slowly(process, before)
    for record, line in zip(RECORDS, LINES):
        send_slowly(process, record[:-1])
        send(process, line_end[:1])
        assert receive_count(process.stdout.fileno(), len(line)) == line
        send_slowly(process, line_end[1:])
    assert_rest(process)


def test_threads_answer_an_input_that_comes_octet_by_octet_at_its_end(begin):
    process = begin(*THREADS)
    send_slowly(process, SCRIPT)
    assert_rest(process, THREADS_OUTPUT)


# The records that are typed before, what is typed then, and what comes of it.
TYPED = {
    "Ctrl-D": ((), 4, b"\x04", b"", 0),
    "Ctrl-D, with threads": (THREADS, 0, SCRIPT + b"\x04", THREADS_OUTPUT, 0),
    "Ctrl-C": ((), 2, RECORDS[2][:-1] + b"\x03", b"", signal.SIGINT),
    "Ctrl-C, with threads": (THREADS, 0, SCRIPT + b"\x03", b"", signal.SIGINT),
    "a fault": ((), 2, b"none\n", b"camel_replay: record 3: fault 202\n", 1),
}


@pytest.mark.parametrize("words, count, typed, output, end", TYPED.values(), ids=TYPED)
def test_terminal_shows_each_line_before_the_next_is_typed(words, count, typed, output, end, start, replay, terminal):
    """Of threads nothing comes before the end of the input. The terminal neither echoes nor changes lines."""
    person, side = terminal
    modes = termios.tcgetattr(side)
    modes[1] &= ~termios.OPOST
    modes[3] &= ~termios.ECHO
    termios.tcsetattr(side, termios.TCSANOW, modes)
    process = start_in_terminal(start, side, replay, *words)
    converse(person, person, range(count))
    os.write(person, typed[:-1])
    assert_silent(person)
    os.write(person, typed[-1:])
    assert receive(person) == output
    assert_end(process, end)


@each_signal
@pytest.mark.parametrize("words, count, rest", [((), 2, RECORDS[2][:-1]), (THREADS, 0, SCRIPT)], ids=WAYS)
def test_signal_ends_a_run_between_lines(number, words, count, rest, begin):
    """What was answered is whole lines: half a record is not answered, and of threads nothing."""
    process = begin(*words)
    converse_with(process, range(count))
    send(process, rest)
    assert_silent(process.stdout.fileno())
    process.send_signal(number)
    assert receive(process.stdout.fileno()) == b""
    assert_end(process, number)


@each_signal
def test_signal_that_the_caller_ignores_does_nothing(number, begin):
    """As nohup does with SIGHUP."""
    process = begin(preexec_fn=partial(signal.signal, number, signal.SIG_IGN))
    converse_with(process)
    process.send_signal(number)
    converse_with(process, [2])
    assert_rest(process)


def feed(process, octets):
    try:
        process.stdin.write(octets)
    except OSError:  # the program has ended
        pass


@each_signal
def test_signal_amid_many_lines_leaves_a_beginning_of_them(number, begin):
    """The input does not end, so only the signal ends the program, and it comes while lines are written."""
    with tempfile.TemporaryFile() as file:
        process = begin(stdout=file)
        feeder = threading.Thread(target=feed, args=(process, LONG_SCRIPT))
        feeder.start()
        until = time.monotonic() + LIMIT
        while os.fstat(file.fileno()).st_size < 10_000 and time.monotonic() < until:
            time.sleep(0.0005)
        process.send_signal(number)
        assert_end(process, number)
        feeder.join()
        file.seek(0)
        found = file.read()
    assert len(found) >= 10_000
    # The system may cut a write that such a signal meets where a page of the file ends.
    assert len(found) % mmap.PAGESIZE == 0 or found.endswith(LINES[3])
    assert LONG_OUTPUT.startswith(found)


def test_run_that_is_stopped_goes_on_where_it_was(begin):
    process = begin()
    converse_with(process)
    process.send_signal(signal.SIGSTOP)
    os.waitid(os.P_PID, process.pid, os.WSTOPPED)
    send(process, RECORDS[2])
    assert_silent(process.stdout.fileno())
    process.send_signal(signal.SIGCONT)
    assert receive_count(process.stdout.fileno(), len(LINES[2])) == LINES[2]
    assert_rest(process)
