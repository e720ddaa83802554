"""camel_explain as its user meets it: at a terminal, with a full output, with memory that is refused, and its counts."""

import os
import re
import select
import signal
import termios

import pytest

from support.processes import LIMIT, PIPE_HOLDS, receive, run, start_in_terminal
from support.refusals import refuse, sweep

GREETING = "help prints what may be typed; Ctrl-D ends the session\n"
# What is typed, and what comes of it. An empty line leaves the prompt with a space behind it.
SHOWN = """\
camel> register,26201
   accepted 1
camel> insert,26201,o:2:100:919471160000:0
   accepted 2
camel> pulbish
   fault 202
   word "pulbish": not one of register, insert, delete, cancel, clear, publish, call and show
camel>
camel> # a comment
camel> publish
   published 2
camel> call,2,26201,t11,91214365,n
   front 2 trigger 2 100 919471160000 continue
camel> show 26201
   published: insert,26201,o:2:100:919471160000:0
   pending: no update of 26201
camel> call,4,26201,t11,91214365,n,16
   front 2 none not-armed
   the O-CSI has no row of DP 4, only of DP 2
camel>
"""
TYPED = re.findall("^camel> ?(.*\n)", SHOWN, re.M)[:-1]
# The counts of the script that was typed so, with three records more.
REFUSED = "register,2\ninsert,26201,o:2:1::0\ndelete,26202,o\n"
COUNTS = [
    ["records 9", "faults 2", "refused 5 1", "refused 35 0", "refused 36 1", "refused 101 0"],
    ["accepted 2", "published 1", "trigger 1"],
    ["none unknown 0", "none no-csi 0", "none not-armed 1", "none emergency 0", "none criteria 0"],
    ["published subscribers 1", "accepted updates 2", "pending updates 0"],
]
QUOTED = """\
camel> "publish
camel> ",x
   fault 202
   word "publish\\n": not one of register, insert, delete, cancel, clear, publish, call and show; \
a double quote takes 2 lines into this record
camel> """
PUBLISHED = "camel> publish\n   published 0\ncamel> "
# The forms that the help names.
FORMS = ("register,IMSI", "insert,IMSI,ITEM", "delete,IMSI,WHAT", "cancel,IMSI", "clear", "publish",
         "call,2,IMSI", "call,4,IMSI", "call,12,IMSI", "call,13,IMSI", "show IMSI", "quit, exit")
COLOUR = re.compile(r"\x1b\[[0-9;]*m")


@pytest.fixture
def session(start, terminal, explain):
    """Types these texts, each after a prompt. Returns what the terminal shows, with line feeds only, and how the
    program ends."""

    def typed(*texts, colours=False):
        person, program = terminal
        before = termios.tcgetattr(program)[:4]
        environment = os.environ | {"NO_COLOR": "1"}
        if colours:
            del environment["NO_COLOR"]
        process = start_in_terminal(start, program, explain, env=environment)
        shown = b""
        for text in texts:
            shown += receive(person, lambda octets: octets.endswith(b"camel> "))
            os.write(person, text.encode())
        shown += receive(person)
        end = process.wait(LIMIT)
        assert termios.tcgetattr(person)[:4] == before
        return shown.replace(b"\r\n", b"\n").decode(), end

    return typed


def test_session_with_a_typo_goes_on_and_ends_with_status_1(session):
    text, end = session(*TYPED, "\x04", colours=True)
    assert COLOUR.sub("", text).replace("camel> \n", "camel>\n") == GREETING + SHOWN
    assert COLOUR.search(text)
    assert end == 1


def test_session_has_no_colours_under_no_color(session):
    text, end = session("register,26201\n", "\x04")
    assert not COLOUR.search(text)
    assert end == 0


def test_ctrl_c_ends_a_session(session):
    text, end = session("register,26201\n", "regis\x03", colours=True)
    assert text.startswith(GREETING + "camel> register,26201\n")
    assert end == -signal.SIGINT


@pytest.mark.parametrize("word", ["help", "?"])
def test_help_names_each_form_of_a_record(word, session):
    text, end = session(f"{word}\n", "publish\n", "\x04")
    before, after = f"{GREETING}camel> {word}\n", PUBLISHED + "\n"
    assert text.startswith(before) and text.endswith(after)
    lines = text[len(before) : -len(after)].splitlines()
    assert [form for form in FORMS if not any(line.startswith("   " + form) for line in lines)] == []
    assert end == 0


@pytest.mark.parametrize("word", ["quit", "exit"])
def test_word_ends_a_session_as_ctrl_d_does(word, session):
    assert session("publish\n", f"{word}\n") == (f"{GREETING}{PUBLISHED}{word}\n", 0)


@pytest.mark.parametrize("word", ["quit", "exit"])
def test_word_ends_a_session_with_the_status_of_a_typo(word, session):
    assert session("pulbish\n", f"{word}\n")[1] == 1


def test_record_of_two_lines_is_explained_once(session):
    text, _ = session('"publish\n', '",x\n', "\x04")
    assert text.rstrip() == GREETING + QUOTED.rstrip()


def test_record_without_an_end_is_explained_and_nothing_is_asked_then(session):
    text, _ = session("publish\x04", "\x04")
    assert text.removeprefix(GREETING).split() == ["camel>", "publishcamel>", "published", "0"]


def test_output_that_is_full_is_208(explain):
    with open("/dev/full", "wb") as full:
        left = run(explain, octets=b"publish\n", stdout=full)
    assert (left.returncode, left.stderr) == (1, b"camel_explain: fault 208: the output can't be written\n")


def test_help_has_examples(explain):
    left = run(explain, "--help")
    assert left.returncode == 0 and b"Examples:" in left.stdout


def test_memory_that_is_refused_is_done_without_or_is_102(explain, refusing):
    """Each request is refused in turn. Then what is printed is a beginning of the whole, with 102, or the whole."""
    octets = b'register,26201\n# a comment\r"publish"\ncall,2,26201,"t\n11",91,n\n' + b"none," * 5000
    whole = refuse(refusing(0), [explain], octets=octets)
    ends = [end_of_refused(left, whole) for left in sweep(refusing, [explain], octets=octets)]
    assert None not in ends and "102" in ends


def end_of_refused(left, whole):
    """How a run ended of which a request was refused, or None if it may not end so."""
    if left.said == "camel_explain: fault 102: memory is refused\n":
        return "102" if left.status == 1 and whole.output.startswith(left.output) else None
    if left.status == 2:
        return "words rejected" if left.said and not left.output else None
    return "whole" if left[:3] == (whole.status, whole.output, "") else None


def test_counts_are_those_of_the_script(explain):
    output = run(explain, "-qs", octets="".join([*TYPED, REFUSED]).encode()).stdout.decode()
    *lines, memory = [" ".join(line.split()) for line in output[output.index("records  ") :].splitlines()]
    assert lines == sum(COUNTS, [])
    assert re.fullmatch(r"memory in KiB [1-9]\d*", memory)


def test_terminal_shows_how_far_a_long_run_is(explain, start, terminal):
    person, program = terminal
    process = start(explain, "--quiet", stderr=program)
    told = b""
    for sent in range(8192, 1_000_000, 8192):
        process.stdin.write(b"publish\n" * 8192)
        if select.select([person], [], [], 0.1)[0]:
            told += os.read(person, PIPE_HOLDS)
        if b" records" in told:
            break
    process.stdin.close()
    assert process.wait(LIMIT) == 0
    os.close(program)
    told += receive(person)
    first = re.fullmatch(rb"\r(\d+) records(?:\r\d+ records)*\r\x1b\[K", told)
    assert first, told
    assert 0 < int(first[1]) <= sent and int(first[1]) % 8192 == 0
