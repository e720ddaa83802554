"""Each request for memory of a run refused in turn. The tables beside this say how many requests fail each call, what
it answers then, and how many it does without.

camel_refusals sets a stage, makes a call and looks at the end; a step that is refused memory leaves all as it was, and
is made again. So does refused.c with each call in the life of a store. Each of their runs has to end as one that is
refused nothing, and says what became of the request. A replay ends with its whole output, or with a fault as
docs/SCRIPT.md says."""

import re
from collections import Counter

import pytest

from support.compiling import TOP, output
from support.refusals import refuse, sweep

HERE = TOP / "tests/refused"
ALL = 10**9
HEAD = "| Call | Requests that fail it | What it answers | Requests that it does without |"
HEAD_IN_C = "| Call | Calls | Requests that fail one | What it answers | Requests that they do without |"
OTHERS_IN_C = "| all other calls, and a publication that is held |  | 0 | as ever | 0 |"


def table(name, head):
    """The rows of a table."""
    lines = (HERE / name).read_text().splitlines()
    assert lines[:2] == [head, "|---" * head.count(" | ") + "|---|"]
    return lines[2:]


def call_of(row):
    return row.removeprefix("| ").partition(" | ")[0]


def word_of(row):
    return re.sub(r"\W+", "_", call_of(row)).strip("_")


*CALLS, ONE_THREAD, TWO_THREADS = table("refusals.txt", HEAD)


@pytest.fixture(scope="session")
def takes(refusals):
    """Whether each call of camel_refusals takes memory."""
    lines = [line.partition(" ") for line in output(refusals).splitlines()]
    return {call: word == "memory" for word, _, call in lines}


def test_each_call_has_a_row(takes):
    assert [*map(call_of, CALLS)] == [*takes]
    assert [*map(call_of, (ONE_THREAD, TWO_THREADS))] == ["`camel_replay`", "`camel_replay --threads 2`"]


def fates(refusing, command, whole):
    """Which step each request fails and what that answers, or that the run does without it."""
    for ended in sweep(refusing, command):
        assert (ended.status, ended.output) == whole[:2], ended
        if ended.refused:
            step, count, code = ended.said.split() or ("without", "1", "")
            assert (ended.refused, count) == (1, "1") and (code == "102" or step in ("call", "without")), ended
            yield step, code


@pytest.mark.parametrize("row", CALLS, ids=word_of)
def test_call(row, takes, refusals, refusing):
    """A request that is done without counts for the call if it comes behind the last one that fails the stage, and
    before the first that fails what looks at the end. A call that takes no memory is made where all is refused."""
    command = [refusals, call_of(row)]
    whole = refuse(refusing(0), command)
    assert whole == (0, whole.output, "", 0) and whole.output
    steps, codes = zip(*fates(refusing, command, whole))
    stage = max((at for at, step in enumerate(steps, 1) if step == "stage"), default=0)
    end = steps.index("end") if "end" in steps else len(steps)
    without = steps[stage:end].count("without")
    answers = dict.fromkeys(code for step, code in zip(steps, codes) if step == "call")
    assert takes[call_of(row)] == bool(answers)
    if not answers:
        assert without == 0 and refuse(refusing(stage + 1, ALL), command) == whole
    said = " or ".join(answers) or "as ever"
    assert f"| {call_of(row)} | {steps.count('call')} | {said} | {without} |" == row


def fault_of(ended, width, is_threaded, records, is_recorded):
    """The number of the fault that a run ends with, and whether it names a record. The line may be cut off if more than
    one request is refused. On one thread exactly the lines before the record are written, and a fault without a record
    comes before any other. With threads the script is read before a line is written."""
    lines = ended.output.count(b"\n")
    numbers = [102, 106] if is_threaded else [] if lines or is_recorded else [102]
    named = range(1, records + 2) if is_threaded else [lines + 1]
    possible = [(f"camel_replay: fault {number}\n", number, False) for number in numbers]
    possible += [(f"camel_replay: record {record}: fault 102\n", 102, True) for record in named]
    said = [fault for fault in possible if ended.said == fault[0] or width > 1 and fault[0].startswith(ended.said)]
    assert said and ended.status == 1 and not (is_threaded and ended.output), ended
    return said[0][1:]


def replayed(runs, whole, width, is_threaded, records):
    """How many runs end with a fault, how many do without what they are refused, and the numbers of whole faults."""
    failing = without = 0
    numbers, is_recorded = set(), False
    for ended in runs:
        assert whole.startswith(ended.output) and ended.output[-1:] in (b"", b"\n"), ended
        if ended.status == 0 or ended.refused == 0:
            assert ended[:3] == (0, whole, ""), ended
            without += ended.refused > 0
            continue
        number, has_record = fault_of(ended, width, is_threaded, records, is_recorded)
        failing += 1
        is_recorded |= has_record
        numbers |= {number} if ended.said.endswith("\n") else set()
    assert failing and (is_recorded or width > 1)
    return failing, without, numbers


@pytest.mark.parametrize("row", [ONE_THREAD, TWO_THREADS], ids=word_of)
def test_replay(row, replay, refusing):
    """Each request is refused with those behind it, three, one and all, and at last by itself. Which thread makes which
    request hangs on the schedule, and those of a part of the audit are done without: their sum is counted."""
    name, words = ("threads", ["--threads", "2"]) if row == TWO_THREADS else ("replay", ["--limit", "3"])
    octets, whole = (HERE / f"{name}.csv").read_bytes(), (HERE / f"{name}.lines").read_bytes()
    numbers = set()
    for width in (4, 2, ALL, 1):
        runs = sweep(refusing, [replay, *words], width, octets=octets)
        failing, without, met = replayed(runs, whole, width, name == "threads", octets.count(b"\n"))
        numbers |= met
    answers = " or ".join(map(str, sorted(numbers)))
    counts = f"{failing} | {answers} | {without}"
    if name == "threads":
        counts = f"{failing + without}, with those that it does without | {answers} | by schedule"
    assert f"| {call_of(row)} | {counts} |" == row


@pytest.mark.needs("cc")
@pytest.mark.parametrize("words", [[], ["between"]], ids=["made_again", "behind_an_update"])
def test_life_of_a_store_in_c(words, compiled, refusing):
    """A publication that fails is made again at once, or behind a further update. Some are dropped, and a publication
    behind that is refused memory too."""
    command = [compiled("tests/library/refused.c"), *words]
    whole = refuse(refusing(0), command)
    assert whole.status == 0, whole
    calls = Counter(line.removesuffix(" | made") for line in whole.said.splitlines())
    met = Counter()
    for ended in sweep(refusing, command):
        told = Counter(ended.said.splitlines())
        refused = sum(count for line, count in told.items() if not line.endswith(" | made"))
        assert (ended.status, ended.output) == whole[:2] and refused == ended.refused <= 1, ended
        met += told
    assert met["restoring | made"] > 0
    failed = {call: met[f"{call} | failed"] for call in calls}
    rows = [f"| {call} | {calls[call]} | {failed[call]} | {'102' if failed[call] else 'as ever'} | "
            f"{met[f'{call} | without']} |" for call in calls]
    assert sorted([*rows, OTHERS_IN_C]) == sorted(table("refused.txt", HEAD_IN_C))
