"""Replays of each beginning of each script, of scripts that are far too long, and of COUNT scripts of bad octets, which
SEED makes. What one thread leaves is compared with what several leave."""

import os
import random
from collections import Counter
from contextlib import contextmanager
from functools import partial
from pathlib import Path

import pytest
from support.cases import read_case
from support.fuzzing import prefixes, too_long
from support.fuzzing.outputs import compare
from support.fuzzing.replays import MAX_LIMIT, MAX_RECORDS, PROGRAM, Fault, Options, replay
from support.fuzzing.scripts import options_of, script_of
from support.side_by_side import side_by_side

pytestmark = pytest.mark.usefixtures("replay")

COUNT, SEED = int(os.environ.get("COUNT") or 1000), os.environ.get("SEED") or "1"
TOP = Path(__file__).resolve().parents[2]
SAMPLE = TOP / "examples/first-call.csv"

# A worker takes so many scripts at a time: one of each kind.
CHUNK = 10
# At least one of so many scripts ends without a fault and with accepted updates and triggers, and at least one of so
# many has its fault after the first record. Each of these faults is met. If not, the choice of scripts is faulty.
SHARE, FAULTS = 20, (202, 203, 204, 205, 207)


def bases_of(folder):
    """The scripts of the examples and of the cases by their names. Of those with the same octets it is the first."""
    bases = {}
    for path in sorted(folder.glob("examples/*.csv")) + sorted(folder.glob("tests/scripts/*.case")):
        octets = read_case(path).input if path.suffix == ".case" else path.read_bytes()
        bases.setdefault(octets, str(path.relative_to(folder)))
    return {name: octets for octets, name in bases.items()}


BASES = bases_of(TOP)


@contextmanager
def attributed_to(name, script, options, folder):
    """Keeps the script in a folder, if it leaves something else, and says how it is replayed again."""
    try:
        yield
    except AssertionError as fault:
        path = folder / "script.csv"
        path.write_bytes(script)
        words = " ".join(options.words(options.threads))
        raise AssertionError(f"{name}: {fault}\n{script[:600]!r}\n{PROGRAM} {words} < {path}") from None


def test_each_beginning_of_the_sample_leaves_what_is_known_of_it():
    sample, lefts = SAMPLE.read_bytes(), prefixes.expected_of_sample()
    assert len(lefts) == len(sample) + 1
    options = Options(threads=2, limit=MAX_LIMIT, profile=1)
    for length, expected in enumerate(lefts):
        assert replay(sample[:length], options) == expected, f"the first {length} octets"


def check_beginning(script, whole, options, folder, length):
    with attributed_to(f"the first {length} octets", script[:length], options, folder):
        prefixes.check_beginning(script[:length], whole, options)
    return length


@pytest.mark.parametrize("name", BASES)
def test_each_beginning_of_a_script_is_a_script(name, tmp_path):
    script, options = BASES[name], options_of(random.Random(f"{SEED} {name}"))._replace(threads=2)
    lengths = range(len(script) + 1)
    check = partial(check_beginning, script, replay(script, options), options, tmp_path)
    assert [*side_by_side(check, lengths, CHUNK)] == [*lengths]


@pytest.mark.parametrize("script", [pytest.param(script, id=name) for name, *script in too_long.TOO_LONG])
def test_record_that_is_far_too_long_takes_little_memory(script):
    too_long.check_too_long(*script)


@pytest.mark.parametrize("count, fault", ((MAX_RECORDS, None), (MAX_RECORDS + 1, Fault(MAX_RECORDS + 1, 207))))
def test_a_million_short_records_are_the_most(count, fault):
    too_long.check_short_records(count, fault)


@pytest.mark.parametrize("threads, stack", ((2, 2**30), (16, 2**27)))
def test_threads_that_do_not_start_are_a_fault(threads, stack):
    too_long.check_threads_that_do_not_start(threads, stack)


def check_script(bases, folder, number):
    script, options = script_of(SEED, number, bases)
    with attributed_to(f"seed {SEED}, script {number}", script, options, folder):
        return compare(script, options)[0]


def test_scripts_of_bad_octets_end_alike_on_one_thread_and_several(tmp_path):
    endings = [*side_by_side(partial(check_script, [*BASES.values()], tmp_path), range(COUNT), CHUNK)]
    faults = [ending.fault for ending in endings if ending.fault]
    codes, with_triggers = Counter(fault.code for fault in faults), sum(
        ending.accepted > 0 and ending.triggers > 0 for ending in endings)
    print(f"no fault: {COUNT - len(faults)}, of these {with_triggers} with accepted updates and triggers")
    print(f"faults after the first record: {sum(fault.record > 1 for fault in faults)}; {sorted(codes.items())}")
    print(f"answers of sessions over a later front than on one thread: {sum(ending.later for ending in endings)}")
    assert with_triggers >= COUNT // SHARE
    assert sum(fault.record > 1 for fault in faults) >= COUNT // SHARE
    assert [code for code in FAULTS if code not in codes] == []
