"""What camel_map_check reads and makes of COUNT random MAP arguments of each kind, beside what they were written of,
the model of its rules, and tshark. What differs from tshark is counted by the rule or the trait that explains it."""

import os
from collections import Counter
from functools import partial

import pytest
from support.map_checking import arguments, joined, scripts
from support.map_checking.dumped import kept_dump
from support.side_by_side import chunks_of, side_by_side

pytestmark = [pytest.mark.needs("tshark"), pytest.mark.usefixtures("map_check", "replay")]

COUNT, SEED = int(os.environ.get("COUNT") or 2000), os.environ.get("SEED") or "1"
# A worker takes so many arguments at a time, and so many differences are shown. Of scripts there are so many.
CHUNK, SHOWN, SCRIPTS = 1000, 10, 200


def check_all(check, chunks, name):
    """Compares arguments, and prints what they leave."""
    kinds, classes, differences = Counter(), Counter(), []
    for some_kinds, some_classes, some in side_by_side(check, chunks):
        kinds += some_kinds
        classes += some_classes
        differences += some
    print(f"{kinds.total()} {name} arguments: {', '.join(f'{kinds[kind]} {kind}' for kind in sorted(kinds))}")
    for name, number in sorted(classes.items(), key=lambda item: (item[0] != "as tshark", item)):
        print(f"  {name}: {number}")
    assert not differences, "\n".join([f"{len(differences)} differences", *differences[:SHOWN]])


@pytest.mark.parametrize("kind", arguments.KINDS)
def test_arguments_are_read_as_the_model_and_tshark_read_them(kind):
    check_all(partial(arguments.check_chunk, SEED, kind), chunks_of(COUNT, CHUNK), kind)


if "DUMP" in os.environ:

    def test_lines_of_the_dump_that_is_named():
        dump = kept_dump(os.environ["DUMP"])
        chunks = [dump[numbers.start : numbers.stop] for numbers in chunks_of(len(dump), CHUNK)]
        check_all(partial(arguments.check_lines, "dumped"), chunks, "dumped")


def test_inserts_split_over_two_arguments_are_joined():
    totals, differences = (0, 0, 0), []
    for counts, some in side_by_side(partial(joined.check_pairs, SEED), chunks_of(COUNT, CHUNK)):
        totals = [*map(sum, zip(totals, counts))]
        differences += some
    print("{} joined arguments, {} of them refused, and {} as tshark".format(*totals))
    assert not differences, "\n".join([f"{len(differences)} differences", *differences[:SHOWN]])


def test_scripts_leave_the_same_once_their_updates_went_through_octets():
    triggers = sum(side_by_side(partial(scripts.check_script, SEED), range(SCRIPTS)))
    print(f"{SCRIPTS} scripts, with {triggers} triggers")
    assert triggers
