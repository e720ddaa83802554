"""Each beginning of a script is a script too."""

from support.fuzzing.csv_records import ended_records, octets_before
from support.fuzzing.outputs import compare
from support.fuzzing.replays import FIRST_CALL_LINES, Fault, Left, replay

NO_LINE = b""
ONE_LINE, TWO_LINES, THREE_LINES, FOUR_LINES = (b"".join(FIRST_CALL_LINES[:count]) for count in range(1, 5))

# What a shorter IMSI in the second record gives: no subscriber has it.
UNKNOWN = b"accepted 1\nrefused 5\n"

# What is written when no more than so many octets of examples/first-call.csv are read; and the fault of the next record
# then, if there is one. The shortest such beginning has an octet more than the longest one before.
BEGINNINGS = (
    (NO_LINE, ((0, None), (7, 202), (8, 203), (13, 205))),
    (ONE_LINE, ((25, None), (30, 202), (31, 203), (36, 205))),
    (UNKNOWN, ((46, None),)),
    (TWO_LINES, ((47, None),)),
    (ONE_LINE, ((48, 202), (68, 203), (69, 205))),
    (TWO_LINES, ((71, None), (77, 202))),
    (THREE_LINES, ((79, None), (82, 202), (83, 203), (84, 202), (114, 203), (115, 202))),
    (FOUR_LINES, ((117, None),)),
)


def expected_of_sample():
    """What one thread leaves of each beginning of examples/first-call.csv, the shortest first."""
    expected = []
    for output, ends in BEGINNINGS:
        for longest, code in ends:
            fault = None if code is None else Fault(output.count(b"\n") + 1, code)
            expected += [Left(fault, output)] * (longest + 1 - len(expected))
    return expected


def check_beginning(beginning, whole, options):
    """Replays a beginning of a script in both ways, and compares what is left with what the whole script leaves."""
    _, left = compare(beginning, options)
    ended = ended_records(beginning)
    lines = left.output.splitlines(True)
    assert whole.output.startswith(b"".join(lines[:ended])), "a line that the whole script does not give"
    expected = expected_fault(beginning, ended, whole.fault, options)
    assert left.fault == expected, f"it ends with {left.fault}, and its records with {expected}"


def expected_fault(beginning, ended, fault_of_whole, options):
    """The fault of the whole script, if its record is among those that have ended, and else what the record gives by
    itself that is cut."""
    if fault_of_whole and fault_of_whole.record <= ended:
        return fault_of_whole
    before = octets_before(beginning, ended + 1)
    if before is None:
        return None
    fault = replay(beginning[len(before) :], options).fault
    return fault and Fault(ended + fault.record, fault.code)
