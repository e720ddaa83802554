"""The program, what a run of it leaves, and records from which scripts are made."""

import re
from pathlib import Path
from typing import NamedTuple, Optional

from support.processes import run

PROGRAM = Path(__file__).resolve().parents[3] / "crates/camel_replay/out/camel_replay"

# The greatest limit, which is the program's default too, and how many records a script has at most.
MAX_LIMIT = MAX_RECORDS = 1_000_000

# The faults with which a run may end on a machine that has much else to do. Such a run is repeated, so often at most.
BUSY = (103, 104, 106)
REPEATS = 100

FAULT_LINE = re.compile(rb"camel_replay: (?:record (0|[1-9]\d*): )?fault ([1-9]\d*)\n")

# A subscriber with a service that is published, and a call that triggers it; and their lines.
FIRST_CALL = b"register,26201\ninsert,26201,o:2:100:919471160000:0\npublish\ncall,2,26201,t11,91214365,n\n"
FIRST_CALL_LINES = (b"accepted 1\n", b"accepted 2\n", b"published 2\n",
                    b"front 2 trigger 2 100 919471160000 continue\n")
# A publication, and a call of that subscriber.
LAST_CALL = b"publish\ncall,2,26201,t11,91214365,n\n"
# A short record of a subscriber that has no record, and its line.
SHORT, SHORT_LINE = b"delete,26202,o\n", b"refused 5\n"


class Fault(NamedTuple):
    """The number of the record with the fault, if the fault line names one, and the number of the fault."""

    record: Optional[int]
    code: int

    def __str__(self):
        place = "" if self.record is None else f"record {self.record}: "
        return f"{place}fault {self.code}"


class Options(NamedTuple):
    """The limit and the profile of a script's replays, and the threads of the one that is not on one thread."""

    threads: int
    limit: int
    profile: int

    def words(self, threads=None):
        words = ["--limit", str(self.limit), "--profile", str(self.profile)]
        return words if threads is None else [*words, "--threads", str(threads)]


class Left(NamedTuple):
    """What a run leaves: its fault or None, and its standard output."""

    fault: Optional[Fault]
    output: bytes

    def lines(self):
        """The lines of the output, without their ends."""
        return self.output.split(b"\n")[:-1]


def replay(script, options, threads=None):
    """Replays a script without `--threads`, or with so many."""
    ended = run(PROGRAM, *options.words(threads), octets=script)
    assert not ended.stdout or ended.stdout.endswith(b"\n"), "the last line has no end"
    return Left(fault_of(ended.returncode, ended.stderr), ended.stdout)


def fault_of(status, error):
    """The fault of a run, or None. There is no other status, and no other standard error."""
    line = FAULT_LINE.fullmatch(error)
    assert (status, error) == (0, b"") or status == 1 and line, f"status {status}, standard error {error[-600:]}"
    return line and Fault(None if line[1] is None else int(line[1]), int(line[2]))


def replay_with_threads(script, options):
    """Replays a script with the threads of the options, and again if the machine is busy."""
    for _ in range(REPEATS + 1):
        left = replay(script, options, options.threads)
        if left.fault is None or left.fault.code not in BUSY:
            break
    return left
