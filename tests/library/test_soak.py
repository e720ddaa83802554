"""A soak of the library in C: DECISIONS, or as many as in SECONDS, of SUBSCRIBERS, by SEED, half of it under each
profile. And logs that its audit does not pass."""

import os
import random
import time
from copy import deepcopy
from pathlib import Path

import pytest
from support.processes import receive
from support.soaking.audit import (AGAIN, ASKED, BY_COPY, COPIED, COUNTED, CRITERIA, DECISIONS, ENTRY, HELD, LEARNT, OK,
                                   PUBLICATION, PUBLISHED, ROW, ROW_OF_COPY, SENT, Audit, Difference, answer_octets)
from support.soaking.plan import Plan, Plans, plan_octets
from wenqolo.rules import event_of_call
from wenqolo.updates import Insert, Row

COUNT, SECONDS = int(os.environ.get("DECISIONS") or 1000000), float(os.environ.get("SECONDS") or 0)
SUBSCRIBERS, SEED = int(os.environ.get("SUBSCRIBERS") or 10000), os.environ.get("SEED") or "1"
# How many decisions are made by one plan, and by how many callers.
PART, CALLERS = 250000, 4


class Soak:
    """A soak that goes on in a folder: the program, the plans and the audit."""

    def __init__(self, profile, start, program, folder):
        source = random.Random(f"{SEED} {profile}")
        self.plans, self.audit = Plans(source, SUBSCRIBERS), Audit(profile, CALLERS)
        self.child = start(program, str(profile), str(source.getrandbits(60)), cwd=folder)
        self.logs = [Path(folder, f"log.{number}") for number in range(CALLERS + 1)]

    def go_by(self, plan, decisions):
        """Has the calls of a plan made, and audits the logs, which are empty then."""
        self.child.stdin.write(plan_octets(plan, -(-decisions // CALLERS)))
        said = receive(self.child.stdout.fileno(), lambda octets: octets.endswith(b"\n"))
        assert said == b"done\n", said.decode()
        self.audit.check(plan, *(log.read_bytes() for log in self.logs))
        for log in self.logs:
            os.truncate(log, 0)

    def end(self):
        """Has the store ended."""
        self.child.stdin.close()
        assert receive(self.child.stdout.fileno()) == b"soak: ok\n"
        assert self.child.wait() == 0
        print(*self.audit.summary(), "pages of memory at first and at last: {}, {}".format(*self.audit.most_pages()),
              "0 differences", sep="\n")


@pytest.mark.needs("cc")
@pytest.mark.parametrize("profile", (1, 2))
def test_soak(profile, compiled, start, tmp_path):
    soak = Soak(profile, start, compiled("tests/library/soak.c"), tmp_path)
    left, end = COUNT // 2, time.monotonic() + SECONDS / 2
    while time.monotonic() < end if SECONDS else left > 0:
        plan = soak.plans.draw(soak.audit.model.records)
        soak.go_by(plan, PART if SECONDS else min(left, PART))
        left -= PART
    for of_all in soak.plans.of_all(plan.events):
        soak.go_by(of_all, 0)
    soak.end()


# A plan, and its logs by entries: one of the writer, and one of a caller.

IMSI = "262010000000001"
INSERTS = [Insert(IMSI, {"o": [Row(2, key, b"\x91\x21", 0)]}) for key in (100, 200)]
PLAN = Plan(["register", *INSERTS], [event_of_call("2", IMSI, "t11", "912143", "n")],
            [(IMSI, 0), (IMSI, 1), None, (IMSI, 2), None], [(IMSI, 0)])
UNKNOWN, FIRST, SECOND = map(answer_octets, ("none unknown", "trigger 2 100 9121 continue",
                                             "trigger 2 200 9121 continue"))
DECIDED = DECISIONS.pack(*(dict([(12, 4), (13, 1)]).get(at, 0) for at in range(90)))
WRITER = [[0, 0, 0, OK, SENT, b""], [0, 0, 1, OK, SENT, b""], [2, 0, 0, OK, PUBLISHED, PUBLICATION.pack(1, 2, 0, 0, 9)],
          [0, 0, 3, OK, SENT, b""], [2, 0, 0, HELD, PUBLISHED, PUBLICATION.pack(1, 2, 1, 1, 9)],
          [3, 0, 0, OK, PUBLISHED, PUBLICATION.pack(1, 3, 0, 1, 9)]]
CALLER = [[0, 0, 0, 0, ASKED, UNKNOWN], [2, 0, 0, 0, ASKED, FIRST], [2, 0, 0, 0, AGAIN, FIRST],
          [2, 0, 0, 0, ROW, FIRST], [2, 0, 0, 0, CRITERIA, b""], [2, 0, 0, 1, COPIED, b"\1"],
          [3, 0, 0, 0, LEARNT, b""], [3, 2, 0, 0, ASKED, SECOND], [2, 0, 0, 1, BY_COPY, FIRST],
          [2, 0, 0, 1, ROW_OF_COPY, FIRST], [0, 0, 0, 0, COUNTED, DECIDED]]
FRONT, LEAST, NUMBER, WHAT, OCTETS = 0, 1, 3, 4, 5


def audited(*logs):
    octets = (b"".join(ENTRY.pack(*head, len(octets)) + octets for *head, octets in log) for log in logs)
    Audit(1, 1).check(PLAN, *octets)


def test_audit_passes_right_logs():
    audited(WRITER, CALLER)


@pytest.mark.parametrize("log, at, field, value, said", [
    (0, 0, NUMBER, 5, "5, and not 0"),
    (0, 1, NUMBER, 36, "36, and not 0"),
    (0, 2, FRONT, 1, "a publication"),
    (0, 2, NUMBER, 102, "a publication"),
    (0, 4, OCTETS, PUBLICATION.pack(1, 2, 1, 0, 9), "a publication"),
    (0, 5, OCTETS, PUBLICATION.pack(2, 3, 0, 1, 9), "a publication"),
    (1, 0, OCTETS, FIRST, "at 0, by None"),
    (1, 1, OCTETS, SECOND, "at 2"),
    (1, 1, FRONT, 1, "front 1 is none"),
    (1, 1, LEAST, 3, "front 2 behind 3"),
    (1, 2, FRONT, 3, "front 3 in a look at 2"),
    (1, 3, OCTETS, SECOND, "entry 4"),
    (1, 4, OCTETS, bytes(127), "entry 5"),
    (1, 5, OCTETS, b"\0", "entry 6"),
    (1, 7, FRONT, 0, "front 0 is none"),
    (1, 7, FRONT, 2, "or 3, which was learnt"),
    (1, 8, FRONT, 3, "the front of a copy"),
    (1, 8, OCTETS, SECOND, "entry 7"),
    (1, 9, OCTETS, SECOND, "entry 8"),
    (1, 10, OCTETS, bytes(DECISIONS.size), "decisions"),
    (1, 10, WHAT, LEARNT, "has an end"),
])
def test_audit_finds_what_is_otherwise(log, at, field, value, said):
    logs = deepcopy([WRITER, CALLER])
    logs[log][at][field] = value
    with pytest.raises(Difference, match=said):
        audited(*logs)


def test_audit_finds_memory_that_grows():
    audit = Audit(1, 1)
    audit.pages = [10] * 48 + [20] * 16
    assert audit.most_pages() == (10, 20)
    audit.pages[-1] = 21
    with pytest.raises(Difference, match="21 pages"):
        audit.most_pages()
