"""The audit of what a soak has logged. Each answer is that of the model at the answer's own front. Each front is that
of a publication, and no shorter than what the session saw or learnt, and what was published before it was asked."""

import struct
from collections import Counter

from support.soaking.plan import POINTS, criteria_octets, isdn_octets
from wenqolo import updates
from wenqolo.octets.encoding import Line
from wenqolo.rules import Model, Refused

# What an entry of a log is of, as in tests/library/soak.c: two of the writer, five that a look gives, two of copies.
SENT, PUBLISHED, ASKED, AGAIN, ROW, CRITERIA, COPIED, BY_COPY, ROW_OF_COPY, LEARNT, COUNTED = range(11)
ENTRY, ANSWER, PUBLICATION, DECISIONS = map(struct.Struct, ("<QQIIII", "<I10sB??B", "<5Q", "<90Q"))
DECIDED = (ASKED, AGAIN, BY_COPY)
OK, HELD = 0, 501
REASONS = ("trigger", "unknown", "no-csi", "not-armed", "emergency", "criteria")
WORDS = {updates.Insert: "insert", updates.Delete: "delete", updates.Cancel: "cancel"}
# So many publications at least say something of memory.
FEWEST = 64


class Difference(Exception):
    """What is otherwise than the model has it."""


def expect(name, what, found, wanted):
    if found != wanted:
        raise Difference(f"{name}: {what}: {found}, and not {wanted}")


def entries(log):
    """The entries of a log: a front, the least that it may be, the number of a step or of what is asked, a status or
    the place of a copy, what the entry is of, and octets."""
    end = 0
    while end < len(log):
        front, least, subject, number, what, count = ENTRY.unpack_from(log, end)
        start, end = end + ENTRY.size, end + ENTRY.size + count
        yield front, least, subject, number, what, log[start:end]


def answer_octets(answer):
    """An answer of the model, as C has it."""
    word, *fields = answer.split()
    if word == "none":
        return ANSWER.pack(0, b"", 0, False, False, REASONS.index(*fields))
    point, key, address, action = fields
    return ANSWER.pack(int(key), isdn_octets(bytes.fromhex(address)), int(point), action == "release", True, 0)


class Reference:
    """What the model gives for the events of a plan by a record, or by none, as C has it."""

    def __init__(self, profile, events):
        self.model, self.events, self.known = Model(profile), events, {}

    def given(self, what, number, record):
        """What an entry of this has to give, and the event."""
        event = self.events[number]
        stored = csi, row, entry = self.model.stored(record or {}, event.point)
        # It is made once for a row and an entry. These are kept, so that no others have their ids.
        key = number if what in DECIDED else -what, record is None, csi is None, id(row), id(entry)
        if key not in self.known:
            self.known[key] = self.made(what, event, record, row, entry), stored
        return self.known[key][0], event

    def made(self, what, event, record, row, entry):
        if what == COPIED:
            return bytes([record is not None])
        if what == CRITERIA:
            return criteria_octets(entry) if entry else b""
        if what in (ROW, ROW_OF_COPY):
            return answer_octets(self.model.trigger(row)) if row else bytes(ANSWER.size)
        self.model.records = {} if record is None else {event.imsi: record}
        return answer_octets(self.model.decide(event))


class Caller:
    """What the session of a caller has seen, learnt and decided, and the copies of records."""

    def __init__(self, name):
        self.name, self.seen, self.learnt, self.copies = name, 0, 0, {}
        self.decided, self.counts = Counter(), Counter()

    def begin(self, log, asked, reference):
        self.entries, self.asked, self.reference, self.is_counted = entries(log), asked, reference, False
        self.entry = next(self.entries, None)

    def take(self, front, records):
        """Audits what was given over a front that is published, and what is of no front or of a copy."""
        while self.entry and (self.entry[0] == front or self.entry[4] > COPIED):
            self.audit(records, *self.entry)
            self.entry = next(self.entries, None)

    def audit(self, records, front, least, subject, place, what, octets):
        self.counts[what] += 1
        if what == LEARNT:
            self.learnt = max(self.learnt, front)
            return
        if what == COUNTED:
            self.is_counted = True
            decided = [self.decided[point, reason] for point in range(15) for reason in range(len(REASONS))]
            expect(self.name, "decisions", DECISIONS.unpack(octets), (*decided,))
            return
        imsi, number = self.asked[subject]
        if what > COPIED:
            of, record = self.copies.get(place, (None, None))
            expect(self.name, "the front of a copy", front, of)
        else:
            record = records.get(imsi)
            if what == ASKED:
                if front < least or front < self.learnt:
                    raise Difference(f"{self.name}: front {front} behind {least}, or {self.learnt}, which was learnt")
                self.seen = front
            elif front != self.seen:
                raise Difference(f"{self.name}: front {front} in a look at {self.seen}")
        wanted, event = self.reference.given(what, number, record)
        if octets != wanted:
            what = f"entry {what} of {event._replace(imsi=imsi)} at {front}, by {record}"
            expect(self.name, what, octets.hex(), wanted.hex())
        if what in DECIDED:
            self.decided[event.point, octets[-1]] += 1
        elif what == COPIED:
            self.copies[place] = front, None if record is None else dict(record)

    def end(self):
        if self.entry:
            raise Difference(f"{self.name}: front {self.entry[0]} is none that is published behind {self.seen}")
        expect(self.name, "whether the log has an end", self.is_counted, True)


class Audit:
    """The audit of a store under a profile, which has so many callers."""

    def __init__(self, profile, callers):
        self.model, self.callers = Model(profile), [Caller(f"caller {number + 1}") for number in range(callers)]
        self.accepted = self.refused = self.published = self.publications = self.subscribers = self.held = 0
        self.pages = []

    def read(self, update):
        """An update as the model reads it, or the number by which that refuses it."""
        try:
            return self.model.decode(*update) if isinstance(update, Line) else update
        except Refused as refused:
            return refused.args[0]

    def apply(self, imsi, update):
        """Applies an update that was read, and gives its status."""
        try:
            if isinstance(update, int):
                return update
            if update == "register":
                self.model.register(imsi)
            elif update == "clear":
                self.model.clear()
            else:
                update.imsi = imsi or update.imsi
                self.model.change(WORDS[type(update)], update)
        except Refused as refused:
            return refused.args[0]
        return OK

    def publish(self, front, status, *found):
        """Audits a publication, and then what was given over its front."""
        if status == OK:
            self.publications += self.accepted > self.published
            self.published, self.subscribers = self.accepted, len(self.model.records)
        self.held += status == HELD
        wanted = self.subscribers, self.published, self.accepted - self.published, self.held
        expect("writer", "a publication", (status in (OK, HELD), front, *found), (True, self.published, *wanted))
        if status == OK:
            self.take()

    def take(self):
        for caller in self.callers:
            caller.take(self.published, self.model.records)

    def check(self, plan, writer, *logs):
        """Audits what a plan has left in the logs."""
        reference, read = Reference(self.model.profile, plan.events), [*map(self.read, plan.updates)]
        for caller, log in zip(self.callers, logs, strict=True):
            caller.begin(log, plan.asked, reference)
        self.take()
        for front, _, subject, status, what, octets in entries(writer):
            if what == SENT:
                imsi, number = plan.steps[subject]
                expect("writer", (imsi, plan.updates[number]), status, self.apply(imsi, read[number]))
                self.accepted += status == OK
                self.refused += status != OK
            else:
                *counts, pages = PUBLICATION.unpack(octets)
                self.publish(front, status, *counts)
                self.pages.append(pages)
        for caller in self.callers:
            caller.end()

    def most_pages(self):
        """The most pages of memory in the first quarter of the run, and in the last, which are twice as many at most."""
        quarter = -(-len(self.pages) // 4)
        first, last = max(self.pages[:quarter]), max(self.pages[-quarter:])
        if len(self.pages) >= FEWEST and last > 2 * first:
            raise Difference(f"{last} pages of memory in the last quarter of the run, and {first} in the first")
        return first, last

    def summary(self):
        decided = sum((caller.decided for caller in self.callers), Counter())
        given = sum((caller.counts for caller in self.callers), Counter())
        by_reason = [sum(decided[point, reason] for point in POINTS) for reason in range(len(REASONS))]
        return [f"{decided.total()} decisions: {', '.join(map('{} {}'.format, by_reason, REASONS))}",
                f"{given[BY_COPY]} of them by {given[COPIED]} copies; {given[ROW] + given[ROW_OF_COPY]} rows, "
                f"{given[CRITERIA]} criteria and {given[LEARNT]} receipts",
                f"{self.accepted} updates accepted, {self.refused} refused; {self.publications} publications, "
                f"{self.held} held"]
