"""The script of the dialogues in a capture: which records they make, by docs/INTEGRATION.md, and which make none."""

import subprocess
from collections import defaultdict
from dataclasses import dataclass, field
from typing import NamedTuple

from wenqolo.captures.dialogues import Operation, Step
from wenqolo.captures.faults import DATA_MISSING, NO_IMSI, fault_text, is_fault, name_of
from wenqolo.octets.components import GONE, LOCATION_UPDATES
from wenqolo.octets.contents import asks_for_data, phases_text, skipped_text

CSIS = ("o", "vt")


class Entry(NamedTuple):
    """What comes of a frame: what is in it, and the record that it makes, or else why it makes none, or neither, if it
    is a note; and whether it can't be read."""

    frame: int
    what: str
    record: str = ""
    why_none: str = ""
    is_unread: bool = False

    def origin(self):
        """The frame and what is in it, and why it makes no record."""
        return f"frame {self.frame}: {self.what}" + (f": {self.why_none}" if self.why_none else "")


class Insert(NamedTuple):
    """An insert, the record that it makes by itself, and how many items each list of it has."""

    operation: Operation
    record: str
    counts: list


@dataclass
class Told:
    """What a dialogue has told so far: the inserts that are taken, and whether any came. Of a location update: its
    operation, whether the subscriber had a record before the first insert that is taken, and the inserts with criteria
    whose CSI has not come."""

    inserts: list = field(default_factory=list)
    has_insert: bool = False
    location: Operation | None = None
    had_record: bool = False
    held: list = field(default_factory=list)

    def before(self, insert):
        """The inserts before this one with which it is taken, those that are held too if it has their CSIs. None, if it
        has criteria whose CSI has not come. Outside of a location update this may be stored."""
        for before in (self.inserts + self.held, self.inserts):
            totals = [sum(column) for column in zip(*(other.counts for other in (*before, insert)))]
            if not self.location or all(totals[at] or not totals[at + 1] for at in range(0, len(totals), 2)):
                return before
        return None


def answers_of(command, lines):
    """What the decoder reads of each line."""
    if not lines:
        return []
    text = "".join(f"{line}\n" for line in lines)
    ended = subprocess.run(command, input=text, capture_output=True, text=True)
    answers = ended.stdout.splitlines()
    if ended.returncode or len(answers) != len(lines):
        raise OSError(f"{command[0]} ends with status {ended.returncode}, after {len(answers)} of {len(lines)} lines")
    return answers


def has_same_csi(insert, other):
    """Whether both have lists of one CSI: its rows or its criteria."""
    return any(any(insert.counts[at : at + 2]) and any(other.counts[at : at + 2]) for at in range(0, 4, 2))


class Script:
    """The entries of the steps in a spool, in their order. The subscribers who have a record are known by their IMSIs,
    and so are those who were registered or cancelled before."""

    def __init__(self, program, spool, assumes_registered=False):
        self.program, self.spool, self.assumes_registered = program, spool, assumes_registered
        self.registered, self.seen, self.has_pending = set(), set(), False
        self.told = defaultdict(Told)

    def register(self, imsi):
        self.registered.add(imsi)
        self.seen.add(imsi)
        return f"register,{imsi}"

    def cancel(self, imsi):
        self.registered.discard(imsi)
        self.seen.add(imsi)
        return f"cancel,{imsi}"

    def joined(self, before, insert):
        """The record of an insert: its own, or that of all so far of its dialogue if lists of one CSI come again."""
        if not any(has_same_csi(insert, other) for other in before):
            return insert.record
        first, *more = (other.operation.line for other in (*before, insert))
        return answers_of([self.program], ["".join([str(first), *(f",{line.octets.hex()}" for line in more)])])[0]

    def registered_by(self, told, operation, imsi):
        """The entry of a subscriber who is registered before this operation is taken."""
        if imsi in self.registered:
            return
        if told.location and operation.is_insert():
            yield Entry(told.location.frame, told.location.name, self.register(imsi))
        elif self.assumes_registered and imsi not in self.seen:
            what = f"{operation.name}, assumed to be of a registered subscriber"
            yield Entry(operation.frame, what, self.register(imsi))

    def inserted(self, told, insert):
        """The entries of an insert that is not refused by itself."""
        operation, before = insert.operation, told.before(insert)
        if before is None:
            told.held.append(insert)
            return
        record = self.joined(before, insert)
        if is_fault(record):
            yield Entry(operation.frame, operation.name, why_none=fault_text(record))
            return
        imsi = record.split(",")[1]
        told.had_record = told.had_record if told.inserts else imsi in self.registered
        yield from self.registered_by(told, operation, imsi)
        told.held = [other for other in told.held if other not in before]
        told.inserts = [*before, insert]
        yield Entry(operation.frame, operation.name, record)

    def changed(self, told, operation):
        """The entries of an operation of the HLR."""
        record, lists, why_none = next(self.records), next(self.lists), operation.answer
        if is_fault(record):
            why_none = fault_text(record)
            if record.startswith(f"fault {NO_IMSI} ") and not operation.has_begin:
                why_none += ", and the capture lacks the beginning of its dialogue"
        if operation.is_insert():
            told.has_insert = True
            if skipped := skipped_text(operation.line.octets):
                yield Entry(operation.frame, f"{operation.name} {skipped}")
        if why_none:
            yield Entry(operation.frame, operation.name, why_none=why_none)
        elif operation.is_insert():
            yield from self.inserted(told, Insert(operation, record, [*map(int, lists.split()[:4])]))
        else:
            imsi = record.split(",")[1]
            if operation.name == "cancelLocation":
                self.cancel(imsi)
            else:
                yield from self.registered_by(told, operation, imsi)
            yield Entry(operation.frame, operation.name, record)

    def asked(self, told, operation):
        """The entries of a request as it is invoked. What comes of it is known with its answer."""
        if not operation.line.imsi:
            yield Entry(operation.frame, operation.name, why_none=fault_text(f"fault {NO_IMSI} 0"))
        elif operation.name in LOCATION_UPDATES:
            told.location = operation
            yield Entry(operation.frame, f"{operation.name} {phases_text(operation.line.octets)}")

    def located(self, told, operation):
        """The record at the good end of a location update: a subscriber is registered, or the CSIs that did not come
        are gone. If no data were asked for and none came, or an insert came and none is taken, all stays as it was."""
        imsi = operation.line.imsi
        if not told.has_insert and not asks_for_data(operation.line.octets):
            return ""
        if not told.has_insert and imsi not in self.registered:
            return self.register(imsi)
        if told.has_insert and not (told.inserts and told.had_record):
            return ""
        missing = [csi for at, csi in enumerate(CSIS) if not any(insert.counts[2 * at] for insert in told.inserts)]
        return ",".join(["delete", imsi, *missing]) if missing else ""

    def answered(self, frame, told, operation):
        """The entry of the answer to a request. Without a result, or an error by which the HLR does not have the
        subscriber here, nothing changes."""
        imsi, is_location, record = operation.line.imsi, operation.name in LOCATION_UPDATES, ""
        if not imsi:
            return
        if operation.is_done() and is_location and operation.has_gap:
            why_none = f"the capture lacks what the VLR answered before, so the data of {imsi} are unconfirmed"
            yield Entry(frame, operation.name, why_none=why_none)
        elif operation.is_done():
            record = self.located(told, operation) if is_location else self.cancel(imsi)
        elif is_location and operation.error in GONE:
            record = self.cancel(imsi)
        else:
            rest = f"the data of {imsi} are unconfirmed" if is_location else f"the record of {imsi} stays"
            yield Entry(frame, operation.name, why_none=f"{operation.answer}, so {rest}")
        if record:
            yield Entry(frame, f"{operation.name}, {operation.answer}", record)

    def ended(self, step):
        """The entries of a dialogue that ends, or of all at the end of the capture."""
        told = [self.told.pop(step.dialogue, Told())] if step.dialogue else self.told.values()
        why_none = f"{name_of(DATA_MISSING)}, criteria without their CSI"
        for operation in (insert.operation for some in told for insert in some.held):
            yield Entry(operation.frame, operation.name, why_none=why_none)
        if self.has_pending:
            yield Entry(step.frame, "end", "publish")

    def step_entries(self, step):
        if not isinstance(step, Step):
            yield Entry(step.frame, step.what, why_none=step.why, is_unread=True)
        elif not step.operation:
            yield from self.ended(step)
        elif step.is_change():
            yield from self.changed(self.told[step.dialogue], step.operation)
        elif not step.is_answer:
            yield from self.asked(self.told[step.dialogue], step.operation)
        else:
            yield from self.answered(step.frame, self.told[step.dialogue], step.operation)

    def entries(self):
        """The entries, in the order of the capture. A publication comes if records wait for it."""
        for chunk in self.spool.chunks():
            lines = [step.operation.line for step in chunk if isinstance(step, Step) and step.is_change()]
            self.records, self.lists = (iter(answers_of([self.program, *more], lines)) for more in ((), ("--lists",)))
            for entry in (entry for step in chunk for entry in self.step_entries(step)):
                yield entry
                self.has_pending = entry.record != "publish" if entry.record else self.has_pending
