"""The model of the trigger rules and of accepted updates: a method for each rule of docs/RULES.md, over plain data."""

from typing import NamedTuple

from wenqolo import updates
from wenqolo.decoder import Decoder, refusal
from wenqolo.octets.encoding import Line
from wenqolo.octets.reading import Fault

# The words of updates that come as octets, with their operations. A further Insert is one of the dialogue before it.
OPERATIONS = {"insert": "insertSubscriberData", "further": "insertSubscriberData", "delete": "deleteSubscriberData",
              "cancel": "cancelLocation"}
UNIDENTIFIED, DATA_MISSING, UNEXPECTED, OTHER_SUBSCRIBER = 5, 35, 36, 409
EMERGENCY = 0x12
TELESERVICE, BEARER = 3, 2
# Each CSI with its criteria.
CSIS = {"o": "oc", "t": "tc"}
MOST_ADDRESS_OCTETS, MOST_CAUSE = 20, 127
ALL = frozenset(range(256))
TELE_GROUPS = {0x00: ALL, 0x10: {0x11, 0x12}, 0x60: {0x61, 0x62, 0x63}, 0x80: ALL - {0x20, 0x21, 0x22}}
BEARER_GROUPS = {0x00: ALL, 0x10: {*range(0x11, 0x18)}, 0x18: {*range(0x19, 0x20)}}


class Refused(Exception):
    """An update or an event is refused with this number."""


class Csi(NamedTuple):
    rows: list
    entries: list


class Event(NamedTuple):
    point: int
    imsi: str
    basic: tuple
    destination: bytes
    is_forwarded: bool
    cause: int | None


def event_of(fields):
    """The event of a call's fields. What the detection point does not have is `-`."""
    point, imsi, basic, destination, forwarded, cause = fields
    octets = b"" if destination == "-" else bytes.fromhex(destination)
    event = Event(int(point), imsi, (TELESERVICE if basic[0] == "t" else BEARER, int(basic[1:], 16)), octets,
                  forwarded == "f", None if cause == "-" else int(cause))
    has_destination = event.point in updates.O_POINTS
    if has_destination and not 1 <= len(octets) <= MOST_ADDRESS_OCTETS or (event.cause or 0) > MOST_CAUSE:
        raise Refused(UNEXPECTED)
    return event


def event_of_call(point, imsi, basic, *rest):
    """The event of a call's record, which has no fields for what its detection point does not have."""
    destination, forwarded = rest[:2] if int(point) in updates.O_POINTS else ("-", "-")
    cause = rest[-1] if point in ("4", "13", "14") else "-"
    return event_of([point, imsi, basic, destination or "-", forwarded, cause])


def item_at(items, point):
    """The row or the entry of a detection point, or None."""
    for item in items:
        if item.point == point:
            return item
    return None


class Model:
    """The subscriber data, and what the rules make of updates and events. A wrong model has another decoder, or one
    that tolerates what these rules refuse."""

    decoder, tolerated = Decoder, ()

    def __init__(self, profile=1):
        self.profile, self.records, self.dialogue = profile, {}, None

    # Addresses

    def nature(self, address):
        return address[0] >> 4 & 7

    def plan(self, address):
        return address[0] & 15

    def nibbles(self, octets):
        return [nibble for octet in octets for nibble in (octet & 15, octet >> 4)]

    def digits(self, address):
        nibbles = self.nibbles(address[1:])
        return nibbles[: nibbles.index(15)] if 15 in nibbles else nibbles

    def agree(self, one, other):
        same_plan = self.plan(one) == self.plan(other)
        return self.nature(one) == self.nature(other) and (self.profile == 1 or same_plan)

    # Criteria

    def is_front(self, front, digits):
        return digits[: len(front)] == front

    def number_matches(self, listed, destination):
        return self.agree(listed, destination) and self.is_front(self.digits(listed), self.digits(destination))

    def length_of(self, destination):
        return len(self.digits(destination))

    def number_met(self, criterion, destination):
        is_listed = any(self.number_matches(listed, destination) for listed in criterion.numbers or ())
        is_listed = is_listed or self.length_of(destination) in (criterion.lengths or ())
        return is_listed == (criterion.match_type == 1)

    def members(self, kind, code):
        return (TELE_GROUPS if kind == TELESERVICE else BEARER_GROUPS).get(code, set())

    def covers(self, listed, called):
        kind, code = listed[0], listed[1][0]
        return kind == called[0] and (code == called[1] or called[1] in self.members(kind, code))

    def basic_met(self, basics, event):
        return any(self.covers(listed, event.basic) for listed in basics)

    def forwarding_met(self, choice, event):
        return event.is_forwarded == (choice == 0)

    def cause_of(self, octet):
        return octet & 127

    def cause_met(self, causes, event):
        return event.cause is not None and event.cause in map(self.cause_of, causes)

    def criteria_met(self, entry, event):
        """Of each criterion that the entry holds, whether the event meets it."""
        if entry.number is not None:
            yield self.number_met(entry.number, event.destination)
        if entry.basics:
            yield self.basic_met(entry.basics, event)
        if entry.call_type is not None:
            yield self.forwarding_met(entry.call_type, event)
        if entry.causes:
            yield self.cause_met(entry.causes, event)

    def meets(self, event, entry):
        return all(self.criteria_met(entry, event))

    # Decisions

    def is_emergency(self, basic):
        return basic == (TELESERVICE, EMERGENCY)

    def is_release(self, handling):
        return handling == 1 or handling > 31

    def csi_of(self, point):
        return "o" if point in updates.O_POINTS else "t"

    def reason(self, event, csi, row, entry):
        """The first reason that applies, or None."""
        if event.imsi not in self.records:
            return "unknown"
        if csi is None:
            return "no-csi"
        if row is None:
            return "not-armed"
        if self.is_emergency(event.basic):
            return "emergency"
        return "criteria" if entry and not self.meets(event, entry) else None

    def stored(self, record, point):
        """The CSI of a record that is tested at a detection point, with its row and its entry there, each or None."""
        csi = record.get(self.csi_of(point))
        return (csi, item_at(csi.rows, point), item_at(csi.entries, point)) if csi else (None, None, None)

    def trigger(self, row):
        action = "release" if self.is_release(row.handling) else "continue"
        return f"trigger {row.point} {row.key} {row.address.hex()} {action}"

    def decide(self, event):
        csi, row, entry = self.stored(self.records.get(event.imsi, {}), event.point)
        reason = self.reason(event, csi, row, entry)
        return f"none {reason}" if reason else self.trigger(row)

    # Updates

    def decode(self, operation, imsi, octets):
        """The update of an operation's octets."""
        try:
            return self.decoder(Line(operation, imsi, octets), self.tolerated).update()
        except Fault as fault:
            raise Refused(fault.number) from fault

    def join(self, earlier, later):
        """What two operations of a dialogue bring."""
        if earlier.imsi != later.imsi:
            raise Refused(OTHER_SUBSCRIBER)
        whole = updates.joined(earlier, later)
        if any(refusal(items, name) for name, items in whole.lists.items()):
            raise Refused(UNEXPECTED)
        return whole

    def record(self, imsi):
        if imsi not in self.records:
            raise Refused(UNIDENTIFIED)
        return self.records[imsi]

    def register(self, imsi):
        self.records[imsi] = {}

    def kept(self, lists, name):
        """The items of a list that count, in their order."""
        points = updates.points_of(name)
        return [item for item in lists.get(name, ()) if item.point in points]

    def put(self, record, lists, csi):
        """A CSI that comes is in the place of the stored one, with its criteria; criteria that come without it are in
        the place of all stored ones."""
        if csi in lists:
            record[csi] = Csi(self.kept(lists, csi), self.kept(lists, CSIS[csi]))
        elif CSIS[csi] in lists:
            record[csi] = Csi(record[csi].rows, self.kept(lists, CSIS[csi]))

    def lacks_csi(self, record, lists, csi):
        return CSIS[csi] in lists and csi not in lists and csi not in record

    def insert(self, update):
        record = self.record(update.imsi)
        if any(self.lacks_csi(record, update.lists, csi) for csi in CSIS):
            raise Refused(DATA_MISSING)
        for csi in CSIS:
            self.put(record, update.lists, csi)

    def delete(self, update):
        record, named = self.record(update.imsi), updates.withdrawn(update)
        for csi, name in (("o", "o"), ("t", "vt")):
            if name in named or "all" in named:
                record.pop(csi, None)

    def cancel(self, update):
        self.records.pop(update.imsi, None)

    def clear(self):
        self.records.clear()

    def change(self, word, update):
        if word == "further":
            update = self.join(self.dialogue, update)
        {"delete": self.delete, "cancel": self.cancel}.get(word, self.insert)(update)
        self.dialogue = update

    # Answers

    def take(self, step):
        if step.word == "call":
            return self.decide(event_of(step.fields))
        if step.word in OPERATIONS:
            self.change(step.word, self.decode(OPERATIONS[step.word], step.imsi(), step.octets()))
        else:
            getattr(self, step.word)(*step.fields)
        return "accepted"

    def answer(self, step):
        try:
            return self.take(step)
        except Refused as refused:
            return f"refused {refused}"
