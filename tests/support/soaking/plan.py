"""Random plans of what the writer of a soak submits, step by step, and of what its callers ask, and their octets, as
`tests/library/soak.c` reads them."""

import struct
from itertools import accumulate
from typing import NamedTuple

from wenqolo import updates
from wenqolo.drawn.lines import line_of, mutated_line
from wenqolo.drawn.scripts import addresses_of, draw_call, fitted
from wenqolo.drawn.styles import STYLES
from wenqolo.drawn.updates import draw_imsi, draw_insert, draw_update
from wenqolo.octets.encoding import Line
from wenqolo.rules import BEARER, event_of_call
from wenqolo.sent.transactions import CODES

POINTS = updates.O_POINTS + updates.T_POINTS
# Subscribers in turn are of so many groups, each with updates and events of its own, so that these often meet what is
# stored. The first one of each group comes often. The last IMSIs are of strangers, who have no record.
GROUPS, STRANGERS = 32, 16
# Of each group: Inserts of any of its subscribers, as structures of C; updates of its first one, as octets, some of
# them with edits; and events. Of a plan: its steps, and what is asked.
SHARED, OWN, EDITED, EVENTS, STEPS, ASKED = 12, 20, 3, 64, 30000, 20000
# The first updates of a plan, before those of the groups. The kinds of all that are no octets, in C.
COMMON = REGISTER, CANCEL, CLEAR = range(3)
KINDS = {"register": 1, updates.Insert: 2, updates.Cancel: 4, "clear": 5}

HEAD, STEP, UPDATE = struct.Struct("<4Q"), struct.Struct("<QQ"), struct.Struct("<IBB4s6x")
EVENT, ROW = struct.Struct("<QB20s?BB?B6x"), struct.Struct("<B3xI10s2xI")
CRITERIA = struct.Struct("<B??BB3s100sB10s??B5s")


class Plan(NamedTuple):
    """An update is a line of octets, a value that goes as a structure of C, or a word. A step is the IMSI of the
    dialogue, or nothing, and the number of an update; or it publishes, and is None. What is asked is the IMSI of a
    subscriber and the number of an event."""

    updates: list
    events: list
    steps: list
    asked: list


class Plans:
    """The plans of a soak, for so many subscribers."""

    def __init__(self, random, count):
        self.random, self.count, self.groups = random, count, min(count, GROUPS)
        imsis = {}
        while len(imsis) < count + STRANGERS:
            imsis[draw_imsi(random)] = None
        self.imsis = [*imsis]

    def draw_rows(self):
        """An Insert that brings rows."""
        insert = draw_insert(self.random)
        return insert if insert.lists.keys() & updates.CSIS else self.draw_rows()

    def draw_group(self, plan, imsi):
        """Draws the updates and the events of a group."""
        random = self.random
        shared = [fitted(self.draw_rows()) for _ in range(SHARED)]
        own = [(draw_insert if random.random() < 0.75 else draw_update)(random) for _ in range(OWN)]
        for update in own:
            update.imsi = imsi
        lines = [line_of(random, update, random.choice([*STYLES.values()])) for update in own]
        plan.updates.extend(shared + [mutated_line(random, line) for line in lines[:EDITED]] + lines[EDITED:])
        addresses = [b"\x91\x21\x43", *(address for update in shared + own for address in addresses_of(update))]
        calls = (draw_call(random, imsi, addresses).split(",") for _ in range(EVENTS))
        plan.events.extend(event_of_call(*fields) for _, *fields in calls)

    def draw_subscriber(self):
        return self.random.randrange(self.groups if self.random.random() < 0.5 else self.count)

    def sent(self, plan, subscriber, count):
        """A step that submits one of the first so many updates of a subscriber's group."""
        drawn = self.random.randrange(count)
        number = len(COMMON) + subscriber % self.groups * (SHARED + OWN) + drawn
        return self.imsis[subscriber] if drawn < SHARED else plan.updates[number].imsi, number

    def step(self, plan):
        subscriber, drawn = self.draw_subscriber(), self.random.random()
        if drawn < 1 / (2000 + 4 * self.count):
            return "", CLEAR
        if drawn < 0.1:
            return self.imsis[subscriber], CANCEL if drawn < 0.01 else REGISTER
        return self.sent(plan, subscriber, SHARED + OWN)

    def draw_steps(self, plan, missing):
        """Draws steps in batches of random sizes. In each some come of those who have no record."""
        while len(plan.steps) < STEPS:
            for _ in range(self.random.randint(0, self.random.choice((0, 1, 1, 3, 10, 40, 200)))):
                plan.steps.append(self.step(plan))
                if plan.steps[-1][1] == CLEAR:
                    missing = range(self.count)
            coming = self.random.choice((0, 1, 1 + self.count // 50, 1 + self.count // 20))
            for subscriber in missing[:coming]:
                plan.steps.extend([(self.imsis[subscriber], REGISTER), self.sent(plan, subscriber, SHARED)])
            missing = missing[coming:]
            plan.steps.append(None)

    def draw(self, records):
        """A plan, of whose subscribers some have records."""
        random = self.random
        plan = Plan(["register", updates.Cancel(""), "clear"], [], [], [])
        for imsi in self.imsis[: self.groups]:
            self.draw_group(plan, imsi)
        self.draw_steps(plan, [at for at in range(self.count) if self.imsis[at] not in records])
        for _ in range(ASKED):
            is_stranger = random.randrange(16) == 0
            at = self.count + random.randrange(STRANGERS) if is_stranger else self.draw_subscriber()
            plan.asked.append((self.imsis[at], at % self.groups * EVENTS + random.randrange(EVENTS)))
        return plan

    def of_all(self, events):
        """Plans that together ask for each subscriber at each detection point."""
        numbers = [[number for number, event in enumerate(events) if event.point == point] for point in POINTS]
        for at in range(0, len(self.imsis), ASKED):
            some = self.imsis[at : at + ASKED]
            yield Plan([], events, [], [(imsi, self.random.choice(of_point)) for imsi in some for of_point in numbers])


# Octets, as C has them.


def imsi_number(imsi):
    return len(imsi) << 56 | int(imsi or 0)


def isdn_octets(address):
    return bytes([len(address), *address]).ljust(10, b"\0")


def row_octets(row):
    return ROW.pack(row.point, row.key, isdn_octets(row.address), row.handling)


def criteria_octets(entry):
    number = entry.number or updates.NumberCriterion(0, None, None)
    numbers, lengths = number.numbers or (), number.lengths or ()
    basics = [octet for tag, octets in entry.basics or () for octet in (tag == BEARER, octets[0])]
    causes = bytes(cause & 127 for cause in entry.causes or ())
    return CRITERIA.pack(entry.point, entry.number is not None, number.match_type == 1, len(numbers), len(lengths),
                         bytes(lengths), b"".join(map(isdn_octets, numbers)), len(basics) // 2, bytes(basics),
                         entry.call_type is not None, entry.call_type == 0, len(causes), causes)


def event_octets(event, imsi):
    return EVENT.pack(imsi_number(imsi), len(event.destination), event.destination, event.basic[0] == BEARER,
                      event.basic[1], event.point, event.is_forwarded, event.cause or 0)


def update_octets(update):
    operation, kind, lists, octets = 0, 0, [], b""
    if isinstance(update, Line):
        operation, octets = CODES[update.operation], update.octets
    else:
        kind = KINDS[update if isinstance(update, str) else type(update)]
        lists = [getattr(update, "lists", {}).get(name, ()) for name in ("o", "t", "oc", "tc")]
        octets = b"".join([*map(row_octets, [*lists[0], *lists[1]]), *map(criteria_octets, [*lists[2], *lists[3]])])
    made = UPDATE.pack(len(octets), operation, kind, bytes(map(len, lists))) + octets
    return made + bytes(-len(made) % 8)


def plan_octets(plan, decisions):
    """The octets of a plan by which each caller has so many events decided, behind their count."""
    sent = [*map(update_octets, plan.updates)]
    asked = [event_octets(plan.events[number], imsi) for imsi, number in plan.asked]
    first = HEAD.size - 8 + STEP.size * len(plan.steps) + EVENT.size * len(asked)
    places = [*accumulate(map(len, sent), initial=first)]
    steps = [STEP.pack(imsi_number(step[0]), places[step[1]]) if step else bytes(STEP.size) for step in plan.steps]
    return HEAD.pack(places[-1], decisions, len(steps), len(asked)) + b"".join(steps + asked + sent)
