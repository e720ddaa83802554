"""Steps as records of scripts (docs/SCRIPT.md), and what octets hold as the items of a record, both ways."""

from dataclasses import replace

from wenqolo import updates
from wenqolo.decoder import Decoder
from wenqolo.octets.encoding import Line
from wenqolo.octets.reading import Fault
from wenqolo.rules import OPERATIONS

# The refusals of a decoder that a script has too, so that its record shows what was received.
OF_DATA = ("octets-of-address", "great-service-key", "no-number", "long-list", "range-of-length", "point-twice",
           "cause-at-first-point")
GREATEST_POINT, GREATEST_LENGTH, GREATEST = 255, 255, 2**32 - 1


class Untold(Exception):
    """What is received has no record: a script has no words for it."""


def basics_of(text):
    return [({"b": 2, "t": 3}[code[0]], bytes.fromhex(code[1:])) for code in text.split("+")] if text else None


def number_of(text):
    if not text:
        return None
    kind, numbers, lengths = text.split("/")
    return updates.NumberCriterion("ie".index(kind), [bytes.fromhex(number) for number in numbers.split("+")]
                                   if numbers else None, [*map(int, lengths.split("+"))] if lengths else None)


def item_of(text):
    """The name of an item, and its row or entry."""
    name, point, *parts = text.split(":")
    if name in updates.CSIS:
        key, address, handling = parts
        return name, updates.Row(int(point), int(key), bytes.fromhex(address), int(handling))
    number, basics, forwarding, causes = parts if name == "oc" else ("", parts[0], "", parts[1])
    return name, updates.Entry(int(point), number_of(number), basics_of(basics), "fn".index(forwarding) if forwarding
                               else None, [*map(int, causes.split("+"))] if causes else None)


def lists_of(texts):
    """The lists of the items, by their names."""
    lists = {}
    for name, item in map(item_of, texts):
        lists.setdefault(name, []).append(item)
    return lists


def update_of(word, imsi, holds):
    """The update that is said to be held. A word `imsi:DIGITS` says that an Insert has its IMSI in itself."""
    texts = holds.split()
    if word == "delete":
        bits = "".join("1" if what in texts else "0" for what in ("o", "-", "-", "-", "vt")) if {"o", "vt"} & {*texts} \
            else None
        return updates.Delete(imsi, "all" in texts, bits)
    if word == "cancel":
        return updates.Cancel(imsi)
    shown = [text[5:] for text in texts if text.startswith("imsi:")]
    return updates.Insert(shown[0] if shown else imsi, lists_of(texts[len(shown):]), bool(shown))


def item_text(name, item):
    """The text of an item as it came, also of one that is ignored, with numbers that a record can hold."""
    item = replace(item, point=item.point if 0 <= item.point <= GREATEST_POINT else GREATEST_POINT)
    if name in updates.CSIS:
        return updates.item_text(name, replace(item, handling=min(item.handling, GREATEST)))
    if item.number:
        if item.number.numbers == [b""]:
            raise Untold("one number of no octets")
        lengths = item.number.lengths and [min(length, GREATEST_LENGTH) for length in item.number.lengths]
        item = replace(item, number=replace(item.number, lengths=lengths))
    return updates.item_text(name, item)


def item_texts(update):
    """The items of an insert as they came, ignored ones among them."""
    return [item_text(name, item) for name in updates.IGNORED for item in update.lists.get(name, ())]


def insert_texts(insert):
    """What an insert holds: its IMSI, if it has one in itself, and its items."""
    return [f"imsi:{insert.imsi}"] * insert.shows_imsi + item_texts(insert)


def received(step):
    """The update of a step's octets, with what a script's record may say and a rule refuses, or Untold."""
    try:
        return Decoder(Line(OPERATIONS[step.word], step.imsi(), step.octets()), OF_DATA).update()
    except Fault as fault:
        raise Untold(fault.rule) from fault


def held(step):
    """The IMSI of a step's octets or of its dialogue, and what they hold, as vectors say it; or Untold."""
    update = received(step)
    if isinstance(update, updates.Delete):
        return update.imsi, updates.withdrawn(update)
    return update.imsi, insert_texts(update) if isinstance(update, updates.Insert) else []


def call_of(fields):
    """The record of a call, which has fewer fields than a step: a destination of no octets is an empty one."""
    point, imsi, basic, destination, forwarded, cause = fields
    number = [destination.strip("-"), forwarded] if int(point) in updates.O_POINTS else []
    return ",".join(["call", point, imsi, basic, *number, *([] if cause == "-" else [cause])])


class Records:
    """The records of the steps of a vector, one after the other. A further operation is joined to those before it."""

    def __init__(self):
        self.insert = None

    def of(self, step):
        """The record of a step, or Untold."""
        if step.word == "register":
            return f"register,{step.imsi()}"
        if step.word == "clear":
            return "clear"
        if step.word == "call":
            return call_of(step.fields)
        update = received(step)
        if step.word == "insert":
            self.insert = update
        elif step.word == "further":
            if update.imsi != self.insert.imsi:
                raise Untold("other-subscriber")
            update = updates.joined(self.insert, update)
        if isinstance(update, updates.Insert):
            record = ",".join(["insert", update.imsi, *item_texts(update)])
            if step.word == "further" and step.answer == "accepted":
                self.insert = update
            return record
        return updates.record_of(update)
