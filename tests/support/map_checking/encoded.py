"""The arguments that the encoder makes of updates, compared with what the tools write of the same updates."""

import random
from dataclasses import replace

from support.map_checking.programs import CHECK, answers_of
from wenqolo import updates
from wenqolo.drawn.styles import STYLES
from wenqolo.octets import encoding
from wenqolo.octets.ber import context
from wenqolo.octets.encoding import Line

# The item that stands for those of a list of which all are ignored: of a detection point of the other CSI.
IGNORED = {"o": updates.Row(12, 0, bytes(1), 0), "oc": updates.Entry(12),
           "t": updates.Row(2, 0, bytes(1), 0), "tc": updates.Entry(2)}


def sent_number(number):
    return number and updates.NumberCriterion(number.match_type, number.numbers or None, number.lengths or None)


def sent_item(item):
    """An item with the values that count: of a code of several octets the first, of a cause seven bits."""
    if isinstance(item, updates.Row):
        return updates.Row(item.point, item.key, item.address, int(updates.is_release(item.handling)))
    basics = [(tag, octets[:1]) for tag, octets in item.basics or ()]
    causes = [cause & 127 for cause in item.causes or ()]
    return replace(item, number=sent_number(item.number), basics=basics or None, causes=causes or None)


def sent_items(name, items):
    kept = [sent_item(item) for item in items if item.point in updates.points_of(name)]
    return kept or [IGNORED[name]]


def sent_update(update):
    """An update with all that counts of another and no more, in version 3."""
    if isinstance(update, updates.Cancel):
        return updates.Cancel(update.imsi)
    if isinstance(update, updates.Delete):
        named = [what for what in updates.withdrawn(update) if what in updates.BITS]
        return updates.Delete(update.imsi, update.everything, updates.bits_of(named) if named else None)
    return updates.Insert(update.imsi, {name: sent_items(name, items) for name, items in update.lists.items()})


def sent_element(update):
    """The argument of such an update. That of an insert has all fields, also if no list is sent."""
    if not isinstance(update, updates.Insert):
        return encoding.element_of(update)
    lists = [encoding.list_element(name, update.lists[name]) for name in encoding.TAGS if name in update.lists]
    return encoding.sequence([context(0, encoding.tbcd(update.imsi)), context(13, lists)])


def line_of(text):
    operation, imsi, digits = text.split(",")
    return Line(operation, imsi, bytes.fromhex(digits))


def encoded_lines(drawn):
    """The lines that the encoder makes of the updates that lines are read as. Octet for octet they are to be those that
    the tools write of these updates in the shortest style."""
    lines = [line_of(text) for text in answers_of([CHECK, "--encode"], [line for _, line in drawn])]
    for (update, given), line in zip(drawn, lines):
        written = STYLES["minimal"].octets(random, sent_element(sent_update(update)))
        is_so = (line.operation, line.octets) == (updates.OPERATIONS[type(update)], written)
        assert is_so, f"{given}\n  is encoded as {line}\n  and written as {written.hex()}"
    return lines
