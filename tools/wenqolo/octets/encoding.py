"""The argument of an update as a tree of elements, straight from the types of TS 29.002."""

from typing import NamedTuple

from wenqolo.octets.ber import ENUMERATED, INTEGER, OCTET_STRING, SEQUENCE, context, integer_octets, universal
from wenqolo.updates import Cancel, Delete

# The tags of the lists and CSIs in VlrCamelSubscriptionInfo.
TAGS = {"o": 0, "oc": 4, "t": 7, "tc": 8}
# The tags of an entry's criteria, in the order of Entry. None if the list has entries without such a criterion.
ENTRY_TAGS = {"oc": (0, 1, 2, 3), "tc": (None, 0, None, 1)}
FILLER = "f"
LMSI = bytes(4)


class Line(NamedTuple):
    """What a decoder of arguments reads: an operation, the IMSI of its dialogue or nothing, and the octets of its
    argument."""

    operation: str
    imsi: str
    octets: bytes

    def __str__(self):
        return f"{self.operation},{self.imsi},{self.octets.hex()}"


def tbcd(digits):
    """Two digits in an octet, the earlier one in the lower half."""
    text = digits + FILLER * (len(digits) % 2)
    return bytes(int(text[at + 1] + text[at], 16) for at in range(0, len(text), 2))


def tbcd_digits(octets):
    """The digits of an IMSI, the lower half of an octet first, without the filler at the end."""
    return "".join(f"{octet & 15:x}{octet >> 4:x}" for octet in octets).removesuffix("f")


def sequence(elements, type_name=""):
    return universal(SEQUENCE, elements, type_name)


def row_element(row):
    return sequence([
        universal(ENUMERATED, integer_octets(row.point)),
        universal(INTEGER, integer_octets(row.key)),
        context(0, row.address),
        context(1, integer_octets(row.handling)),
    ], "row")


def number_element(tag, number):
    elements = [context(0, integer_octets(number.match_type))]
    if number.numbers is not None:
        elements.append(context(1, [universal(OCTET_STRING, listed) for listed in number.numbers]))
    if number.lengths is not None:
        elements.append(context(2, [universal(INTEGER, integer_octets(length)) for length in number.lengths]))
    return context(tag, elements, "number")


def basics_element(tag, basics):
    return context(tag, [context(kind, octets) for kind, octets in basics])


def causes_element(tag, causes):
    return context(tag, [universal(OCTET_STRING, bytes([cause])) for cause in causes])


def choice_element(tag, choice):
    return context(tag, integer_octets(choice))


def entry_element(entry, name):
    point, *criteria = vars(entry).values()
    made = zip((number_element, basics_element, choice_element, causes_element), ENTRY_TAGS[name], criteria)
    elements = [element(tag, criterion) for element, tag, criterion in made if criterion is not None]
    return sequence([universal(ENUMERATED, integer_octets(point)), *elements], f"{name[0]}-entry")


def list_element(name, items, capability=None):
    """A CSI is a sequence whose first element is the list, perhaps with its camelCapabilityHandling; criteria are the
    list itself."""
    if name.endswith("c"):
        return context(TAGS[name], [entry_element(entry, name) for entry in items])
    elements = [sequence([row_element(row) for row in items])]
    if capability is not None:
        elements.append(context(0, integer_octets(capability)))
    return context(TAGS[name], elements, "csi")


def insert_element(insert):
    elements = [context(0, tbcd(insert.imsi))] if insert.shows_imsi else []
    if insert.lists:
        lists = [list_element(name, insert.lists[name], insert.capabilities.get(name))
                 for name in TAGS if name in insert.lists]
        elements.append(context(13, lists, "information"))
    return sequence(elements, "insert")


def bits_octets(bits):
    """The count of unused bits, and the octets of a text of bits."""
    unused = -len(bits) % 8
    return bytes([unused]) + bytes(int(bits[at : at + 8].ljust(8, "0"), 2) for at in range(0, len(bits), 8))


def delete_element(delete):
    elements = [context(0, tbcd(delete.imsi))]
    if delete.everything:
        elements.append(context(9, b""))
    if delete.bits is not None:
        elements.append(context(15, bits_octets(delete.bits)))
    return sequence(elements, "delete")


def cancel_element(cancel):
    identity = universal(OCTET_STRING, tbcd(cancel.imsi))
    if cancel.with_lmsi:
        identity = sequence([identity, universal(OCTET_STRING, LMSI)])
    if cancel.version < 3:
        return identity
    return context(3, [identity], "cancel")


def element_of(update):
    """The argument of an update."""
    if isinstance(update, Cancel):
        return cancel_element(update)
    return delete_element(update) if isinstance(update, Delete) else insert_element(update)
