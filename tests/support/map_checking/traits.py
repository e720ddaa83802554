"""Traits of an argument that its model reads: what is in it that tshark reads in another way, or calls malformed."""

from contextlib import suppress

from wenqolo.drawn.extensions import FIELDS
from wenqolo.octets.ber import CONTEXT, UNIVERSAL
from wenqolo.octets.reading import Fault, Reader

ENUMERATED, INTEGER, OCTET_STRING, SEQUENCE = ((UNIVERSAL, number) for number in (10, 2, 4, 16))
ANY = None

# The types of the fields of each type. Those of a list are under ANY.
TYPES = {
    "insert": {(CONTEXT, 0): "imsi", (CONTEXT, 13): "information"},
    "information": {(CONTEXT, 0): "csi", (CONTEXT, 4): "o-entries", (CONTEXT, 7): "csi", (CONTEXT, 8): "t-entries"},
    "csi": {SEQUENCE: "rows", (CONTEXT, 0): "integer"},
    "rows": {ANY: "row"},
    "o-entries": {ANY: "o-entry"},
    "t-entries": {ANY: "t-entry"},
    "row": {ENUMERATED: "integer", INTEGER: "integer", (CONTEXT, 0): "address", (CONTEXT, 1): "integer"},
    "o-entry": {ENUMERATED: "integer", (CONTEXT, 0): "number", (CONTEXT, 1): "services", (CONTEXT, 2): "integer",
                (CONTEXT, 3): "causes"},
    "t-entry": {ENUMERATED: "integer", (CONTEXT, 0): "services", (CONTEXT, 1): "causes"},
    "number": {(CONTEXT, 0): "integer", (CONTEXT, 1): "addresses", (CONTEXT, 2): "integers"},
    "addresses": {ANY: "address"},
    "integers": {ANY: "integer"},
    "services": {ANY: "service"},
    "causes": {},
    "delete": {(CONTEXT, 0): "imsi", (CONTEXT, 9): "null", (CONTEXT, 15): "bits"},
    "cancel": {OCTET_STRING: "imsi", SEQUENCE: "cancel"},
}
OPERATION_TYPES = {"insertSubscriberData": "insert", "deleteSubscriberData": "delete", "cancelLocation": "cancel"}

NAMED_BITS = 14
LAND_MOBILE, INTERNATIONAL_E164 = 6, 0x11


def is_shared(first, second, third):
    """Whether tshark takes the first digits for a country code that several networks share, as 882."""
    return (100 * first + 10 * second + third) // 10 == 88


def address_traits(content):
    nibbles = [nibble for octet in content[1:] for nibble in (octet & 15, octet >> 4)]
    if content and content[0] & 15 == LAND_MOBILE:
        yield "plan-of-imsi"
    if any(nibble > 9 for nibble in nibbles):
        yield "no-decimal-digit"
    if len(nibbles) > 2 and content[0] & 0x7F == INTERNATIONAL_E164 and is_shared(*nibbles[:3]):
        yield "shared-country-code"


def of_size(trait, sizes):
    return lambda content: [trait] if len(content) in sizes else []


def bits_traits(content):
    if (len(content) - 1) * 8 > NAMED_BITS:
        yield "unnamed-bits"
    if len(content) > 1 and content[-1] & (1 << content[0]) - 1:
        yield "unused-bits"


LEAVES = {"address": address_traits, "bits": bits_traits, "imsi": of_size("short-imsi", range(4)),
          "service": of_size("long-service", range(5, 2**32)), "integer": of_size("long-integer", range(9, 2**32))}


def tag_traits(found):
    """Whether a tag number is greater than tshark keeps."""
    if any(field.tag[1] >= 2**32 for field in found):
        yield "great-tag"


def order_traits(type_name, found):
    """Whether fields stand in another order than the type's, and which there are besides those that are read."""
    order = {tag: place for place, tag in enumerate(FIELDS[type_name])}
    if type_name in ("csi", "cancel"):
        found = found[1:]
    places = [order.get(field.tag, len(order)) for field in found]
    known = [place for place in places if place < len(order)]
    if places != sorted(places) or len(known) > len(set(known)):
        yield "other-order"
    for field in found:
        if FIELDS[type_name].get(field.tag) or type_name == "cancel" and field.tag in order:
            yield "skipped-field"
        elif field.tag not in order:
            yield "unknown-field"


def traits_of_element(reader, found, type_name):
    if type_name in LEAVES:
        yield from LEAVES[type_name](reader.content(found))
        return
    if not found.constructed:
        return
    fields = reader.inner(found)
    types = TYPES.get(type_name, {})
    yield from tag_traits(fields)
    if type_name in FIELDS:
        yield from order_traits(type_name, fields)
    if type_name == "cancel":
        fields = fields[:1]
    if type_name == "csi":
        # A container with the tag of the list may follow it.
        fields = fields[:1] + [field for field in fields[1:] if field.tag != SEQUENCE]
    for field in fields:
        if inner_type := types.get(ANY) or types.get(field.tag):
            yield from traits_of_element(reader, field, inner_type)


def traits_of(line):
    """The traits of a line that is read. If the elements are malformed, those that come before that place."""
    traits, reader = set(), Reader(line.octets)
    type_name = OPERATION_TYPES[line.operation]
    with suppress(Fault):
        whole = reader.element(0, len(line.octets))
        if type_name == "cancel" and whole.tag == OCTET_STRING:
            type_name = "imsi"
        traits.update(traits_of_element(reader, whole, type_name))
    return traits
