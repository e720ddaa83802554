"""TCAP messages (Q.773) with invokes, results and errors of MAP, and the SCCP messages (Q.713) that carry them."""

from wenqolo.octets.ber import (APPLICATION, INTEGER, OBJECT_IDENTIFIER, SEQUENCE, Element, context, identifier_octets,
                                integer_octets, length_octets, minimal, universal)
from wenqolo.octets.components import OPERATIONS
from wenqolo.octets.encoding import tbcd

CODES = {name: code for code, name in OPERATIONS.items()} | {"processUnstructuredSS-Request": 59}

# The last arcs of the application contexts, which lie below 0.4.0.0.1.0.
CONTEXTS = {"updateLocation": (1, 3), "cancelLocation": (2, 3), "insertSubscriberData": (16, 3),
            "deleteSubscriberData": (16, 3), "restoreData": (1, 3), "purgeMS": (27, 3),
            "processUnstructuredSS-Request": (19, 2)}
CONTEXT_PREFIX = bytes.fromhex("0400000100")
DIALOGUE_AS_STRUCTURED = bytes.fromhex("00118605010101")
VERSION_1 = bytes.fromhex("0780")
# The dialogue PDUs of MAP, and octet 1 of a number of E.212.
MAP_DIALOGUE, LAND_MOBILE = bytes.fromhex("04000001010101"), b"\x96"

BEGIN, END, CONTINUE, ABORT = 2, 4, 5, 7
REQUEST, RESPONSE = 0, 1
VLR, HLR = 7, 6


def wrapped(element, octets):
    """The element with these octets as the content, of whatever form they are."""
    return identifier_octets(element) + length_octets(len(octets)) + octets


def invoke(number, operation, argument):
    """An invoke whose argument is octets, possibly malformed ones."""
    head = minimal(universal(INTEGER, integer_octets(number)))
    head += minimal(universal(INTEGER, integer_octets(CODES[operation])))
    return wrapped(context(1, []), head + argument)


def result(number, operation=None, argument=b""):
    """The last result of an invoke, with an argument if there is an operation."""
    content = minimal(universal(INTEGER, integer_octets(number)))
    if operation:
        head = minimal(universal(INTEGER, integer_octets(CODES[operation])))
        content += wrapped(universal(SEQUENCE, []), head + argument)
    return wrapped(context(2, []), content)


def error(number, code, parameter=b""):
    """The error that answers an invoke, possibly with a parameter."""
    head = b"".join(minimal(universal(INTEGER, integer_octets(value))) for value in (number, code))
    return wrapped(context(3, []), head + parameter)


def external(kind, element):
    """What has this element by the name of its kind."""
    return universal(8, [universal(OBJECT_IDENTIFIER, kind), context(0, [element])])


def portion(unit):
    """The dialogue portion with this unit."""
    return minimal(Element(APPLICATION, 11, [external(DIALOGUE_AS_STRUCTURED, unit)]))


def dialogue(kind, operation, version=None, imsi=""):
    """The dialogue portion that asks for an application context, or accepts it. If an IMSI is given, it is the
    destination reference."""
    context_id, greatest = CONTEXTS[operation]
    arcs = CONTEXT_PREFIX + bytes([context_id, version or greatest])
    named = context(1, [universal(OBJECT_IDENTIFIER, arcs)])
    elements = [context(0, VERSION_1), named]
    if kind == RESPONSE:
        accepted = universal(INTEGER, b"\0")
        elements += [context(2, [accepted]), context(3, [context(1, [accepted])])]
    if imsi:
        opened = context(0, [context(0, LAND_MOBILE + tbcd(imsi))])
        elements.append(context(30, [external(MAP_DIALOGUE, opened)]))
    return portion(Element(APPLICATION, kind, elements))


def message(kind, origin, destination, portion, components):
    """A TCAP message. A transaction id that it has not is None, and a dialogue portion empty."""
    content = b""
    for number, transaction in ((8, origin), (9, destination)):
        if transaction is not None:
            content += minimal(Element(APPLICATION, number, transaction.to_bytes(4, "big")))
    content += portion
    if components:
        content += wrapped(Element(APPLICATION, 12, []), b"".join(components))
    return wrapped(Element(APPLICATION, kind, []), content)


def abort(destination, cause=None):
    """The TCAP message by which a transaction ends for this cause of its provider, or if there is none by its user."""
    ids = minimal(Element(APPLICATION, 9, destination.to_bytes(4, "big")))
    by_user = portion(Element(APPLICATION, 4, [context(0, b"\0")]))
    why = by_user if cause is None else minimal(Element(APPLICATION, 10, bytes([cause])))
    return wrapped(Element(APPLICATION, ABORT, []), ids + why)


def unread_reject():
    """The reject of a component that can't be read, so that it has no id: badlyStructuredComponent."""
    return wrapped(context(4, []), minimal(universal(5, b"")) + minimal(context(0, b"\x02")))


def address(subsystem, digits):
    """An SCCP address that is routed on its global title, an international number of E.164, or without digits on its
    subsystem."""
    if not digits:
        return bytes([0x42, subsystem])
    scheme = 1 if len(digits) % 2 else 2
    text = digits + "0" * (len(digits) % 2)
    swapped = "".join(text[at + 1] + text[at] for at in range(0, len(text), 2))
    return bytes([0x12, subsystem, 0, 0x10 | scheme, 4]) + bytes.fromhex(swapped)


def unitdata(called, calling, data):
    """An SCCP message of at most 255 octets of data."""
    parts = [bytes([len(part)]) + part for part in (called, calling, data)]
    pointers = bytes([3, 2 + len(parts[0]), 1 + len(parts[0]) + len(parts[1])])
    return b"\x09\x00" + pointers + b"".join(parts)


def long_unitdata(called, calling, data):
    """An SCCP message of up to 3952 octets of data."""
    parts = [bytes([len(called)]) + called, bytes([len(calling)]) + calling, len(data).to_bytes(2, "little") + data]
    pointers, at = [], 8
    for place, part in enumerate(parts):
        # A pointer counts from its own last octet.
        pointers.append(at - 2 * place - 1)
        at += len(part)
    octets = b"".join(pointer.to_bytes(2, "little") for pointer in [*pointers, 0])
    return b"\x13\x00\x0f" + octets + b"".join(parts)
