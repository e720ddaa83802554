"""The components of a TCAP message (Q.773): the operations of MAP that it invokes, and what it answers."""

import re
from contextlib import suppress
from typing import NamedTuple

from wenqolo.octets.encoding import tbcd_digits
from wenqolo.octets.reading import Fault, Reader

OPERATIONS = {2: "updateLocation", 3: "cancelLocation", 7: "insertSubscriberData", 8: "deleteSubscriberData",
              57: "restoreData", 67: "purgeMS"}

# In a location update the HLR sends the data. A request is one of the VLR, and its answer says what comes of it.
LOCATION_UPDATES = ("updateLocation", "restoreData")
REQUESTS = (*LOCATION_UPDATES, "purgeMS")
# The errors of a location update by which the subscription is gone: unknownSubscriber, unknownEquipment and
# roamingNotAllowed (TS 29.002). Any other says nothing of it, as systemFailure.
UNKNOWN_SUBSCRIBER, UNKNOWN_EQUIPMENT, ROAMING_NOT_ALLOWED = GONE = (1, 7, 8)

# Identifiers of TCAP: the components, of which the last one counts nothing here, a linked id, an INTEGER, which an id and a local code are, and what stands for
# an id that is not known.
INVOKE, RESULT, ERROR, REJECT, RESULT_NOT_LAST = 0xA1, 0xA2, 0xA3, 0xA4, 0xA7
LINKED, INTEGER, NULL = 0x80, 0x02, 0x05
# Identifiers of MAP: arguments, and an IMSI.
SEQUENCE, PURGE_MS, UNTAGGED_IMSI, TAGGED_IMSI = 0x30, 0xA3, 0x04, 0x80
END_OF_CONTENTS = b"\0\0"


class Invoke(NamedTuple):
    """The octets of its id, the name of an operation, empty if it is none that counts here, the IMSI in its argument,
    and the argument."""

    number: bytes
    operation: str
    imsi: str
    argument: bytes


class Answer(NamedTuple):
    """What answers an invoke: the octets of its id, which a reject may lack, and whether it is a result, an error or a
    reject. An error has its code."""

    number: bytes
    kind: int
    code: int


class Message(Reader):
    """Reads what is around arguments, and so may be nested deeper than one."""

    most_depth = 200


def elements(octets):
    """The identifier, the content and the place behind it of each element of a series, up to one that is malformed."""
    reader, at = Message(octets), 0
    with suppress(Fault):
        while at < len(octets) and octets[at : at + 2] != END_OF_CONTENTS:
            found = reader.element(at, len(octets))
            yield octets[at], reader.content(found), found.after
            at = found.after


def imsi_of(operation, argument):
    """The IMSI in the argument of an operation that may have one, or nothing. The decoder looks for others."""
    identifier, content, _ = next(elements(argument), (None, b"", 0))
    forms = (SEQUENCE, PURGE_MS) if operation == "purgeMS" else (SEQUENCE,)
    if not operation or identifier not in forms:
        return ""
    tag = TAGGED_IMSI if operation in ("insertSubscriberData", "deleteSubscriberData") else UNTAGGED_IMSI
    digits = next((tbcd_digits(inner) for identifier, inner, _ in elements(content) if identifier == tag), "")
    return digits if re.fullmatch("[0-9]{5,15}", digits) else ""


def invoke_of(content):
    """The invoke that the content of a component is, or None if it has no operation code. Only local codes count."""
    number = b""
    for place, (identifier, inner, after) in enumerate(elements(content)):
        # The first element is the id of the invoke, and the id of a linked one may come before the code.
        if not place:
            number = inner
        elif identifier != LINKED:
            code = int.from_bytes(inner, "big") if identifier == INTEGER else None
            operation, argument = OPERATIONS.get(code, ""), content[after:]
            return Invoke(number, operation, imsi_of(operation, argument), argument)
    return None


def answer_of(kind, content):
    """The answer that the content of a component is, or None if it has no id. A reject of what can't be read has a NULL
    for it."""
    inner = [*elements(content)]
    if kind == REJECT and inner and inner[0][0] == NULL:
        return Answer(b"", kind, 0)
    if not inner or inner[0][0] != INTEGER:
        return None
    is_local = kind == ERROR and len(inner) > 1 and inner[1][0] == INTEGER
    return Answer(inner[0][1], kind, int.from_bytes(inner[1][1], "big") if is_local else 0)


def components_of(octets):
    """The invokes and the answers of a message, in its order, and whether all of it can be read."""
    found, read = [], 0
    for identifier, content, read in elements(octets):
        if identifier == INVOKE:
            found.append(invoke_of(content))
        elif identifier in (RESULT, ERROR, REJECT):
            found.append(answer_of(identifier, content))
        elif identifier != RESULT_NOT_LAST:
            found.append(None)
    return [*filter(None, found)], None not in found and octets[read : read + 2] in (b"", END_OF_CONTENTS)
