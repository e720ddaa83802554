"""What nodes send each other in a dialogue of MAP: requests, location updates, and operations of an HLR."""

from typing import NamedTuple

from wenqolo.octets import encoding
from wenqolo.octets.ber import OCTET_STRING, SEQUENCE, context, minimal, universal
from wenqolo.sent import transactions
from wenqolo.sent.transactions import BEGIN, CONTINUE, END, REQUEST, RESPONSE, dialogue, invoke, message, result
from wenqolo.updates import Entry, NumberCriterion, Row


class Node(NamedTuple):
    """A node of a network: its number in SCCP, or nothing if it is named by its point code, its subsystem, its point
    code, and its address of IP."""

    number: str
    subsystem: int
    code: int
    host: bytes


VLR = Node("491710000001", transactions.VLR, 101, bytes([192, 0, 2, 1]))
HLR = Node("491710000002", transactions.HLR, 201, bytes([192, 0, 2, 2]))
OTHER_HLR = Node("491710000003", transactions.HLR, 202, bytes([192, 0, 2, 3]))

# The transaction id of the HLR in a location update.
HLR_TRANSACTION = 9

SERVICE = bytes.fromhex("919471160000")


def number_octets(digits):
    """An international number of E.164."""
    return b"\x91" + encoding.tbcd(digits)


PHASES = context(0, b"\x05\xe0")


def update_location(imsi, more=(), capability=()):
    """The argument of an updateLocation, with more fields, and with more of them in its vlr-Capability."""
    return minimal(universal(SEQUENCE, [
        universal(OCTET_STRING, encoding.tbcd(imsi)),
        context(1, number_octets(VLR.number)),
        universal(OCTET_STRING, number_octets(VLR.number)),
        context(6, [PHASES, *capability]),
        *more,
    ]))


def restore_data(imsi):
    return minimal(universal(SEQUENCE, [universal(OCTET_STRING, encoding.tbcd(imsi)), context(6, [PHASES])]))


def purge(imsi):
    return minimal(context(3, [universal(OCTET_STRING, encoding.tbcd(imsi)), context(0, number_octets(VLR.number))]))


ARGUMENTS = {"updateLocation": update_location, "restoreData": restore_data, "purgeMS": purge}


def location_updated(node):
    """The result of an updateLocation, and of a restoreData."""
    return minimal(universal(SEQUENCE, [universal(OCTET_STRING, number_octets(node.number))]))


def argument(update):
    """The argument of an update, or these octets."""
    return update if isinstance(update, bytes) else minimal(encoding.element_of(update))


def version_of(operation, octets):
    """The version of the application context: an identity without [3] is of an earlier one."""
    return 2 if operation == "cancelLocation" and octets[:1] != b"\xa3" else 3


def outgoing_data():
    """An O-CSI with the criteria of one detection point, and the causes of the other."""
    criterion = NumberCriterion(1, [bytes.fromhex("919421")], [4])
    return {"o": [Row(2, 100, SERVICE, 0), Row(4, 101, SERVICE, 1)],
            "oc": [Entry(2, criterion, [(3, b"\x10")], 1), Entry(4, causes=[0x91, 0x92])]}


def outgoing_rows(key):
    """An O-CSI of one row."""
    return {"o": [Row(2, key, SERVICE, 0)]}


def request(transaction, operation, imsi, octets=None):
    """The message by which the VLR begins a dialogue."""
    component = invoke(1, operation, octets or ARGUMENTS[operation](imsi))
    return VLR, HLR, message(BEGIN, transaction, None, dialogue(REQUEST, operation), [component])


def location_update(transaction, imsi, inserts=(), operation="updateLocation", answer=None, octets=None):
    """The messages of a location update in which these inserts come, each with what the VLR answers, None for a result.
    So it is with the answer of the HLR. The octets are those of the request, if they are not the usual ones."""
    accepts = dialogue(RESPONSE, operation)
    yield request(transaction, operation, imsi, octets)
    for number, (update, insert_answer) in enumerate(inserts, 1):
        component = invoke(number, "insertSubscriberData", argument(update))
        portion = accepts if number == 1 else b""
        yield HLR, VLR, message(CONTINUE, HLR_TRANSACTION, transaction, portion, [component])
        yield VLR, HLR, message(CONTINUE, transaction, HLR_TRANSACTION, b"", [insert_answer or result(number)])
    portion = b"" if inserts else accepts
    yield HLR, VLR, message(END, None, transaction, portion, [answer or result(1, operation, location_updated(HLR))])


def operation_begun(node, transaction, operation, octets, imsi=""):
    """The message by which an HLR begins a dialogue with an operation, by the reference of an IMSI if it is given."""
    component = invoke(1, operation, octets)
    return node, VLR, message(BEGIN, transaction, None, dialogue(REQUEST, operation, imsi=imsi), [component])


def single_operation(node, transaction, operation, update):
    """The messages of an operation that an HLR begins by itself."""
    yield operation_begun(node, transaction, operation, argument(update))
    yield VLR, node, message(END, None, transaction, dialogue(RESPONSE, operation), [result(1)])
