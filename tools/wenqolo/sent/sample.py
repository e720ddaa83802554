"""A capture of some dialogues of MAP between a VLR and two HLRs: two location updates that overlap, with their
subscriber data, a withdrawal, a cancellation, a location update that comes again, with its criteria in two operations,
data that are restored, location updates that the HLR refuses or aborts, data that the VLR refuses, data of subscribers
who registered before, and purges; and dialogues as a probe may capture them. It is what tests/map/dialogues.pcap holds,
in IP, SCTP, M3UA with SCCP, or SUA, and TCAP: `python3 -m wenqolo.sent.sample FILE` writes it."""

import sys
from pathlib import Path

from wenqolo.octets.components import ROAMING_NOT_ALLOWED, UNKNOWN_SUBSCRIBER
from wenqolo.sent import packets, probed
from wenqolo.sent.exchanges import (HLR, OTHER_HLR, SERVICE, VLR, argument, location_update, location_updated,
                                    outgoing_data, outgoing_rows, request, single_operation, update_location)
from wenqolo.sent.transactions import (BEGIN, CONTINUE, END, REQUEST, RESPONSE, abort, dialogue, error, invoke, message,
                                       result)
from wenqolo.updates import Cancel, Delete, Entry, Insert, Row, bits_of

ONE, OTHER, RESTORED, UNKNOWN, EARLIER, PLAIN, ALSO_EARLIER, LATER = (f"26201000000000{last}" for last in range(1, 9))

# Errors of TS 29.002, and a parameter that one of them has: plmnRoamingNotAllowed. A cause of TCAP: resourceLimitation.
DATA_MISSING, UNEXPECTED_DATA_VALUE = 35, 36
PLMN_ROAMING_NOT_ALLOWED, RESOURCE_LIMITATION = bytes.fromhex("30030a0100"), 4


def terminating_data():
    return {"t": [Row(12, 200, SERVICE, 0), Row(13, 201, SERVICE, 0)], "tc": [Entry(13, basics=[(3, b"\x11")])]}


def overlapping_updates():
    """The messages of two location updates. Both HLRs happen to take the same transaction id."""
    inserts = [Insert(ONE, outgoing_data(), False), Insert(ONE, terminating_data(), False)]
    insert = Insert(OTHER, {"o": [Row(2, 300, SERVICE, 1)]}, False)
    asks, accepts = (dialogue(kind, "updateLocation") for kind in (REQUEST, RESPONSE))
    first, second = (invoke(number, "insertSubscriberData", argument(data)) for number, data in enumerate(inserts, 1))
    yield VLR, HLR, message(BEGIN, 1, None, asks, [invoke(1, "updateLocation", update_location(ONE))])
    yield VLR, OTHER_HLR, message(BEGIN, 2, None, asks, [invoke(1, "updateLocation", update_location(OTHER))])
    yield HLR, VLR, message(CONTINUE, 7, 1, accepts, [first, second])
    yield OTHER_HLR, VLR, message(CONTINUE, 7, 2, accepts, [invoke(1, "insertSubscriberData", argument(insert))])
    yield VLR, HLR, message(CONTINUE, 1, 7, b"", [result(1), result(2)])
    yield VLR, OTHER_HLR, message(CONTINUE, 2, 7, b"", [result(1)])
    yield HLR, VLR, message(END, None, 1, b"", [result(1, "updateLocation", location_updated(HLR))])
    yield OTHER_HLR, VLR, message(END, None, 2, b"", [result(1, "updateLocation", location_updated(OTHER_HLR))])


def repeated_update():
    """The messages of a location update of a subscriber who has a record: the O-CSI, with its criteria in two parts."""
    data = outgoing_data()
    inserts = [Insert(ONE, data | {"oc": data["oc"][:1]}, False), Insert(ONE, {"oc": data["oc"][1:]}, False)]
    return location_update(3, ONE, [(insert, None) for insert in inserts])


def refused_updates():
    """The messages of location updates that the HLR refuses: of a subscriber without a record, and of one with it."""
    yield from location_update(5, UNKNOWN, answer=error(1, UNKNOWN_SUBSCRIBER))
    yield from location_update(6, RESTORED, answer=error(1, ROAMING_NOT_ALLOWED, PLMN_ROAMING_NOT_ALLOWED))


def refused_data():
    """The messages of location updates whose data are refused: by the VLR, and by a decoder, since a service key is
    over 2^31 - 1; both of a subscriber with a record. Then of one without it, criteria without their CSI."""
    refused = Insert(ONE, outgoing_rows(500), False)
    yield from location_update(7, ONE, [(refused, error(1, UNEXPECTED_DATA_VALUE))])
    yield from location_update(8, ONE, [(Insert(ONE, outgoing_rows(2**31), False), None)])
    yield from location_update(9, LATER, [(Insert(LATER, {"oc": outgoing_data()["oc"]}, False), None)])


def aborted_update():
    """The messages of a location update that the HLR aborts before any data came."""
    yield request(10, "updateLocation", ONE)
    yield HLR, VLR, abort(10, RESOURCE_LIMITATION)


def purged(transaction, imsi, answer):
    """The messages by which the VLR purges a subscriber."""
    yield request(transaction, "purgeMS", imsi)
    yield HLR, VLR, message(END, None, transaction, dialogue(RESPONSE, "purgeMS"), [answer])


def messages():
    yield from overlapping_updates()
    yield from single_operation(HLR, 8, "deleteSubscriberData", Delete(ONE, bits=bits_of(["vt"])))
    yield from single_operation(OTHER_HLR, 8, "cancelLocation", Cancel(OTHER))
    yield from repeated_update()
    yield from location_update(4, RESTORED, [(Insert(RESTORED, outgoing_rows(400), False), None)], "restoreData")
    yield from refused_updates()
    yield from refused_data()
    yield from aborted_update()
    yield from single_operation(HLR, 8, "insertSubscriberData", Insert(EARLIER, outgoing_rows(600)))
    yield from single_operation(HLR, 8, "deleteSubscriberData", Delete(ALSO_EARLIER, bits=bits_of(["vt"])))
    yield from location_update(11, PLAIN)
    yield from purged(12, PLAIN, result(1))
    yield from purged(13, EARLIER, error(1, DATA_MISSING))
    yield request(14, "updateLocation", ONE)
    yield from probed.messages()


def capture():
    """The octets of the capture."""
    written = [packets.carried(number, *parts) for number, parts in enumerate(messages(), 1)]
    return packets.capture(packets.RAW_IP, written)


if __name__ == "__main__":
    Path(sys.argv[1]).write_bytes(capture())
