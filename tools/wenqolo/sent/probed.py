"""Dialogues as a probe may capture them: requests that ask for no data, criteria before their CSI, aborts by the VLR,
ends that are named in two ways, messages that come again on another link, and what a script has no record of."""

from wenqolo.octets import encoding
from wenqolo.octets.ber import OCTET_STRING, SEQUENCE, context, integer_octets, minimal, universal
from wenqolo.sent import packets
from wenqolo.sent.exchanges import (HLR, HLR_TRANSACTION, OTHER_HLR, SERVICE, VLR, argument, location_update,
                                    location_updated, operation_begun, outgoing_data, outgoing_rows, request,
                                    update_location)
from wenqolo.sent.transactions import (CONTINUE, END, RESPONSE, abort, dialogue, error, invoke, message, result,
                                       unread_reject)
from wenqolo.updates import Cancel, Insert

(STAYING, CRITERIA_FIRST, KEPT, CROSSED, OTHER_CROSSED, TWICE, BY_CODE, HLR_BY_CODE, OPENED, BESIDE, CRITERIA_ALONE,
 NEVER_BEGUN, LOSING) = (f"2620100000001{last:02}" for last in range(13))

# Errors of TS 29.002, a cause of TCAP, resourceLimitation, and the point code of a signalling transfer point.
SYSTEM_FAILURE, RESOURCE_LIMITATION, TRANSFER = 34, 4, 150
# Three ways in which a location update asks for no data.
NO_DATA = (([context(15, b"")], []), ([context(13, [context(0, bytes(8)), context(1, b"")])], []),
           ([], [context(3, [context(1, b"\x01")])]))
UNSEEN = "\ufffeA\uffff"


def no_data_updates():
    """The messages of location updates that bring data, and then ask for none, in three ways, and for data again."""
    yield from location_update(20, STAYING, [(Insert(STAYING, outgoing_rows(700), False), None)])
    for transaction, fields in enumerate(NO_DATA, 21):
        yield from location_update(transaction, STAYING, octets=update_location(STAYING, *fields))
    yield from location_update(24, STAYING, answer=error(1, SYSTEM_FAILURE))


def several_inserts(imsi, *lists):
    """The messages of a dialogue of an HLR in which these lists come, each in an operation."""
    accepts = dialogue(RESPONSE, "insertSubscriberData")
    first, *rest = (argument(Insert(imsi, some, number == 1)) for number, some in enumerate(lists, 1))
    yield operation_begun(HLR, 8, "insertSubscriberData", first)
    for number, octets in enumerate(rest, 2):
        yield VLR, HLR, message(CONTINUE, 25, 8, accepts if number == 2 else b"", [result(number - 1)])
        yield HLR, VLR, message(CONTINUE, 8, 25, b"", [invoke(number, "insertSubscriberData", octets)])
    yield VLR, HLR, message(END, None, 8, b"", [result(len(lists))])


def criteria_first():
    """The messages of dialogues in which the criteria of a CSI come before its rows: of a subscriber with a record, in
    a location update, and in another one with no rows at all behind them."""
    data = outgoing_data()
    criteria, rows = {"oc": data["oc"]}, {"o": data["o"]}
    yield from several_inserts(STAYING, criteria, rows)
    for transaction, imsi, lists in (26, CRITERIA_FIRST, (criteria, rows)), (27, CRITERIA_ALONE, (criteria,)):
        yield from location_update(transaction, imsi, [(Insert(imsi, some, False), None) for some in lists])


def left_undone():
    """The messages of dialogues whose operation the VLR aborts, as its provider or its user, or can't read."""
    yield from location_update(28, KEPT, [(Insert(KEPT, outgoing_rows(710), False), None)])
    changed = argument(Insert(KEPT, outgoing_rows(711)))
    for ending in abort(8, RESOURCE_LIMITATION), message(END, None, 8, b"", [unread_reject()]):
        yield operation_begun(HLR, 8, "insertSubscriberData", changed)
        yield VLR, HLR, ending
    yield operation_begun(HLR, 8, "cancelLocation", argument(Cancel(KEPT)))
    yield VLR, HLR, abort(8)


def crossed_updates():
    """The messages of two location updates over SUA: each end has the transaction id of the other one's other end."""
    accepts = dialogue(RESPONSE, "updateLocation")
    updates = ((31, 32, HLR, CROSSED, 720), (32, 31, OTHER_HLR, OTHER_CROSSED, 721))
    steps = [[], [], [], []]
    for own, other, node, imsi, key in updates:
        octets = argument(Insert(imsi, outgoing_rows(key), False))
        asked, done = invoke(1, "insertSubscriberData", octets), result(1, "updateLocation", location_updated(node))
        steps[0].append((VLR, node, request(own, "updateLocation", imsi)[2]))
        steps[1].append((node, VLR, message(CONTINUE, other, own, accepts, [asked])))
        steps[2].append((VLR, node, message(CONTINUE, own, other, b"", [result(1)])))
        steps[3].append((node, VLR, message(END, None, own, b"", [done])))
    for parts in (parts for step in steps for parts in step):
        yield *parts, packets.over_sua


def on_two_links():
    """The messages of a location update, each on the link to a signalling transfer point, and on that behind it."""
    data = outgoing_data()
    lists = data | {"oc": data["oc"][:1]}, {"oc": data["oc"][1:]}
    for sender, receiver, octets in location_update(33, TWICE, [(Insert(TWICE, some, False), None) for some in lists]):
        yield sender, receiver._replace(code=TRANSFER), octets
        yield sender._replace(code=TRANSFER), receiver, octets


def mixed_names():
    """The messages of location updates in which an end is named by its number at times, and else by its point code: the
    VLR where it is called, and the HLR where it calls. So a probe sees them behind the last transfer point."""
    for transaction, imsi, called, calling in (34, BY_CODE, VLR, None), (35, HLR_BY_CODE, None, HLR):
        inserts = [(Insert(imsi, outgoing_rows(700 + transaction), False), None)]
        for sender, receiver, octets in location_update(transaction, imsi, inserts):
            sender = sender._replace(number="") if sender == calling else sender
            yield sender, receiver._replace(number="") if receiver == called else receiver, octets


def with_others(insert):
    """The argument of an insert, with CSIs beside those of calls, in the data of the VLR and of an SGSN."""
    element = encoding.element_of(insert)
    address, phase = universal(OCTET_STRING, SERVICE), context(1, integer_octets(3))
    service = universal(SEQUENCE, [universal(SEQUENCE, [universal(OCTET_STRING, b"\x21")]), address])
    element.content[-1].content += [context(2, [service]), context(3, b""), context(6, [phase]), context(9, [phase])]
    element.content.append(context(17, [context(0, [phase])]))
    return minimal(element)


def other_data():
    """The messages of an insert whose dialogue names the subscriber, of one with CSIs that are skipped, of a USSD with
    characters that XML has no place for, and of an insert whose dialogue began before the capture."""
    yield from location_update(36, OPENED, [(Insert(OPENED, outgoing_rows(736), False), None)])
    changed = argument(Insert(OPENED, outgoing_rows(737), False))
    yield operation_begun(HLR, 8, "insertSubscriberData", changed, OPENED)
    yield VLR, HLR, message(END, None, 8, dialogue(RESPONSE, "insertSubscriberData"), [result(1)])
    beside = with_others(Insert(BESIDE, outgoing_rows(738), False))
    yield from location_update(37, BESIDE, [(beside, None)])
    octets = minimal(universal(SEQUENCE, [universal(OCTET_STRING, b"\x48"),
                                          universal(OCTET_STRING, UNSEEN.encode("utf-16-be"))]))
    yield operation_begun(HLR, 8, "processUnstructuredSS-Request", octets)
    yield VLR, HLR, abort(8, RESOURCE_LIMITATION)
    unnamed = argument(Insert(NEVER_BEGUN, outgoing_rows(739), False))
    yield HLR, VLR, message(CONTINUE, HLR_TRANSACTION, 38, b"", [invoke(1, "insertSubscriberData", unnamed)])
    yield VLR, HLR, message(CONTINUE, 38, HLR_TRANSACTION, b"", [result(1)])


def lost_message():
    """The messages of two location updates, of which the second one lacks that with its insert."""
    first, second = (location_update(transaction, LOSING, [(Insert(LOSING, outgoing_rows(740), False), None)])
                     for transaction in (39, 40))
    yield from first
    yield from (parts for place, parts in enumerate(second) if place != 1)


def messages():
    for some in (no_data_updates, criteria_first, left_undone, crossed_updates, on_two_links, mixed_names, other_data,
                 lost_message):
        yield from some()
