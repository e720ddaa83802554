"""What tshark reads of arguments: each goes in a TCAP message of its own into a capture, and the tree of fields that
tshark makes of it becomes a record of a script, with the marks of what it calls malformed."""

import tempfile
from typing import NamedTuple

from wenqolo import updates
from wenqolo.captures.pdml import TsharkFailed, trees_of
from wenqolo.octets.encoding import tbcd_digits
from wenqolo.sent import packets, transactions
from wenqolo.sent.exchanges import version_of

VLR_ADDRESS = transactions.address(transactions.VLR, "491710000001")
HLR_ADDRESS = transactions.address(transactions.HLR, "491710000002")


class Reading(NamedTuple):
    """The text that tshark's fields make, or what is missing for one, the marks that it puts, and the update, if the
    fields make one."""

    text: str
    marks: frozenset
    update: object = None


def packet_of(number, line):
    portion = transactions.dialogue(transactions.REQUEST, line.operation, version_of(line.operation, line.octets))
    invoke = transactions.invoke(1, line.operation, line.octets)
    message = transactions.message(transactions.BEGIN, number, None, portion, [invoke])
    return transactions.long_unitdata(VLR_ADDRESS, HLR_ADDRESS, message)


def row_of(node):
    point = node.first("TriggerDetectionPoint")
    endings = (".serviceKey", ".gsmSCF_Address", ".defaultCallHandling")
    key, address, handling = (node.first(ending) for ending in endings)
    return updates.Row(point.integer(), key.integer(), address.octets(), handling.integer())


def number_of(node):
    if node is None:
        return None
    numbers, lengths = node.first(".destinationNumberList"), node.first(".destinationNumberLengthList")
    return updates.NumberCriterion(
        node.first(".matchType").integer(),
        numbers and [listed.octets() for listed in numbers.all(".ISDN_AddressString")],
        lengths and [length.integer() for length in lengths.all(".DestinationNumberLengthList_item")],
    )


def entry_of(node):
    basics, causes, call_type = (node.first(ending) for ending in (
        ".basicServiceCriteria", "_CauseValueCriteria", ".callTypeCriteria"))
    return updates.Entry(
        node.first("TriggerDetectionPoint").integer(),
        number_of(node.first(".destinationNumberCriteria_element")),
        basics and [(int(code.show), code.octets()) for code in basics.all(".Ext_BasicServiceCode")],
        call_type and call_type.integer(),
        causes and [cause.octets()[0] for cause in causes.all(".CauseValue")],
    )


def list_of(name, node):
    read, ending = (entry_of, "Criteria_element") if name.endswith("c") else (row_of, "TDPData_element")
    return [read(item) for item in node.all(ending)]


def insert_of(invoke, imsi):
    lists, capabilities = {}, {}
    information = invoke.first(".vlrCamelSubscriptionInfo_element")
    for name, ending, inner in (
        ("o", ".o_CSI_element", ".o_BcsmCamelTDPDataList"),
        ("oc", ".o_BcsmCamelTDP_CriteriaList", None),
        ("t", ".vt_CSI_element", ".t_BcsmCamelTDPDataList"),
        ("tc", ".t_BCSM_CAMEL_TDP_CriteriaList", None),
    ):
        node = information and information.first(ending)
        if node:
            lists[name] = list_of(name, node.first(inner) if inner else node)
            if capability := node.first(".camelCapabilityHandling"):
                capabilities[name] = capability.integer()
    return updates.Insert(imsi, lists, capabilities=capabilities)


def delete_of(invoke, imsi):
    bits = invoke.first(".specificCSI_Withdraw")
    shown = {node.name.rpartition("Withdraw.")[2]: node.show for node in bits.inner} if bits else {}
    text = updates.bits_of(what for what in updates.BITS if shown.get(f"{what}.csi") == "1")
    return updates.Delete(imsi, bool(invoke.first(".camelSubscriptionInfoWithdraw_element")), text)


def update_of(line, invoke):
    shown = invoke.named("gsm_map.ms.imsi", "gsm_map.imsi")
    imsi = tbcd_digits(shown.octets()) if shown else line.imsi
    if line.operation == "cancelLocation":
        return updates.Cancel(imsi)
    return (insert_of if line.operation == "insertSubscriberData" else delete_of)(invoke, imsi)


def marks_of(packet):
    """The names of the marks of errors, and of those that a message names only in words."""
    marks = set()
    for node in packet.everywhere():
        if node.name in ("_ws.malformed", "_ws.unreassembled"):
            marks.add(node.name.removeprefix("_ws."))
        if node.name == "_ws.expert" and node.inner and "not_implemented" not in node.inner[0].name:
            marks.add(node.inner[0].name.removeprefix("ber.error."))
    return frozenset(marks)


def reading_of(line, packet):
    """What tshark reads of a line. A field that it leaves out makes the record a text of its own."""
    invoke = packet.named("gsm_old.invoke_element")
    if not invoke:
        return Reading("nothing", marks_of(packet))
    try:
        update = update_of(line, invoke)
        return Reading(updates.text_of(update), marks_of(packet), update)
    except (AttributeError, IndexError, ValueError):
        return Reading("no record", marks_of(packet))


def read(lines):
    """What tshark reads of each line."""
    with tempfile.NamedTemporaryFile(suffix=".pcap") as file:
        file.write(packets.capture(packets.SCCP, [packet_of(*numbered) for numbered in enumerate(lines)]))
        file.flush()
        trees = [*trees_of(file.name, "gsm_map _ws.malformed _ws.unreassembled")]
    if len(trees) != len(lines):
        raise TsharkFailed(f"tshark shows {len(trees)} packets of {len(lines)}")
    return [reading_of(line, packet) for line, packet in zip(lines, trees)]
