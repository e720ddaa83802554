"""The TCAP messages in a capture, and the packets that can't be read."""

import re
from itertools import islice, takewhile
from typing import NamedTuple

from wenqolo.captures.pdml import TsharkFailed, trees_of
from wenqolo.octets.components import components_of
from wenqolo.octets.contents import opened_by

PROTOCOLS = "mtp3 m3ua sua sccp tcap gsm_map"
# What names an end of a dialogue: its global title, its point code, or if it shows neither its address of IP.
TITLES = {"calling": ("sccp.calling.digits", "sua.source.global_title_digits"),
          "called": ("sccp.called.digits", "sua.destination.global_title_digits")}
CODES = {"calling": ("sccp.calling.pc", "sua.source.point_code", "mtp3.opc"),
         "called": ("sccp.called.pc", "sua.destination.point_code", "mtp3.dpc")}
HOSTS = {"calling": re.compile("Src: ([^,]*)"), "called": re.compile("Dst: ([^,]*)")}
TITLE = "title"
SUBSYSTEMS, SGSN = ("sccp.calling.ssn", "sccp.called.ssn", "sua.source.ssn", "sua.destination.ssn"), "149"
ORIGIN, DESTINATION, COMPONENTS = "tcap.otid", "tcap.dtid", "tcap.components"
INFORMATION, ERROR, CODE = "tcap.user_information", "gsm_old.errorCode", "gsm_old.localValue"
UNIDIRECTIONAL = "unidirectional"
KINDS = {f"tcap.{kind}_element": kind for kind in ("begin", "continue", "end", "abort", UNIDIRECTIONAL)}
# All fields that are read, and those that tshark has to show for others in them.
FIELDS = {"num", "len", "caplen", "timestamp", ORIGIN, DESTINATION, COMPONENTS, INFORMATION, ERROR, CODE, *KINDS,
          *SUBSYSTEMS, *(name for names in (TITLES, CODES) for side in names.values() for name in side),
          "tcap.dialogueRequest_element", "gsm_map.old.Component", "gsm_old.returnError_element"}

# The packets that are looked at. Of others than those of signalling it is not said that they can't be read. One that is
# cut right behind a carrier doesn't show yet what it is, and may be one of signalling.
PACKETS = "tcap or frame.cap_len < frame.len or _ws.short or _ws.malformed"
SIGNALLING = {"m2pa", "m2ua", "m3ua", "mtp2", "mtp3", "sua", "sccp", "tcap"}
CARRIERS = {"frame", "raw", "eth", "vlan", "sll", "ip", "ipv6", "sctp"}
CUT, MALFORMED = "_ws.short", "_ws.malformed"


class Message(NamedTuple):
    """A TCAP message: when it comes, its kind, the names of both ends, the transaction ids, empty if there is none, its
    components, the names of the errors in it by their codes, and the IMSI by which it opens a dialogue, or nothing."""

    frame: int
    time: float
    kind: str
    calling: tuple
    called: tuple
    origin: str
    destination: str
    components: tuple
    errors: dict
    imsi: str


class Unread(NamedTuple):
    """A packet that can't be read, or the rest of the capture, and why."""

    frame: int
    what: str
    why: str


def shown(tree, names):
    """What the first field of one of these names shows, or nothing."""
    node = tree.named(*names) if tree else None
    return node.show if node else ""


def names_of(protocols, side):
    """The names of an end, each with its kind, the surest one first."""
    address = protocols.get("sccp") or protocols.get("sua")
    routing = protocols.get("m3ua") or protocols.get("mtp3")
    title, code = shown(address, TITLES[side]), shown(address, CODES[side]) or shown(routing, CODES[side])
    names = tuple((kind, text) for kind, text in ((TITLE, title), ("code", code)) if text)
    host = protocols.get("ip") or protocols.get("ipv6")
    return names or (("host", HOSTS[side].findall(host.said)[0] if host else ""),)


def errors_of(tree):
    """The names that tshark has for the errors in a tree of MAP, by their codes."""
    errors = [node.named(CODE) for node in tree.everywhere() if node.name == ERROR]
    names = {int(error.show): error.said.removeprefix("localValue: ").partition(" ")[0] for error in errors if error}
    return {code: name for code, name in names.items() if name != "Unknown"}


def octets_of(tree, name):
    node = tree.named(name)
    return node.octets() if node else b""


def message_of(frame, time, protocols, maps):
    """The message of a tree of TCAP, and whether all of it is read. Its components are those of MAP if tshark shows
    trees of MAP behind it."""
    tcap = protocols["tcap"]
    kind = next((KINDS[node.name] for node in tcap.inner if node.name in KINDS), "")
    components, is_whole = components_of(octets_of(tcap, COMPONENTS))
    errors = {code: name for tree in maps for code, name in errors_of(tree).items()}
    message = Message(frame, time, kind, names_of(protocols, "calling"), names_of(protocols, "called"),
                      octets_of(tcap, ORIGIN).hex(), octets_of(tcap, DESTINATION).hex(),
                      tuple(components) if maps else (), errors, opened_by(octets_of(tcap, INFORMATION)))
    return message, is_whole and kind != "" and bool(message.destination or kind in ("begin", UNIDIRECTIONAL))


def faults_of(packet, is_whole):
    """Why a packet can't be read. tshark may also mark the argument of an operation, which the decoder judges."""
    names = [tree.name for tree in packet.inner]
    length, kept = (packet.named(name).show for name in ("len", "caplen"))
    for before, name in zip(names, names[1:]):
        if name == CUT and (before in CARRIERS or SIGNALLING.intersection(names)):
            yield f"only {kept} of its {length} octets are in the capture"
        elif name == MALFORMED and SIGNALLING.intersection(names) and not (before == "gsm_map" and is_whole):
            yield "it is malformed"
    if not is_whole:
        yield "its TCAP message is malformed"


def readings_of(packet):
    """The TCAP messages of a packet, which may have several, and why it can't be read if that is so. Those to and from
    an SGSN are left out."""
    frame, time = int(packet.named("num").show), float(packet.named("timestamp").value)
    protocols, is_all_whole = {}, True
    for at, tree in enumerate(packet.inner):
        protocols[tree.name] = tree
        if tree.name == "tcap":
            behind = takewhile(lambda other: other.name != "tcap", packet.inner[at + 1 :])
            message, is_whole = message_of(frame, time, protocols, [tree for tree in behind if tree.name == "gsm_map"])
            is_all_whole = is_all_whole and is_whole
            address = protocols.get("sccp") or protocols.get("sua")
            subsystems = [node.show for node in address.everywhere() if node.name in SUBSYSTEMS] if address else []
            if (message.origin or message.destination) and SGSN not in subsystems:
                yield message
    for why in islice(faults_of(packet, is_all_whole), 1):
        yield Unread(frame, "the packet can't be read", why)


def readings_in(capture):
    """The TCAP messages of a capture, in its order, and what can't be read: packets, or the rest if some came."""
    frame = 0
    try:
        for packet in trees_of(capture, PROTOCOLS, FIELDS, PACKETS):
            frame = int(packet.named("num").show)
            yield from readings_of(packet)
    except TsharkFailed as fault:
        if not frame:
            raise
        yield Unread(frame, "what follows can't be read", str(fault))
