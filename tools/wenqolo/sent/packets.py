"""Captures: files of packets, and the packets of M3UA (RFC 4666) and SUA (RFC 3868) over SCTP (RFC 9260) and IP."""

import struct

from wenqolo.octets.encoding import tbcd
from wenqolo.sent import transactions

RAW_IP, SCCP = 101, 142
SCTP, SCTP_M3UA, M3UA_PORT, SCTP_SUA, SUA_PORT = 132, 3, 2905, 4, 14001
SERVICE_SCCP, INTERNATIONAL = 3, 0


def capture(link, packets):
    """A capture in the format of pcap, with a packet each millisecond."""
    octets = struct.pack("<IHHiIII", 0xA1B2C3D4, 2, 4, 0, 0, 1 << 16, link)
    for number, packet in enumerate(packets):
        octets += struct.pack("<IIII", number // 1000, number % 1000 * 1000, len(packet), len(packet)) + packet
    return octets


def ones_sum(octets):
    total = sum(struct.unpack(f">{len(octets) // 2}H", octets))
    while total >> 16:
        total = (total & 0xFFFF) + (total >> 16)
    return ~total & 0xFFFF


def crc32c(octets):
    """The checksum of SCTP."""
    crc = 0xFFFFFFFF
    for octet in octets:
        crc ^= octet
        for _ in range(8):
            crc = crc >> 1 ^ (0x82F63B78 if crc & 1 else 0)
    return crc ^ 0xFFFFFFFF


def padded(octets):
    return octets + bytes(-len(octets) % 4)


def ip(source, destination, number, data):
    """A packet of IP version 4 from one address to another."""
    def header(checksum):
        return struct.pack(">BBHHHBBH4s4s", 0x45, 0, 20 + len(data), number, 0, 64, SCTP, checksum, source, destination)

    return header(ones_sum(header(0))) + data


def sctp(number, data, port=M3UA_PORT, protocol=SCTP_M3UA):
    """A packet of SCTP with one chunk, whose transmission number is the packet's."""
    chunk = struct.pack(">BBHIHHI", 0, 3, 16 + len(data), number, 0, number, protocol) + data
    head = struct.pack(">HHI", port, port, 1)
    checksum = crc32c(head + bytes(4) + padded(chunk))
    return head + struct.pack("<I", checksum) + padded(chunk)


def parameter(tag, content):
    """A parameter of M3UA and SUA."""
    return padded(struct.pack(">HH", tag, 4 + len(content)) + content)


def m3ua(origin, destination, data):
    """A DATA message of M3UA between two point codes."""
    label = struct.pack(">IIBBBB", origin, destination, SERVICE_SCCP, INTERNATIONAL, 0, 0)
    data = parameter(0x0210, label + data)
    return struct.pack(">BBBBI", 1, 0, 1, 1, 8 + len(data)) + data


def sua_address(subsystem, digits, code):
    """The address in SUA of an international number of E.164, or without digits of a point code."""
    named = parameter(0x8002, struct.pack(">I", code))
    if digits:
        named = parameter(0x8001, bytes([0, 0, 0, 4, len(digits), 0, 1, 4]) + tbcd(digits))
    routing = struct.pack(">HH", 1 if digits else 2, 5 if digits else 3)
    return routing + named + parameter(0x8003, bytes([0, 0, 0, subsystem]))


def sua(source, destination, data):
    """A connectionless data transfer (CLDT) of SUA."""
    content = ((0x0006, bytes(4)), (0x0115, bytes(4)), (0x0102, source), (0x0103, destination), (0x0116, bytes(4)),
               (0x010B, data))
    octets = b"".join(parameter(*tagged) for tagged in content)
    return struct.pack(">BBBBI", 1, 0, 7, 1, 8 + len(octets)) + octets


def over_m3ua(number, sender, receiver, octets):
    """A TCAP message from one node to another, over SCCP and M3UA."""
    called, calling = (transactions.address(node.subsystem, node.number) for node in (receiver, sender))
    carried = transactions.unitdata if len(octets) < 256 else transactions.long_unitdata
    return sctp(number, m3ua(sender.code, receiver.code, carried(called, calling, octets)))


def over_sua(number, sender, receiver, octets):
    """A TCAP message from one node to another, over SUA."""
    source, destination = (sua_address(node.subsystem, node.number, node.code) for node in (sender, receiver))
    return sctp(number, sua(source, destination, octets), SUA_PORT, SCTP_SUA)


def carried(number, sender, receiver, octets, over=over_m3ua):
    """The packet of IP with a TCAP message from one node to another."""
    return ip(sender.host, receiver.host, number, over(number, sender, receiver, octets))
