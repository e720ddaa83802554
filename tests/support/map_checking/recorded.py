"""The recorded SCCP messages in the tests of libosmo-sccp: that the tools read of them what these tests say of the
global titles and the point codes, and the insertSubscriberData in one of them."""

import re
import tarfile
import tempfile

from wenqolo.captures.messages import FIELDS, PROTOCOLS, TITLE, names_of, readings_of
from wenqolo.captures.pdml import trees_of
from wenqolo.sent import packets

FILES = ("tests/sccp/sccp_test.c", "tests/xua/sccp_test_data.c", "tests/xua/xua_test.c")
ARRAY = re.compile(r"\buint8_t (\w+)\[\d*\] = \{([^}]*)\}")
TITLED = re.compile(r"\.input\s*=\s*(\w+),[^{}]*?\.dst_gti_data\s*=\s*(\w+),[^{}]*?\.src_gti_data\s*=\s*(\w+),")
ROUTED = re.compile(r"PANDSIZ\((\w+)\)[^;]*?SUA_IEI_DEST_ADDR, (\w+)\),\s*PARTARR\(SUA_IEI_SRC_ADDR, (\w+)\)")
# The tag of a point code in an address of SUA, and the one with an insertSubscriberData.
POINT_CODE, WITH_INSERT = bytes.fromhex("80020008"), "tcap_global_title"


def title_of(octets):
    """The digits of a global title, behind its translation type, its plan with its encoding scheme, and its nature."""
    digits = "".join(f"{octet & 15:x}{octet >> 4:x}" for octet in octets[3:])
    return ((TITLE, digits[:-1] if octets[1] & 15 == 1 else digits),)


def code_of(octets):
    """The point code in an address of SUA, or nothing."""
    _, tag, behind = octets.partition(POINT_CODE)
    return (("code", str(int.from_bytes(behind[:4], "big"))),) if tag else (("host", ""),)


def recorded(archive):
    """The messages by their names, each with its octets, and the names of the called and of the calling end."""
    with tarfile.open(archive) as members:
        found = [member for member in members if member.name.partition("/")[2] in FILES]
        texts = [members.extractfile(member).read().decode() for member in found]
    arrays = {name: bytes.fromhex("".join(re.findall("0x([0-9a-fA-F]{2})", listed)))
              for text in texts for name, listed in ARRAY.findall(text)}
    for form, read in (TITLED, title_of), (ROUTED, code_of):
        for name, called, calling in (named for text in texts for named in form.findall(text)):
            yield name, arrays[name], read(arrays[called]), read(arrays[calling])


def check_recorded(archive):
    """Returns how many messages there are."""
    messages = [*recorded(archive)]
    with tempfile.NamedTemporaryFile(suffix=".pcap") as file:
        file.write(packets.capture(packets.SCCP, [octets for _, octets, _, _ in messages]))
        file.flush()
        for (name, _, *wanted), packet in zip(messages, trees_of(file.name, PROTOCOLS, FIELDS), strict=True):
            protocols = {tree.name: tree for tree in packet.inner}
            assert [names_of(protocols, side) for side in ("called", "calling")] == wanted, f"the ends of {name}"
            if name == WITH_INSERT:
                operations = [invoke.operation for message in readings_of(packet) for invoke in message.components]
                assert operations == ["insertSubscriberData"]
    assert WITH_INSERT in [name for name, *_ in messages]
    return len(messages)
