"""Elements of BER (X.690): a tree of them, and the octets of its identifiers and integers."""

from dataclasses import dataclass

UNIVERSAL, APPLICATION, CONTEXT, PRIVATE = range(4)
CONSTRUCTED = 0x20

INTEGER, OCTET_STRING, OBJECT_IDENTIFIER, ENUMERATED, SEQUENCE = 2, 4, 6, 10, 16


@dataclass
class Element:
    """An element whose content is octets if it is primitive, and a list of elements if it is constructed. If its type
    may be extended, it has the type's name."""

    tag_class: int
    number: int
    content: bytes | list
    type_name: str = ""

    def is_constructed(self):
        return isinstance(self.content, list)


def universal(number, content, type_name=""):
    return Element(UNIVERSAL, number, content, type_name)


def context(number, content, type_name=""):
    return Element(CONTEXT, number, content, type_name)


def integer_octets(value):
    """The fewest octets that hold the value in two's complement."""
    return value.to_bytes((value if value >= 0 else ~value).bit_length() // 8 + 1, "big", signed=True)


def identifier_octets(element):
    first = element.tag_class << 6 | (CONSTRUCTED if element.is_constructed() else 0)
    if element.number < 31:
        return bytes([first | element.number])
    groups = [element.number & 127]
    number = element.number >> 7
    while number:
        groups.append(128 | number & 127)
        number >>= 7
    return bytes([first | 31, *reversed(groups)])


def length_octets(length, count=None):
    """The length in the short form if it fits and no count is given, else in the long form with so many octets."""
    if count is None and length < 128:
        return bytes([length])
    count = count or (length.bit_length() + 7) // 8
    return bytes([128 | count]) + length.to_bytes(count, "big")


def minimal(element):
    """The octets of an element with the shortest lengths."""
    content = b"".join(map(minimal, element.content)) if element.is_constructed() else element.content
    return identifier_octets(element) + length_octets(len(content)) + content
