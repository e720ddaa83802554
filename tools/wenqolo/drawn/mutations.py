"""Edits of the octets of an argument. Those of fields find the elements by their lengths, and leave what has none."""

from wenqolo.octets.ber import CONSTRUCTED, ENUMERATED
from wenqolo.updates import O_POINTS, T_POINTS

MAX_EDITS = 3
TELLING_OCTETS = bytes.fromhex("000102030405060a0f101f20303f7f80818283848590a0a1a2a3a4a7a8adafb0bfff")
# Detection points and other numbers, at their limits and beyond.
TELLING_VALUES = [bytes.fromhex(text) for text in (
    "00", "01", "02", "03", "04", "0c", "0d", "0e", "0f", "10", "ff", "ff01", "0100", "0102", "010c", "7fffffff",
    "0080000000", "00ffffffff", "0100000002", "ff0000000c")]


def elements_of(octets, start, end, found, depth=0):
    """Gathers start, content and end of the elements of definite length with short identifiers, inner ones too."""
    at = start
    while at + 2 <= end:
        content, length = at + 2, octets[at + 1]
        if length == 128 and octets[at] & 32:
            elements_of(octets, content, end, found, depth + 1)
            return
        if length > 128:
            content += length & 127
            length = int.from_bytes(octets[at + 2 : content], "big")
        if octets[at] & 31 == 31 or content + length > end or depth > 12:
            return
        found.append((at, content, content + length))
        if octets[at] & 32:
            elements_of(octets, content, content + length, found, depth + 1)
        at = content + length


def fields_of(octets):
    found = []
    elements_of(octets, 0, len(octets), found)
    return found


def flip_bit(random, octets):
    at = random.randrange(len(octets))
    return octets[:at] + bytes([octets[at] ^ 1 << random.randrange(8)]) + octets[at + 1 :]


def cut(random, octets):
    return octets[: random.randrange(len(octets))]


def insert_octets(random, octets):
    at = random.randint(0, len(octets))
    return octets[:at] + bytes(random.choices(TELLING_OCTETS, k=random.randint(1, 3))) + octets[at:]


def remove_octets(random, octets):
    at = random.randrange(len(octets))
    return octets[:at] + octets[at + random.randint(1, 3) :]


def replace_octet(random, octets):
    at = random.randrange(len(octets))
    return octets[:at] + bytes([random.choice(TELLING_OCTETS)]) + octets[at + 1 :]


def lengthened(octets, start, end, more):
    """The octets with lengths that are right again after so many more octets in an inner element, as far as they have
    room for them."""
    changed = bytearray(octets)
    for at, content, stop in fields_of(octets):
        length = stop - content + more
        if at < start and end <= stop and content == at + 2 and 0 <= length < 128:
            changed[at + 1] = length
        elif at < start and end <= stop and content > at + 2 and 0 <= length < 256 ** (content - at - 2):
            changed[at + 2 : content] = length.to_bytes(content - at - 2, "big")
    return bytes(changed)


def edit_length(random, octets):
    fields = fields_of(octets)
    if not fields:
        return flip_bit(random, octets)
    at = random.choice(fields)[0] + 1
    length = random.choice(((octets[at] + 1) & 255, (octets[at] - 1) & 255, 0, 127, 128, 129, 132, 133, 255))
    return octets[:at] + bytes([length]) + octets[at + 1 :]


def replace_field(random, octets, make, identifiers=range(256)):
    """Puts in the place of an element, that begins with one of these identifiers, what is made of its octets, with the
    lengths around it."""
    fields = [field for field in fields_of(octets) if octets[field[0]] in identifiers]
    if not fields:
        return insert_octets(random, octets)
    # The whole argument is edited by the other edits often enough.
    start, content, end = random.choice([field for field in fields if field[0]] or fields)
    made = make(octets[start:content], octets[content:end])
    right = lengthened(octets, start, end, len(made) - (end - start))
    return right[:start] + made + right[end:]


def double_field(random, octets):
    """Has an element twice, of which one may be constructed and the other primitive."""
    bits = random.choice((0, 0, 0, CONSTRUCTED)), random.choice((0, 0, 0, CONSTRUCTED))
    return replace_field(random, octets, lambda head, content: b"".join(
        bytes([head[0] ^ bit]) + head[1:] + content for bit in bits))


def empty_field(random, octets):
    return replace_field(random, octets, lambda head, content: head[:1] + b"\0")


def drop_field(random, octets):
    return replace_field(random, octets, lambda head, content: b"")


def multiply_field(random, octets):
    return replace_field(random, octets, lambda head, content: (head + content) * random.choice((4, 6, 11)))


def edit_content(random, octets):
    made = random.randbytes(random.choice((0, 1, 1, 2, 5, 9, 10)))
    return replace_field(random, octets, lambda head, content: head[:1] + bytes([len(made)]) + made)


def edit_value(random, octets):
    made = random.choice(TELLING_VALUES)
    return replace_field(random, octets, lambda head, content: head[:1] + bytes([len(made)]) + made)


def edit_point(random, octets):
    """Changes a detection point, so that two items may have one, or the first one may have causes."""
    made = bytes([1, random.choice(O_POINTS + T_POINTS)])
    return replace_field(random, octets, lambda head, content: head[:1] + made, [ENUMERATED])


def change_tag(random, octets):
    first = bytes([random.choice(TELLING_OCTETS)])
    return replace_field(random, octets, lambda head, content: first + head[1:] + content)


def nest_field(random, octets):
    """Puts an element into so many of indefinite length, about as many as may be nested."""
    depth = random.randint(14, 18)
    return replace_field(random, octets, lambda head, content: b"\xaf\x80" * depth + head + content + bytes(2 * depth))


def swap_fields(random, octets):
    """Puts two elements that follow one another in the other's place."""
    fields = fields_of(octets)
    pairs = [(one, other) for one in fields for other in fields if one[2] == other[0]]
    if not pairs:
        return flip_bit(random, octets)
    (start, _, middle), (_, _, end) = random.choice(pairs)
    return octets[:start] + octets[middle:end] + octets[start:middle] + octets[end:]


# Edits that leave the lengths right come more often, since most of the others leave malformed BER.
EDITS = (flip_bit, cut, insert_octets, remove_octets, replace_octet, edit_length, nest_field, swap_fields)
EDITS += (double_field, empty_field, drop_field, multiply_field, change_tag, edit_point) * 2
EDITS += (edit_content, edit_value) * 4


def mutated(random, octets):
    """The octets with one edit, or a few."""
    for _ in range(random.choice((1, 1, 1, 2, MAX_EDITS))):
        if octets:
            octets = random.choice(EDITS)(random, octets)
    return octets
