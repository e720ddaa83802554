"""Fields that a decoder of CAMEL data skips: others of the types of TS 29.002, extension containers, and fields that no
version of a type has."""

from wenqolo.octets.ber import (APPLICATION, CONTEXT, ENUMERATED, OBJECT_IDENTIFIER, OCTET_STRING, PRIVATE, SEQUENCE,
                                UNIVERSAL, Element, context, universal)

MSISDN = bytes.fromhex("9194711032")
EXTENSION_IDENTIFIER = bytes.fromhex("2a030405")
STRANGE_NUMBERS = (57, 63, 100, 127, 128, 200, 16383, 16384, 2**21, 2**31)
GREAT_NUMBER = 2**40
MAX_EXTRAS = 3


def container(make, number):
    """An extension container with this tag, which holds a private extension or an empty field."""

    def made(random):
        private = universal(SEQUENCE, [universal(OBJECT_IDENTIFIER, EXTENSION_IDENTIFIER),
                                       universal(OCTET_STRING, random.randbytes(random.randint(0, 4)))])
        return make(number, random.choice(([context(0, [private])], [context(1, [])], [])))

    return made


def fixed(make, number, content):
    return lambda random: make(number, content)


# The fields of each type in the order of its definition: a tag, and what makes such a field to be skipped, or None if
# the field is one that a decoder looks at.
FIELDS = {
    "insert": {
        (CONTEXT, 0): None,
        (CONTEXT, 1): fixed(context, 1, MSISDN),
        (CONTEXT, 2): fixed(context, 2, b"\x0a"),
        (CONTEXT, 3): fixed(context, 3, b"\x00"),
        (CONTEXT, 4): fixed(context, 4, [universal(OCTET_STRING, b"\x10"), universal(OCTET_STRING, b"\x18")]),
        (CONTEXT, 6): fixed(context, 6, [universal(OCTET_STRING, b"\x11")]),
        (CONTEXT, 9): fixed(context, 9, b""),
        (CONTEXT, 13): None,
        (CONTEXT, 14): container(context, 14),
        (CONTEXT, 22): fixed(context, 22, b"\x07"),
    },
    "information": {
        (CONTEXT, 0): None,
        (CONTEXT, 1): container(context, 1),
        (CONTEXT, 4): None,
        (CONTEXT, 3): fixed(context, 3, b""),
        (CONTEXT, 7): None,
        (CONTEXT, 8): None,
    },
    "csi": {
        (CONTEXT, 0): None,
        (CONTEXT, 1): fixed(context, 1, b""),
        (CONTEXT, 2): fixed(context, 2, b""),
    },
    "row": {(UNIVERSAL, ENUMERATED): None, (UNIVERSAL, 2): None, (CONTEXT, 0): None, (CONTEXT, 1): None,
            (CONTEXT, 2): container(context, 2)},
    "o-entry": {(UNIVERSAL, ENUMERATED): None, (CONTEXT, 0): None, (CONTEXT, 1): None, (CONTEXT, 2): None,
                (CONTEXT, 3): None, (CONTEXT, 4): container(context, 4)},
    "t-entry": {(UNIVERSAL, ENUMERATED): None, (CONTEXT, 0): None, (CONTEXT, 1): None},
    "number": {(CONTEXT, 0): None, (CONTEXT, 1): None, (CONTEXT, 2): None},
    "delete": {
        (CONTEXT, 0): None,
        (CONTEXT, 1): fixed(context, 1, [context(3, b"\x11")]),
        (CONTEXT, 2): fixed(context, 2, [universal(OCTET_STRING, b"\x21")]),
        (CONTEXT, 4): fixed(context, 4, b""),
        (CONTEXT, 7): fixed(context, 7, b""),
        (CONTEXT, 8): fixed(context, 8, b""),
        (CONTEXT, 9): None,
        (CONTEXT, 6): container(context, 6),
        (CONTEXT, 15): None,
    },
    "cancel": {(UNIVERSAL, OCTET_STRING): None, (UNIVERSAL, ENUMERATED): fixed(universal, ENUMERATED, b"\x01")},
}

# In a CSI and in CancelLocation a container has the tag of a sequence, and comes after what is known by its place.
UNTAGGED_CONTAINER = container(universal, SEQUENCE)


def strange(random, depth=0):
    """A field that no version of a type has, with elements in it if it is constructed."""
    tag_class = random.choice((CONTEXT, CONTEXT, APPLICATION, PRIVATE))
    number = random.choice(STRANGE_NUMBERS + (() if tag_class == CONTEXT else (0, 4, 16, 30, 31)))
    if random.random() < 0.01:
        number = GREAT_NUMBER
    if depth < 3 and random.random() < 0.4:
        content = [strange(random, depth + 1) for _ in range(random.randint(0, 2))]
    else:
        content = random.randbytes(random.choice((0, 1, 2, 5, 130)))
    return Element(tag_class, number, content)


def extended(random, element):
    """The elements of the element with others that are skipped, in the order of its type's definition."""
    fields = FIELDS[element.type_name]
    first = 1 if element.type_name in ("csi", "cancel") else 0
    places = {tag: place for place, tag in enumerate(fields)}
    makers = [make for make in fields.values() if make]
    chosen = random.sample(makers, min(len(makers), random.randint(0, MAX_EXTRAS)))
    if first and random.random() < 0.5:
        chosen.append(UNTAGGED_CONTAINER)
        places[UNIVERSAL, SEQUENCE] = -1 if element.type_name == "csi" else len(places)
    known = element.content[first:] + [make(random) for make in chosen]
    known.sort(key=lambda inner: places[inner.tag_class, inner.number])
    count = random.choice((0, 1, 1, 2)) if known != element.content[first:] else 1
    return element.content[:first] + known + [strange(random) for _ in range(count)]
