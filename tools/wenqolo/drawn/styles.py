"""The styles in which an argument is written, all of which a decoder reads alike."""

from dataclasses import dataclass

from wenqolo.drawn.extensions import extended
from wenqolo.octets.ber import identifier_octets, length_octets

END_OF_CONTENTS = bytes(2)
INDEFINITE = b"\x80"

# Of the elements that may have it, so many have a longer length, an indefinite one, or fields of an extension.
OFTEN, SOMETIMES, RARELY = 0.8, 0.4, 0.1


@dataclass(frozen=True)
class Style:
    """How often an element has a longer length or an indefinite one, and a sequence has fields that are unknown, or
    its fields in another order."""

    longer: float = 0
    indefinite: float = 0
    extended: float = 0
    reordered: float = 0

    def length_octets(self, random, length):
        """The length, possibly in more octets than it needs, of which there are at most four."""
        if random.random() >= self.longer:
            return length_octets(length)
        return length_octets(length, random.randint((length.bit_length() + 7) // 8 or 1, 4))

    def octets(self, random, element):
        """The octets of the element in this style."""
        identifier = identifier_octets(element)
        if not element.is_constructed():
            return identifier + self.length_octets(random, len(element.content)) + element.content
        elements = element.content
        if element.type_name and random.random() < self.extended:
            elements = extended(random, element)
        if element.type_name and random.random() < self.reordered:
            elements = reordered(random, element.type_name, elements)
        content = b"".join(self.octets(random, inner) for inner in elements)
        if random.random() < self.indefinite:
            return identifier + INDEFINITE + content + END_OF_CONTENTS
        return identifier + self.length_octets(random, len(content)) + content


def reordered(random, type_name, elements):
    """The elements in another order, in which those that are known by their place keep it."""
    first = 1 if type_name in ("csi", "cancel") else 0
    rest = elements[first:]
    random.shuffle(rest)
    return elements[:first] + rest


STYLES = {
    "minimal": Style(),
    "lengths": Style(longer=OFTEN),
    "indefinite": Style(indefinite=OFTEN),
    "extensions": Style(extended=OFTEN),
    "mixed": Style(SOMETIMES, SOMETIMES, SOMETIMES, RARELY),
}
