"""Elements of BER read strictly: series of them, their ends, and the faults of their form."""

from typing import NamedTuple

MALFORMED, MISSING, TWICE, TAG, LENGTH, NO_IMSI, OTHER_IMSI = range(401, 408)
DATA_MISSING, UNEXPECTED_DATA = 35, 36


class Fault(Exception):
    """The number of a fault, the place of an octet in the argument, and the rule that is broken there."""

    def __init__(self, number, place, rule):
        super().__init__(number, place, rule)
        self.number, self.place, self.rule = number, place, rule

    def __str__(self):
        return f"fault {self.number} {self.place}"


class Found(NamedTuple):
    """An element: its tag, whether it is constructed, where it starts, and where its content starts and ends, and the
    next element starts."""

    tag: tuple
    constructed: bool
    start: int
    content: int
    end: int
    after: int


class Reader:
    """Reads the elements of some octets. So many indefinite lengths may be in one another."""

    most_depth = 16

    def __init__(self, octets):
        self.octets = octets

    def content(self, found):
        return self.octets[found.content : found.end]

    def identifier(self, at, end):
        """The tag of the identifier at this place, its form, and where it ends."""
        octets, start, first = self.octets, at, self.octets[at]
        at += 1
        number = first & 31
        if number == 31:
            number, more = 0, True
            if at < end and octets[at] == 128:
                raise Fault(MALFORMED, start, "padded-tag")
            while more:
                if at >= end:
                    raise Fault(MALFORMED, start, "cut-tag")
                number = number << 7 | octets[at] & 127
                more = octets[at] & 128
                at += 1
            if number < 31:
                raise Fault(MALFORMED, start, "long-form-of-tag")
        return (first >> 6, number), bool(first & 32), at

    def length(self, at, end):
        """The length at this place, or None if it is indefinite, and where it ends."""
        if at >= end:
            raise Fault(MALFORMED, at, "no-length")
        first = self.octets[at]
        if first <= 128:
            return None if first == 128 else first, at + 1
        after = at + 1 + first - 128
        if first - 128 > 4:
            raise Fault(MALFORMED, at, "long-length")
        if after > end:
            raise Fault(MALFORMED, at, "cut-length")
        return int.from_bytes(self.octets[at + 1 : after], "big"), after

    def element(self, at, end, depth=0):
        """The element at this place. Indefinite lengths around it are so many."""
        if at >= end:
            raise Fault(MALFORMED, at, "no-end-of-contents")
        if self.octets[at] == 0:
            raise Fault(MALFORMED, at, "tag-of-end-of-contents")
        tag, constructed, content = self.identifier(at, end)
        size, content = self.length(content, end)
        if size is not None:
            if content + size > end:
                raise Fault(MALFORMED, content, "cut-content")
            return Found(tag, constructed, at, content, content + size, content + size)
        if not constructed:
            raise Fault(MALFORMED, content, "primitive-of-indefinite-length")
        if depth == self.most_depth:
            raise Fault(MALFORMED, content, "deep-nesting")
        inner = content
        while self.octets[inner : inner + 2] != b"\0\0" or inner + 2 > end:
            inner = self.element(inner, end, depth + 1).after
        return Found(tag, constructed, at, content, inner, inner + 2)

    def series(self, start, end):
        """The elements that follow one another from a place up to an end."""
        found = []
        while start < end:
            found.append(self.element(start, end))
            start = found[-1].after
        return found

    def inner(self, found):
        """The elements in an element."""
        return self.series(found.content, found.end)
