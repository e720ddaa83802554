"""The model of a decoder of MAP arguments: what its rules make of a line, as a record of a script or a fault.

The rules are those of "MAP arguments" in `docs/RULES.md`, written down apart from any code of the crates."""

from wenqolo import updates
from wenqolo.octets.ber import CONTEXT, UNIVERSAL
from wenqolo.octets.encoding import ENTRY_TAGS
from wenqolo.octets.reading import (DATA_MISSING, LENGTH, MISSING, NO_IMSI, OTHER_IMSI, TAG, TWICE, UNEXPECTED_DATA,
                                    Fault, Reader)

PRIMITIVE, CONSTRUCTED = False, True
INTEGER, OCTET_STRING, ENUMERATED, SEQUENCE = ((UNIVERSAL, number) for number in (2, 4, 10, 16))

MAX_ITEMS, MAX_SERVICES, MAX_CAUSES, MAX_NUMBERS, MAX_LENGTHS, MAX_LENGTH = 10, 5, 5, 10, 3, 15
MAX_KEY, MAX_NUMBER = 2**31 - 1, 2**32 - 1


def context(number):
    return CONTEXT, number


def refusal(found, name):
    """The rule that refuses a list, or None."""
    counting = [item.point for item in found if item.point in updates.points_of(name)]
    if len(found) > MAX_ITEMS:
        return "long-list"
    return "point-twice" if len(counting) > len(set(counting)) else None


class Fields:
    """The fields of a sequence, which are known by their tags. Those that nobody asks for are skipped."""

    def __init__(self, decoder, parent):
        self.decoder, self.parent, self.found = decoder, parent, decoder.inner(parent)

    def field(self, tag, form):
        """The field with this tag, or None."""
        tagged = [field for field in self.found if field.tag == tag]
        for again in tagged[1:]:
            self.decoder.refuse(True, again, "field-twice", TWICE)
        for field in tagged[:1]:
            self.decoder.expect(field, tag, form)
        return next(iter(tagged), None)

    def optional(self, tag, form, read):
        field = self.field(tag, form)
        return None if field is None else read(field)

    def mandatory(self, tag, form, read):
        field = self.field(tag, form)
        self.decoder.refuse(field is None, self.parent, "missing-field", MISSING)
        return read(field)


class Decoder(Reader):
    """Reads the argument of a line. By the rules that it tolerates it refuses nothing."""

    refusal = staticmethod(refusal)

    def __init__(self, line, tolerated=()):
        super().__init__(line.octets)
        self.line, self.tolerated = line, tolerated

    def refuse(self, is_wrong, field, rule, number=UNEXPECTED_DATA):
        if is_wrong and rule not in self.tolerated:
            raise Fault(number, field.start, rule)

    def expect(self, field, tag, form):
        self.refuse(field.tag != tag, field, "other-tag", TAG)
        self.refuse(field.constructed != form, field, "other-form", TAG)

    def first(self, parent):
        found = self.inner(parent)
        self.refuse(not found, parent, "missing-field", MISSING)
        return found[0]

    def items(self, parent):
        """The elements of a list that has at least one."""
        found = self.inner(parent)
        self.refuse(not found, parent, "empty-list", DATA_MISSING)
        return found

    def tagged_items(self, parent, tag, read):
        """What is read of each element of a list of primitive elements with this tag."""
        values = []
        for item in self.items(parent):
            self.expect(item, tag, PRIMITIVE)
            values.append(read(item))
        return values

    def signed(self, field):
        content = self.content(field)
        self.refuse(not content, field, "empty-integer", LENGTH)
        return int.from_bytes(content, "big", signed=True)

    def natural(self, field):
        value = self.signed(field)
        self.refuse(value < 0, field, "range-of-value")
        return min(value, MAX_NUMBER)

    def choice(self, field):
        """A value of two."""
        value = self.natural(field)
        self.refuse(value > 1, field, "range-of-value")
        return value

    def address(self, field):
        content = self.content(field)
        self.refuse(not 1 <= len(content) <= 9, field, "octets-of-address")
        return content

    def cause(self, field):
        content = self.content(field)
        self.refuse(len(content) != 1, field, "octets-of-cause", LENGTH)
        return content[0]

    def imsi(self, field):
        content = self.content(field)
        self.refuse(not 3 <= len(content) <= 8, field, "octets-of-imsi")
        nibbles = [nibble for octet in content for nibble in (octet & 15, octet >> 4)]
        if nibbles[-1] == 15:
            nibbles.pop()
        self.refuse(max(nibbles) > 9 or len(nibbles) > 15, field, "digits-of-imsi")
        return "".join(map(str, nibbles))

    def agreed(self, field):
        """The IMSI of the argument and of the dialogue, which agree if both are there."""
        given = self.line.imsi
        if field is None:
            if not given:
                raise Fault(NO_IMSI, 0, "no-imsi")
            return given
        shown = self.imsi(field)
        self.refuse(given and shown != given, field, "other-imsi", OTHER_IMSI)
        return shown

    # The items of lists

    def row(self, parent):
        self.expect(parent, SEQUENCE, CONSTRUCTED)
        fields = Fields(self, parent)
        made = updates.Row(
            fields.mandatory(ENUMERATED, PRIMITIVE, self.signed),
            fields.mandatory(INTEGER, PRIMITIVE, self.natural),
            fields.mandatory(context(0), PRIMITIVE, self.address),
            fields.mandatory(context(1), PRIMITIVE, self.natural),
        )
        self.refuse(made.key > MAX_KEY, parent, "great-service-key")
        return made

    def addresses(self, parent):
        return self.tagged_items(parent, OCTET_STRING, self.address)

    def number_lengths(self, parent):
        return self.tagged_items(parent, INTEGER, self.natural)

    def causes(self, parent):
        return self.tagged_items(parent, OCTET_STRING, self.cause)

    def number(self, parent):
        fields = Fields(self, parent)
        match_type = fields.mandatory(context(0), PRIMITIVE, self.choice)
        numbers = fields.optional(context(1), CONSTRUCTED, self.addresses)
        lengths = fields.optional(context(2), CONSTRUCTED, self.number_lengths)
        self.refuse(numbers is lengths is None, parent, "no-number", DATA_MISSING)
        is_long = len(numbers or ()) > MAX_NUMBERS or len(lengths or ()) > MAX_LENGTHS
        self.refuse(is_long, parent, "long-list")
        self.refuse(not all(1 <= length <= MAX_LENGTH for length in lengths or ()), parent, "range-of-length")
        return updates.NumberCriterion(match_type, numbers, lengths)

    def service(self, field):
        is_one = field.tag in (context(2), context(3)) and not field.constructed
        self.refuse(not is_one, field, "other-service", TAG)
        content = self.content(field)
        self.refuse(not 1 <= len(content) <= 5, field, "octets-of-service", LENGTH)
        return field.tag[1], content

    def services(self, parent):
        return [self.service(item) for item in self.items(parent)]

    def entry(self, parent, name):
        self.expect(parent, SEQUENCE, CONSTRUCTED)
        fields = Fields(self, parent)
        found = [fields.mandatory(ENUMERATED, PRIMITIVE, self.signed)]
        # What an entry has behind its detection point, in its order.
        criteria = ((self.number, CONSTRUCTED), (self.services, CONSTRUCTED), (self.choice, PRIMITIVE),
                    (self.causes, CONSTRUCTED))
        for (read, form), tag in zip(criteria, ENTRY_TAGS[name]):
            found.append(None if tag is None else fields.optional(context(tag), form, read))
        made = updates.Entry(*found)
        is_long = len(made.basics or ()) > MAX_SERVICES or len(made.causes or ()) > MAX_CAUSES
        self.refuse(is_long, parent, "long-list")
        self.refuse(made.point == updates.points_of(name)[0] and made.causes, parent, "cause-at-first-point")
        return made

    # The lists, and the arguments

    def received(self, parent, read, name):
        """A list of rows or entries, of which no two have one detection point that counts."""
        found = [read(item) for item in self.items(parent)]
        rule = self.refusal(found, name)
        self.refuse(rule, parent, rule)
        return found

    def csi(self, parent, name):
        """The rows, and the camelCapabilityHandling or None."""
        listed = self.first(parent)
        self.expect(listed, SEQUENCE, CONSTRUCTED)
        found = self.received(listed, self.row, name)
        return found, Fields(self, parent).optional(context(0), PRIMITIVE, self.natural)

    def entries(self, parent, name):
        return self.received(parent, lambda item: self.entry(item, name), name), None

    def information(self, parent):
        """The lists of vlrCamelSubscriptionInfo by their names, and the camelCapabilityHandlings that are there."""
        fields, lists, capabilities = Fields(self, parent), {}, {}
        for name, tag, read in ("o", 0, self.csi), ("oc", 4, self.entries), ("t", 7, self.csi), ("tc", 8, self.entries):
            if field := fields.field(context(tag), CONSTRUCTED):
                lists[name], capability = read(field, name)
                if capability is not None:
                    capabilities[name] = capability
        return lists, capabilities

    def insert(self, whole):
        self.expect(whole, SEQUENCE, CONSTRUCTED)
        fields = Fields(self, whole)
        identity = fields.field(context(0), PRIMITIVE)
        subscriber = self.agreed(identity)
        lists, capabilities = fields.optional(context(13), CONSTRUCTED, self.information) or ({}, {})
        return updates.Insert(subscriber, lists, identity is not None, capabilities)

    def null(self, field):
        self.refuse(self.content(field), field, "content-of-null", LENGTH)
        return True

    def bits(self, field):
        """The bits of a string, as a text of 0 and 1."""
        content = self.content(field)
        is_none = not content or content[0] > 7 or len(content) == 1 and content[0]
        self.refuse(is_none, field, "octets-of-bits", LENGTH)
        text = "".join(f"{octet:08b}" for octet in content[1:])
        return text[: len(text) - content[0]]

    def delete(self, whole):
        self.expect(whole, SEQUENCE, CONSTRUCTED)
        fields = Fields(self, whole)
        subscriber = fields.mandatory(context(0), PRIMITIVE, self.agreed)
        everything = fields.optional(context(9), PRIMITIVE, self.null)
        named = fields.optional(context(15), PRIMITIVE, self.bits)
        return updates.Delete(subscriber, bool(everything), named)

    def cancel(self, whole):
        identity = whole
        if whole.tag == context(3):
            self.expect(whole, context(3), CONSTRUCTED)
            identity = self.first(whole)
        if identity.tag == SEQUENCE:
            self.expect(identity, SEQUENCE, CONSTRUCTED)
            identity = self.first(identity)
        self.expect(identity, OCTET_STRING, PRIMITIVE)
        return updates.Cancel(self.agreed(identity))

    def update(self):
        """The update of the line, or a fault that is raised."""
        found = self.series(0, len(self.octets))
        if not found:
            raise Fault(MISSING, 0, "no-argument")
        if len(found) > 1:
            raise Fault(LENGTH, found[1].start, "second-argument")
        read = {"insertSubscriberData": self.insert, "deleteSubscriberData": self.delete}
        return read.get(self.line.operation, self.cancel)(found[0])


def answer(line):
    """What the rules make of a line, and the rule that refuses it, or nothing."""
    try:
        return updates.text_of(Decoder(line).update()), None
    except Fault as fault:
        return str(fault), fault.rule


def joined_answer(lines):
    """What the rules make of two inserts of one dialogue."""
    whole = updates.joined(*(Decoder(line).update() for line in lines))
    is_refused = any(refusal(found, name) for name, found in whole.lists.items())
    return f"fault {UNEXPECTED_DATA}" if is_refused else updates.text_of(whole)
