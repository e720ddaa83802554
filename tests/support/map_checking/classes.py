"""The classes of disagreement between the decoder and tshark, each explained by a rule or a trait of the argument."""

from support.map_checking.traits import traits_of

# What the marks begin with that tshark puts where one of these rules refuses an argument.
MARKED = {
    "field-twice": ("unknown_field", "sequence.field_wrong"),
    "missing-field": ("sequence.field_wrong",),
    "other-tag": ("expected", "unknown_field", "sequence.field_wrong"),
    "other-form": ("expected", "_ws.unreassembled", "_ws.malformed"),
    "other-service": ("_ws.unreassembled",),
    "second-argument": ("unknown_field", "expected", "sequence.field_wrong", "_ws.malformed"),
    "empty-integer": ("length",),
    "octets-of-service": ("length",),
    "octets-of-cause": ("length", "_ws.malformed"),
    "octets-of-bits": ("constr_bitstr.len", "illegal_padding"),
    "content-of-null": ("unknown_field", "_ws.malformed"),
    "octets-of-address": ("_ws.malformed",),
    "octets-of-imsi": ("e212.", "_ws.malformed"),
    "digits-of-imsi": ("e212.",),
}

# Rules of the decoder that tshark doesn't have, at least in some places: it puts no mark of theirs there.
UNMARKED = {
    "no-argument": "an operation without its argument",
    "second-argument": "octets behind the argument",
    "missing-field": "a field that must be there is not",
    "empty-list": "a list without items",
    "no-number": "a destination number criterion without numbers and lengths",
    "long-list": "more items than a list may have",
    "point-twice": "two items of one detection point",
    "cause-at-first-point": "causes at detection point 2 or 12",
    "range-of-value": "a number that is negative, or a type that none has",
    "range-of-length": "a length of a destination number that is 0 or over 15",
    "great-service-key": "a service key of more than 31 bits",
    "octets-of-address": "no octets of an address, or too many",
    "octets-of-imsi": "an IMSI of too few or too many octets",
    "digits-of-imsi": "an IMSI of other digits than 0 to 9, or of too many",
    "no-imsi": "no IMSI in argument and dialogue",
    "other-imsi": "another IMSI than that of the dialogue",
    "other-tag": "an element that its place can't have",
    "other-form": "a primitive element that must be constructed, or the other way round",
    "other-service": "a basic service code that is neither",
    "octets-of-cause": "a cause of no octet, or of several",
    "octets-of-bits": "a bit string without octets, or with more unused bits than it has",
}

# Malformed BER. Where tshark looks into it, and doesn't read it in a way of its own, it puts some mark. Of an argument
# whose own identifier or length is malformed it shows no field, and puts no mark.
MALFORMED = {
    "tag-of-end-of-contents": "the tag 0 where no indefinite length ends",
    "primitive-of-indefinite-length": "a primitive element of indefinite length",
    "no-end-of-contents": "an indefinite length without an end",
    "deep-nesting": "more than 16 indefinite lengths in one another",
    "long-form-of-tag": "a tag number below 31 in several octets",
    "padded-tag": "a tag number that begins with a group of zeros",
    "cut-tag": "a tag number that goes on beyond the end",
    "no-length": "no length behind a tag",
    "long-length": "a length of more than four octets",
    "cut-length": "a length that goes beyond the end",
    "cut-content": "content that goes beyond the end",
}

# What explains a mark of tshark on an argument that the decoder reads, the more likely trait first.
MARKS = {
    "unknown_field": ("unknown-field", "other-order", "great-tag"),
    "sequence.field_wrong": ("other-order", "great-tag"),
    "length": ("long-service",),
    "bits_unknown": ("unnamed-bits",),
    "bits_set_padded": ("unused-bits",),
    "e164.": ("no-decimal-digit",),
    "e212.": ("plan-of-imsi", "short-imsi"),
    "_ws.malformed.expert": ("plan-of-imsi", "shared-country-code", "short-imsi"),
}

# Marks that come with others, which say more.
SUMMARIES = {"malformed", "unreassembled"}

# The decoder doesn't look into what it skips, and tshark does: any mark may come from there.
SKIPPED = ("skipped-field", "unknown-field", "great-tag")

# Traits by which tshark reads other values, or stops.
READ_OTHERWISE = ("other-order", "plan-of-imsi", "shared-country-code", "long-integer", "unused-bits", "great-tag",
                  "skipped-field", "unknown-field")


def explaining_trait(mark, traits):
    """The trait that explains a mark, or None."""
    candidates = next((names for beginning, names in MARKS.items() if mark.startswith(beginning)), ())
    return next((trait for trait in (*candidates, *SKIPPED) if trait in traits), None)


def refusal_classes(rule, marks):
    """The classes of a refusal by this rule. Marks that are not of its kind may be of another fault, before or behind
    it: tshark goes on behind most faults, and stops at some that the decoder finds later."""
    own = MARKED.get(rule, ("",) if rule in MALFORMED else ())
    if any(mark.startswith(own) for mark in marks):
        return []
    if marks:
        return [f"other mark: {rule}"]
    return [f"no mark: {rule}"] if rule in UNMARKED or rule in MALFORMED else None


def classes_of(line, answer, rule, reading):
    """The classes by which tshark's reading differs from the decoder's answer; none if they agree; None if there is a
    difference that no class explains. The rule is the one that refuses the argument, or None."""
    marks = reading.marks - SUMMARIES
    if rule:
        return refusal_classes(rule, marks)
    if reading.text == answer and not marks:
        return []
    traits = traits_of(line)
    found = {f"mark: {explaining_trait(mark, traits)}" for mark in marks}
    if reading.text != answer:
        found.add(f"read otherwise: {next((trait for trait in READ_OTHERWISE if trait in traits), None)}")
    return None if any(name.endswith("None") for name in found) else sorted(found) or None
