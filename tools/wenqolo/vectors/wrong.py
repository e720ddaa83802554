"""Wrong models, each of which breaks one rule. A text says which, by its anchor in docs/RULES.md, and what it does."""

from wenqolo import updates
from wenqolo.decoder import SEQUENCE, Decoder, context, refusal
from wenqolo.octets.reading import MALFORMED, TAG, Fault
from wenqolo.rules import CSIS, EMERGENCY, Csi, Model, Refused


# Those that are made of functions. A class knows its subclasses only as long as something else does.
MADE = []


def models():
    """All wrong models."""
    return Model.__subclasses__()


def rule_of(model):
    return model.__doc__.partition(":")[0]


def wrong(name, text, **overridden):
    """Makes a wrong model, in which these are in the place of the model's own."""
    MADE.append(type(name, (Model,), {"__doc__": text, **overridden}))


# Models whose decoder refuses nothing by some of its rules.
for some_name, some_text, *rules in (
    ("LastRowWins", "list-full: two rows of one detection point are taken", "point-twice"),
    ("CausesAtDp2", "no-cause: an entry of detection point 2 or 12 may have causes", "cause-at-first-point"),
    ("FourLengths", "most-numbers: lengths may be 0, and over 15", "range-of-length"),
    ("GreatKeys", "row: a service key may be over 2147483647", "great-service-key"),
    ("TenOctets", "addresses: an address may have no octets, or ten", "octets-of-address"),
    ("SixteenDigits", "imsi-octets: digits over 9 and a sixteenth digit are taken", "digits-of-imsi"),
    ("NeitherNumbersNorLengths", "numbers-or-lengths: a number criterion may have neither list",
     "no-number", "empty-list"),
    ("LongLists", "most-codes: lists may have any number of items", "long-list"),
    ("EmptyLists", "list-empty: a list of no items is taken", "empty-list"),
    ("AnyMatchType", "match-type: a match type over 1 is taken", "range-of-value"),
    ("DialogueDecides", "values: another IMSI than that of the dialogue is taken", "other-imsi"),
    ("AnyForm", "row-fields: bit 6 of an identifier is not looked at", "other-form"),
    ("FirstTagDecides", "fields: of two fields with one tag the first is taken", "field-twice"),
):
    wrong(some_name, some_text, tolerated=rules)

# Addresses and criteria

wrong("PlansCompared", "listed-number: numbering plans are compared under profile 1 too",
      agree=lambda self, one, other: Model.agree(self, one, other) and self.plan(one) == self.plan(other))
wrong("PlansNeverCompared", "agree: numbering plans are not compared under profile 2",
      agree=lambda self, one, other: self.nature(one) == self.nature(other))
wrong("NaturesNotCompared", "nature: natures of address are not compared", nature=lambda self, address: 1)
wrong("ExtensionCompared", "extension: bit 8 is compared", nature=lambda self, address: address[0] >> 4)
wrong("PrefixTheOtherWayRound", "digits-begin: the destination has to be a prefix of the listed number",
      is_front=lambda self, front, digits: front[: len(digits)] == digits)
wrong("OctetsArePrefix", "after-filler: the filler is a digit, and what stands behind it too",
      digits=lambda self, address: self.nibbles(address[1:]))
wrong("HighNibbleFirst", "digits: the high nibble of an octet is the earlier digit",
      nibbles=lambda self, octets: [nibble for octet in octets for nibble in (octet >> 4, octet & 15)])
wrong("LengthsInOctets", "match-type: a length is that of the octets",
      length_of=lambda self, destination: len(destination))
wrong("NoGroups", "groups: a listed group covers only itself", members=lambda self, kind, code: set())
wrong("EachGroupCovers", "no-group: each code that ends with 0 covers those of its high nibble",
      members=lambda self, kind, code: Model.members(self, kind, code) | (
          set(range(code, code + 16)) if code % 16 == 0 else set()))
wrong("KindsNotTold", "kinds: a teleservice covers the bearer service with its octet",
      covers=lambda self, listed, called: Model.covers(self, listed, (listed[0], called[1])))
wrong("LastOctetOfCode", "basic-services: the last octet of a code counts",
      covers=lambda self, listed, called: Model.covers(self, (listed[0], listed[1][-1:]), called))
wrong("FirstCodeOnly", "basic-criterion: only the first code is looked at",
      basic_met=lambda self, basics, event: Model.basic_met(self, basics[:1], event))
wrong("FirstCauseOnly", "cause-criterion: only the first cause is looked at",
      cause_met=lambda self, causes, event: Model.cause_met(self, causes[:1], event))
wrong("WholeOctetIsCause", "causes: a cause is all eight bits of its octet", cause_of=lambda self, octet: octet)
wrong("ForwardingSwapped", "call-type: 0 is not forwarded, and 1 is forwarded",
      forwarding_met=lambda self, choice, event: event.is_forwarded == (choice == 1))
wrong("OneCriterionSuffices", "meets: an event that meets one criterion meets the entry",
      meets=lambda self, event, entry: any(self.criteria_met(entry, event)) or not [*self.criteria_met(entry, event)])


class DecimalDigitsOnly(Model):
    """digit-values: digits end before the first that is over 9"""

    def digits(self, address):
        digits = super().digits(address)
        return digits[: next((at for at, digit in enumerate(digits) if digit > 9), None)]


class InhibitsIfOneDiffers(Model):
    """match-type: an inhibiting criterion is met if some listed number does not match"""

    def number_met(self, criterion, destination):
        if criterion.match_type == 1 or not criterion.numbers:
            return super().number_met(criterion, destination)
        return not all(self.number_matches(listed, destination) for listed in criterion.numbers)


# Decisions

wrong("BearerEmergency", "emergency: bearer service 12 is emergency calls too",
      is_emergency=lambda self, basic: basic[1] == EMERGENCY)
wrong("OtherHandlingsRelease", "default-handling: all but 0 is release",
      is_release=lambda self, handling: handling > 0)
wrong("AllHandlingsContinue", "trigger: the default call handling of a row is not kept",
      is_release=lambda self, handling: False)




def wrong_reason(name, text, reason):
    """A wrong model whose reason is made of the right one."""
    wrong(name, text, reason=lambda self, event, csi, row, entry: reason(
        self, event, csi, Model.reason(self, event, csi, row, entry)))


wrong_reason("EmergencyAtDp12",
             "emergency-call: an emergency call to a subscriber triggers the VT-CSI at detection point 12",
             lambda self, event, csi, right: None if event.point == 12 and right == "emergency" else right)
wrong_reason("EmergencyFirst", "order-of-reasons: Emergency is given before NotArmed",
             lambda self, event, csi, right: "emergency" if right == "not-armed" and self.is_emergency(
                 event.basic) else right)
wrong_reason("AnyEntry", "criteria-not-met: each entry of the CSI is tested, whatever its detection point",
             lambda self, event, csi, right: right or (
                 None if all(self.meets(event, other) for other in csi.entries) else "criteria"))
wrong_reason("UnknownHasNoCsi", "unknown: a subscriber without a record has no CSI",
             lambda self, event, csi, right: "no-csi" if right == "unknown" else right)

# Updates

wrong("RegisterKeeps", "register: a record that is there stays",
      register=lambda self, imsi: self.records.setdefault(imsi, {}))
wrong("ClearLeavesRecords", "clear-all: it empties each record",
      clear=lambda self: self.records.update({imsi: {} for imsi in self.records}))


class OldCriteriaStay(Model):
    """insert-leaves: rows that come without criteria leave the stored ones"""

    def put(self, record, lists, csi):
        entries = record[csi].entries if csi in record else []
        super().put(record, lists, csi)
        if csi in lists and CSIS[csi] not in lists:
            record[csi] = Csi(record[csi].rows, entries)


class OtherCsiGoes(Model):
    """insert-leaves: an Insert of the VT-CSI removes the O-CSI"""

    def insert(self, update):
        super().insert(update)
        if "t" in update.lists and "o" not in update.lists:
            self.records[update.imsi].pop("o", None)


class CriteriaWithoutCsi(Model):
    """insert: criteria without their CSI are accepted"""

    def lacks_csi(self, record, lists, csi):
        return False

    def put(self, record, lists, csi):
        if csi in lists or csi in record:
            super().put(record, lists, csi)


class IgnoredRowsAreAbsent(Model):
    """ignored: a CSI with only ignored rows counts as absent"""

    def insert(self, update):
        update.lists = {name: items for name, items in update.lists.items() if self.kept(update.lists, name)}
        super().insert(update)


class EverythingIsO(Model):
    """delete: camelSubscriptionInfoWithdraw removes the O-CSI only"""

    def delete(self, update):
        if update.everything:
            update.everything, update.bits = False, "1"
        super().delete(update)


class VtIsBit1(Model):
    """delete-argument: bit 1 of specificCSI-Withdraw is the VT-CSI"""

    def delete(self, update):
        if update.bits:
            update.bits = update.bits[0] + "000" + update.bits[1:2]
        super().delete(update)


class CancelOfNone(Model):
    """cancel: it is refused if there is no record"""

    def cancel(self, update):
        self.record(update.imsi)
        super().cancel(update)


class LaterRowsBehind(Model):
    """lists-in-two-operations: rows that come again are behind the first ones"""

    def join(self, earlier, later):
        whole = super().join(earlier, later)
        rows = {name: earlier.lists.get(name, []) + later.lists.get(name, []) for name in updates.CSIS}
        return updates.Insert(earlier.imsi, whole.lists | {name: items for name, items in rows.items() if items})


class LaterReplaces(Model):
    """lists-in-two-operations: criteria that come again are in the place of the first ones"""

    def join(self, earlier, later):
        super().join(earlier, later)
        return updates.Insert(earlier.imsi, earlier.lists | later.lists)


# Octets

class CountsAfterIgnoring(Decoder):
    @staticmethod
    def refusal(found, name):
        return refusal([item for item in found if item.point in updates.points_of(name)], name)


class TakesNoIndefiniteLength(Decoder):
    def length(self, at, end):
        size, after = super().length(at, end)
        if size is None:
            raise Fault(MALFORMED, at, "indefinite")
        return size, after


class TakesNoLmsi(Decoder):
    def first(self, parent):
        found = super().first(parent)
        if parent.tag == context(3) and found.tag == SEQUENCE:
            raise Fault(TAG, found.start, "lmsi")
        return found


wrong("TenAfterIgnoring", "ignored: ten items are counted after the others are ignored", decoder=CountsAfterIgnoring)
wrong("ShortLengthsOnly", "elements: an indefinite length is refused", decoder=TakesNoIndefiniteLength)
wrong("NoLmsi", "identity: an IMSI with an LMSI is refused", decoder=TakesNoLmsi)


class ImsisAreNumbers(Model):
    """imsi: IMSIs are compared as numbers, without leading zeros"""

    def decode(self, operation, imsi, octets):
        update = super().decode(operation, imsi, octets)
        update.imsi = next((known for known in self.records if int(known) == int(update.imsi)), update.imsi)
        return update


class VersionThreeOnly(Model):
    """cancel-argument: an identity that is the argument itself is refused"""

    def decode(self, operation, imsi, octets):
        if operation == "cancelLocation" and octets[:1] != b"\xa3":
            raise Refused(404)
        return super().decode(operation, imsi, octets)
