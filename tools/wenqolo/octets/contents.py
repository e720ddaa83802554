"""What else than the decoder reads is in messages: what a VLR asks for and announces, the CSIs that it skips, and the
IMSI by which a dialogue is opened."""

import re

from wenqolo.octets.components import elements
from wenqolo.octets.encoding import tbcd_digits

CONSTRUCTED = 0x20
# The phases of CAMEL, and what says that no subscriber data are asked for, in the argument of an updateLocation or a
# restoreData: subscriberDataStored of a super-charged VLR, and skipSubscriberDataUpdate, in add-info or by itself.
PHASES, NO_DATA = (6, 0), ((6, 3, 1), (13, 1), (15,))
# Of an insertSubscriberData, the CSIs beside those of calls, by the places of their fields.
SKIPPED = {(13, 2): "ss-CSI", (13, 3): "tif-CSI", (13, 5): "m-CSI", (13, 6): "mo-sms-CSI", (13, 9): "d-CSI",
           (13, 10): "mt-sms-CSI", (17, 0): "gprs-CSI", (17, 1): "mo-sms-CSI", (17, 3): "mt-sms-CSI"}
# In what a user has in the dialogue portion: the destinationReference of MAP-Open. In its first octet is the plan of
# the number, that of a mobile station if it is an IMSI.
REFERENCE, PLAN, LAND_MOBILE = (0, 0, 0), 15, 6


def field_of(element, places):
    """The content of the field that is reached in an element by these tags of context, one in the other, or None."""
    content = next((inner for _, inner, _ in elements(element)), b"")
    for place in places:
        found = (inner for identifier, inner, _ in elements(content) if identifier & ~CONSTRUCTED == 0x80 | place)
        content = next(found, None)
        if content is None:
            return None
    return content


def asks_for_data(argument):
    """Whether the argument of a location update asks for subscriber data."""
    return all(field_of(argument, places) is None for places in NO_DATA)


def phases_text(argument):
    """The phases of CAMEL that the argument of a location update announces."""
    bits = field_of(argument, PHASES) or b"\0"
    phases = [str(8 * at + bit + 1) for at, octet in enumerate(bits[1:]) for bit in range(8) if octet & 128 >> bit]
    return f"announces the phases {', '.join(phases)} of CAMEL" if phases else "announces no phase of CAMEL"


def skipped_text(argument):
    """The CSIs in the argument of an insertSubscriberData that are skipped, or nothing."""
    names = [name for places, name in SKIPPED.items() if field_of(argument, places) is not None]
    return f"brings what is skipped: {', '.join(dict.fromkeys(names))}" if names else ""


def opened_by(information):
    """The IMSI by which a dialogue is opened, in what its user has in its portion, or nothing."""
    reference = field_of(information, REFERENCE) or b"\0"
    digits = tbcd_digits(reference[1:])
    return digits if reference[0] & PLAN == LAND_MOBILE and re.fullmatch("[0-9]{5,15}", digits) else ""
