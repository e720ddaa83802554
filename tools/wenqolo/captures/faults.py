"""What a decoder's faults are called: by the names that the library's header has for their numbers. The version is
there too."""

import re
from functools import cache
from pathlib import Path

HEADER = Path(__file__).resolve().parents[3] / "include/camel.h"
STATUSES = re.compile(r"typedef uint32_t camel_status;\nenum \{(.*?)\};", re.S)
# The numbers that are needed by themselves.
DATA_MISSING, NO_IMSI = 35, 406
STATUS = re.compile(r"^ +CAMEL_(\w+) = (\d+)", re.M)


@cache
def name_of(number):
    """The name of a number, in the form that TS 29.002 has for its errors."""
    statuses = STATUSES.search(HEADER.read_text())[1]
    first, *rest = next(name for name, other in STATUS.findall(statuses) if int(other) == number).lower().split("_")
    return first + "".join(word.capitalize() for word in rest)


def version():
    """The version of the product, which the header has."""
    return re.search(r'^#define CAMEL_VERSION "(.*)"$', HEADER.read_text(), re.M)[1]


def is_fault(answer):
    return answer.startswith("fault ")


def fault_text(answer):
    """A fault as the decoder prints it, `fault NUMBER PLACE`, in words. That of a join has no place."""
    number, *place = map(int, answer.split()[1:])
    where = f"at octet {place[0]} of the argument" if place else "joined with what came before it in its dialogue"
    return f"{name_of(number)} {where}"
