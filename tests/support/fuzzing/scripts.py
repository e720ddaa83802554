"""The scripts that are replayed. Each depends on the seed, its number and the scripts to begin from only."""

import random
import re

from support.fuzzing.replays import FIRST_CALL, LAST_CALL, MAX_LIMIT, MAX_RECORDS, SHORT, Options
from wenqolo.drawn.scripts import draw_records, text_of

# Octets that scripts have.
COMMON = b'0123456789,,,,,:::/+"\n\n\n\r abcdefinoprstuvl'


def script_of(seed, number, bases):
    """The script of this number, and the options with which it is replayed."""
    source = random.Random(f"{seed} {number}")
    return octets_of(source, number, bases), options_of(source)


def octets_of(source, number, bases):
    turn, kind = divmod(number, 10)
    if kind == 0:
        return random_octets(source)
    if kind in (1, 2):
        return substituted(turn * 2 + kind - 1)
    if kind == 3:
        return oversized(source, turn)
    if kind in (4, 5):
        return drawn(source)
    base = drawn(source) if kind == 6 else source.choice(bases)
    return edited(source, bases, base)


def random_octets(source):
    """Random octets, by themselves or after a script. They are any octets, or such as scripts have."""
    before = source.choice([b"", FIRST_CALL])
    count = source.randrange(300)
    is_common = source.choice([False, True])
    return before + (bytes(source.choices(COMMON, k=count)) if is_common else source.randbytes(count))


def options_of(source):
    """Two or three threads. Most often a script is not stopped by its limit."""
    return Options(
        threads=source.choice([2, 3]),
        limit=source.choice([1, 2, 5, *[MAX_LIMIT] * 13]),
        profile=source.choice([1, 1, 1, 2]),
    )


# Records that are drawn as they may stand, and some with texts that may not.

IMSIS = ("26201", "26201", "262010000000001")
# A field, or a part of an item.
PART = re.compile(r"(?<![^,:/+])[^,:/+]*")
# What stands in the place of such a text: others, shorter and longer ones, and numbers that are too great.
ODD = ("", "x", " {}", "{}a", "{}g", "{}{}", "-{}", "00000000{}", "{}+", "{}/", "256", "2147483648", "4294967296",
       "91" + "00" * 21, "1+2+3+4+5+6", "2620", "2620100000000001", "t111", "T11", "O", "e//", "e/91")
# In a script with texts that may not stand in their place it is one of so many.
RARE = 40


def drawn(source):
    """Fewer than twenty records, mostly after a call of a subscriber with a service. Most scripts have no text that may
    not stand in its place."""

    def perhaps_odd(part):
        return source.choice(ODD).format(part[0], part[0]) if source.randrange(RARE) == 0 else part[0]

    before = b"" if source.randrange(8) == 0 else FIRST_CALL
    text = "".join(f"{text_of(record)}\n" for record in draw_records(source, IMSIS, source.randrange(20)))
    if source.randrange(3) == 0:
        text = "".join(PART.sub(perhaps_odd, line) for line in text.splitlines(True))
    return before + text.encode()


# Edits of octets, fields and lines.

# What may end an octet, a field and a line. A field comes with the separator after it, and a line with its end.
UNITS = (bytes(range(256)), b",:\n", b"\n")
# A script has at most so many edits, and a part is repeated less often than this.
MOST_EDITS, REPEATS = 4, 20


def edited(source, others, script):
    """A script with up to four edits. What is inserted and spliced in comes from one of the other scripts."""
    for _ in range(source.randrange(MOST_EDITS + 1)):
        script = edited_once(source, source.choice(others), script)
    return script


def edited_once(source, other, script):
    unit = source.choice(UNITS)
    before, part, after = cut(source, script, unit)
    _, stranger, _ = cut(source, other, unit)
    flipped = bytearray(part)
    if part:
        flipped[source.randrange(len(part))] ^= 1 << source.randrange(8)
    repeated = part * source.randrange(REPEATS)
    return before + source.choice((bytes(flipped), b"", stranger + part, repeated, stranger)) + after


def cut(source, script, ends):
    """A part of a script, and what is before it and after it."""
    if not script:
        return b"", b"", b""
    at = source.randrange(len(script))
    start = next((place for place in range(at, 0, -1) if script[place - 1] in ends), 0)
    end = next((place + 1 for place in range(at, len(script)) if script[place] in ends), len(script))
    return script[:start], script[start:end], script[end:]


# Each octet in the place of each part of a record of each kind, with items of each kind.

RECORDS = (
    b"register,26201",
    b"insert,26201,o:2:100:919471160000:0,oc:2:e/9121/8:t11:n:",
    b"insert,26201,t:13:100:919471160000:1,tc:13:t11:17",
    b"delete,26201,o,vt",
    b"cancel,26201",
    b"clear",
    b"publish",
    b"call,2,26201,t11,91214365,n",
    b"call,4,26201,t11,91214365,f,17",
    b"call,12,26201,t11",
    b"call,13,26201,t11,17",
    b"call,14,26201,b10,17",
)
OCTETS = 256
# Each field and each part of an item, with what is before it and after it in its record.
PARTS = [(record[: part.start()], part[0], record[part.end() :])
         for record in RECORDS for part in re.finditer(rb"(?<![^,:])[^,:]*", record)]


def substituted(number):
    """A script with a record in which an octet replaces a part, or comes before it. In the first OCTETS numbers each
    octet replaces the first part of the first record, in the next ones the second part, and so on through all records;
    then each octet comes before each part."""
    place, octet = divmod(number, OCTETS)
    turn, at = divmod(place, len(PARTS))
    before, part, after = PARTS[at]
    kept = part if turn % 2 else b""
    return FIRST_CALL + before + bytes([octet]) + kept + after + b"\n" + LAST_CALL


# Fields, records and lines that are far too long. Each has the beginning of a record, the part that is repeated in it,
# and its end.

LONG_FIELDS = (
    (b"", b"r", b",26201\n"),
    (b"register,", b"1", b"\n"),
    (b'"', b"publish\n", b'"\n'),
    (b'call,2,"', b'""', b'"\n'),
    (b"insert,26201,o:2:", b"0", b":91:0\n"),
    (b"insert,26201,o:2:100:", b"91", b":0\n"),
    (b"insert,26201,o:2:100:91:0", b":0", b"\n"),
    (b"insert,26201,oc:2:e/91", b"+91", b"/:::\n"),
    (b"insert,26201,tc:13:t11", b"+t11", b":\n"),
    (b"call,2,26201,t11,", b"21", b",n\n"),
)
# More and more fields.
LONG_RECORDS = (
    (b"register,26201", b",26201", b"\n"),
    (b"delete,26201", b",o", b",vt\n"),
    (b"insert,26201", b",o:2:100:919471160000:0", b"\n"),
    (b"call,13,26201,t11,17", b",", b"\n"),
)
# Lines without an end; a quote that is not closed takes the line ends too.
LONG_LINES = (
    (b"register,26201", b"1", b""),
    (b'"', b"publish\n", b""),
    (b"", b"\0", b""),
)
SHORT_RECORDS = ((b"", SHORT, b""),)
# So many octets are a field or a line that is far too long, and so many fields a record. Most often a part is repeated
# less often than the last one.
LONG, MANY, FEW = 10_000_000, 100_000, 1000


def oversized(source, turn):
    """A script with a record in which one part is repeated. Four of a thousand turns have a field of ten million
    octets, a record of a hundred thousand fields, a line of ten million octets, and one record too many."""
    among, times = growth(source, turn % 1000)
    before, part, after = source.choice(among)
    if times == LONG:
        times //= len(part)
    return FIRST_CALL + before + part * times + after + (LAST_CALL if after else b"")


def growth(source, turn):
    """What may grow in this turn, and how often its part is repeated; LONG stands for so many octets."""
    if turn < 4:
        return ((LONG_FIELDS, LONG), (LONG_RECORDS, MANY), (LONG_LINES, LONG), (SHORT_RECORDS, MAX_RECORDS + 1))[turn]
    among = LONG_RECORDS if turn < 300 else LONG_LINES if turn < 400 else LONG_FIELDS
    return among, source.randrange(FEW)
