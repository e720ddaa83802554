"""The scripts by which programs are measured: subscribers, calls and updates follow from numbers by integer arithmetic,
so a script is the same each time.

Known subscribers have the numbers from 0 on, those that come and go from 2^24 on, and those never there from 2^25 on.
"""

from functools import lru_cache
from itertools import chain, islice

INTERNATIONAL, NATIONAL = 0x91, 0xA1
FIRST_COMER, FIRST_NEVER_THERE = 1 << 24, 1 << 25
# A store is filled in publications of so many subscribers, as by a switch that is restored.
FILLED_AT_ONCE = 1000
WORD = (1 << 64) - 1


def mix(number):
    """A number that depends on each bit of this one."""
    mixed = number + 0x9E3779B97F4A7C15 & WORD
    mixed = (mixed ^ mixed >> 30) * 0xBF58476D1CE4E5B9 & WORD
    mixed = (mixed ^ mixed >> 27) * 0x94D049BB133111EB & WORD
    return mixed ^ mixed >> 31


def draws(seed):
    """Numbers without an end: the states of an xorshift generator, multiplied."""
    state = mix(seed) | 1
    while True:
        state ^= state >> 12
        state ^= state << 25 & WORD
        state ^= state >> 27
        yield state * 0x2545F4914F6CDD1D & WORD


def address(first_octet, front, rest, count):
    """An address with so many digits, as MAP has it: those of an octet, and then others out of a number, from 0 to 7.
    A filler is behind an odd count."""
    filler = 15 << 4 * count if count % 2 else 0
    digits = (rest & 0x7777777777777700 | front) & (1 << 4 * count) - 1 | filler
    return f"{first_octet:02x}{digits.to_bytes(8, 'little').hex()}"[: 2 + count + count % 2]


def imsi(subscriber):
    """15 digits: the network, and a number in which neighbours are far apart."""
    return 262010000000000 + subscriber * 7368787 % 10**10


def traits_of(subscriber):
    """The number that decides which data a subscriber has."""
    return mix(subscriber * 4)


def listed_by(subscriber):
    """The numbers that the criteria of a subscriber list. One of eight is a national one."""
    if traits_of(subscriber) >> 43 & 3 == 0:
        return []
    drawn = draws(subscriber * 4 + 1)
    choice = next(drawn)
    counts = 5 + choice % 6, 5 + (choice >> 8) % 12, 5 + (choice >> 16) % 6
    octets = [INTERNATIONAL if choice >> (24 + 3 * place) & 7 else NATIONAL for place in range(3)]
    return [address(octet, 0x94, next(drawn), count) for octet, count in zip(octets, counts)]


def row(name, traits, version, dp):
    """A row at the detection point. The version is in the bits above the lowest 20 of the service key, and its lowest
    seven bits are the second octet of the gsmSCF address."""
    count = 10 + 2 * (traits >> 31 & 1) + 2 * (traits >> 32 & 1)
    scf = address(INTERNATIONAL, version & 0x7F, mix(traits), count)
    key = (traits >> 11 & 0xFFFFF) ^ dp | version << 20
    return f",{name}:{dp}:{key}:{scf}:{traits >> 40 & 1}"


def o_points(traits):
    if traits % 64 == 63:
        return ()
    armed = traits >> 6 & 15
    if armed < 8:
        return (2,) if armed else (4,)
    return (4, 2) if traits >> 10 & 1 else (2, 4)


def insert(subscriber, version):
    """The data of a subscriber at a version from 0 to 2047. Of 64 subscribers one has no O-CSI, and of 16 one is armed
    at DP 4 only; half of the others have rows for DP 2 and DP 4. Three of four list numbers, and half have a VT-CSI."""
    traits = traits_of(subscriber)
    items = [row("o", traits, version, dp) for dp in o_points(traits)]
    listed = listed_by(subscriber)
    if listed and items:
        items.append(f",oc:2:e/{'+'.join(listed)}/:::")
    if traits >> 41 & 1:
        items += [row("t", traits, version, dp) for dp in ((12, 13) if traits >> 42 & 1 else (12,))]
    return f"insert,{imsi(subscriber)}{''.join(items)}\n"


def call(subscriber, choice, digits, is_listed):
    """A call of a subscriber. Its destination begins with a listed number if it is to and if there is one, and one of
    64 is an emergency call."""
    destination = address(INTERNATIONAL, 0x94, digits, 12 if choice >> 8 & 3 else 11)
    numbers = listed_by(subscriber) if is_listed else []
    if numbers:
        listed = numbers[(choice >> 10) % 3]
        listed = listed if len(listed) <= 12 else numbers[0]
        # No digit is f: a listed number has it as a filler only.
        first = "".join(other if digit == "f" else digit for digit, other in zip(listed, destination))
        destination = first + destination[len(listed) :]
    basic = "t12" if choice & 63 == 0 else "b11" if choice & 63 < 16 else "t11"
    return f"call,2,{imsi(subscriber)},{basic},{destination},n\n"


def calls(drawn, known, count):
    """So many calls, of which nine of ten are of known subscribers, and half of these to a listed number."""
    for _ in range(count):
        whose, choice, digits = next(drawn), next(drawn), next(drawn)
        subscriber, is_known = (whose >> 8) % known, whose % 10 > 0
        yield call(subscriber + (0 if is_known else FIRST_NEVER_THERE), choice, digits, is_known and choice >> 7 & 1)
    yield "publish\n"


def known_ones(known, at_once):
    for subscriber in range(known):
        yield f"register,{imsi(subscriber)}\n"
        yield insert(subscriber, 0)
        if subscriber % at_once == at_once - 1 or subscriber == known - 1:
            yield "publish\n"


def comers_of(known):
    """The subscribers that come and go."""
    return range(FIRST_COMER, FIRST_COMER + known // 16 + 1)


def changes(known, batch):
    """Publications without an end: of ten updates eight replace the record of a known subscriber, and one puts and one
    cancels that of one that comes and goes."""
    drawn, comers, are_there, version = draws(0x0DDBA11), comers_of(known), set(), 0
    while True:
        lines = []
        for _ in range(batch):
            choice, version = next(drawn), version + 1 & 0x7FF
            comer = comers[(choice >> 8) % len(comers)]
            if choice % 10 > 1:
                lines.append(insert((choice >> 8) % known, version))
            elif choice % 10 == 1:
                are_there.discard(comer)
                lines.append(f"cancel,{imsi(comer)}\n")
            else:
                if comer not in are_there:
                    lines.append(f"register,{imsi(comer)}\n")
                are_there.add(comer)
                lines.append(insert(comer, version))
        yield "".join(lines) + "publish\n"


def call_count(known):
    """How many calls a script of so many subscribers has: a power of two."""
    return min(max(1 << (known - 1).bit_length(), 1 << 14), 1 << 20)


@lru_cache(maxsize=2)
def data(known):
    """Known subscribers, and nothing else."""
    return "".join(known_ones(known, FILLED_AT_ONCE)) + "publish\n"


@lru_cache(maxsize=1)
def calls_of(known):
    return "".join(calls(draws(0x5EED0000), known, call_count(known)))


def run(known, batch, publications):
    """Known subscribers, calls, so many publications of a batch of updates, and calls that look at the data in the end.
    A publication of nothing ends each part."""
    yield from (data(known), calls_of(known), *islice(changes(known, batch), publications), "publish\n")
    for subscriber in chain(range(0, known, 10 if known > 100000 else 1), comers_of(known)):
        yield call(subscriber, 0x7F, mix(subscriber), True)


def check(known, batch, publications):
    """Known subscribers in one publication, and others of a batch of updates, with so many calls behind each."""
    drawn = draws(0x5EED0000)
    for publication in chain(["".join(known_ones(known, known))], islice(changes(known, batch), publications)):
        yield publication
        yield from calls(drawn, known, 1000)


def registers(count):
    """So many registers, each with a publication of its own and no calls."""
    return (f"register,{imsi(place)}\npublish\npublish\n" for place in range(count))


def replayed():
    """1,000,000 records: 100,000 subscribers, each registered and inserted with criteria, and then calls with inserts
    and publications among them."""
    subscribers, state = 100000, 88172645463325252
    update = "insert,2620100{:08},o:2:{}:919471160000:0,oc:2:e/9121f3+9155/4:t10::\n"
    yield from (f"register,2620100{subscriber:08}\n" for subscriber in range(subscribers))
    yield from (update.format(subscriber, subscriber) for subscriber in range(subscribers))
    yield "publish\n"
    for record in range(2 * subscribers + 1, 1000000):
        state ^= state << 13 & WORD
        state ^= state >> 7
        state ^= state << 17 & WORD
        subscriber, choice = state % subscribers, (state >> 32) % 1000
        if choice == 0:
            yield "publish\n"
        elif choice < 50:
            yield update.format(subscriber, record)
        else:
            destination = ("91214365", "91551234", "91998877")[choice % 3]
            yield f"call,2,2620100{subscriber:08},t11,{destination},n\n"
