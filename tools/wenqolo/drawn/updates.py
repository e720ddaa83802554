"""Random updates, of which each is one that a decoder accepts."""

from wenqolo.updates import CSIS, Cancel, Delete, Entry, Insert, NumberCriterion, Row, points_of

MAX_ITEMS, MAX_BASICS, MAX_CAUSES, MAX_NUMBERS, MAX_LENGTHS, MAX_LENGTH = 10, 5, 5, 10, 3, 15
MAX_KEY = 2**31 - 1
ODD_POINTS = (0, 1, 3, 5, 7, 9, 15, 17, 30, 127, 128, 255, 256, 2 + 256, 12 + 2**32, -1, -254, -(2**33))
SHORT_ODD_POINTS = ODD_POINTS[:12]
HANDLINGS = (0, 1, 2, 31, 32, 127, 128, 255, 256, 2**31, 2**32, 2**32 + 1, 2**40)
CAPABILITIES = (1, 2, 3, 3, 4, 4, 5, 16)
OTHERS = {"o": (12, 13, 14), "t": (2, 4)}


def draw_imsi(random):
    return "".join(random.choices("0123456789", k=random.choice((5, 6, 14, 15, 15, 15, random.randint(5, 15)))))


def draw_address(random):
    """1 to 9 octets, usually of an international number."""
    if random.random() < 0.2:
        return random.randbytes(random.randint(1, 9))
    digits = random.choices("0123456789abc", (9,) * 10 + (1,) * 3, k=random.randint(0, 16))
    text = "".join(digits) + "f" * (len(digits) % 2)
    swapped = "".join(text[at + 1] + text[at] for at in range(0, len(text), 2))
    return bytes([random.choice((0x91, 0x91, 0xA1, 0x81, 0x98))]) + bytes.fromhex(swapped)


def draw_points(random, name, count):
    """So many detection points, of which none that counts comes twice."""
    points = list(points_of(name))
    random.shuffle(points)
    counting = points[: min(count, random.choices((0, 1, 2, 3), (2, 10, 8, 4))[0])]
    odd = ODD_POINTS if random.random() < 0.3 else SHORT_ODD_POINTS
    drawn = counting + [random.choice(odd + OTHERS[name[0]]) for _ in range(count - len(counting))]
    random.shuffle(drawn)
    return drawn


def draw_count(random, greatest):
    return random.choice((1, 1, 2, greatest, random.randint(1, greatest)))


def draw_row(random, point):
    key = random.choice((0, 1, 100, 127, 128, 32767, 32768, MAX_KEY, random.randint(0, MAX_KEY)))
    return Row(point, key, draw_address(random), random.choice(HANDLINGS[:8] if random.random() < 0.8 else HANDLINGS))


def draw_number(random):
    with_numbers, with_lengths = random.choice(((True, False), (False, True), (True, True)))
    numbers = [draw_address(random) for _ in range(draw_count(random, MAX_NUMBERS))]
    lengths = [random.randint(1, MAX_LENGTH) for _ in range(draw_count(random, MAX_LENGTHS))]
    return NumberCriterion(random.randint(0, 1), numbers if with_numbers else None, lengths if with_lengths else None)


def draw_basic(random):
    return random.choice((2, 3)), random.randbytes(random.choice((1, 1, 1, 2, 5, random.randint(1, 5))))


def draw_basics(random):
    return [draw_basic(random) for _ in range(draw_count(random, MAX_BASICS))]


def draw_causes(random):
    return [random.randrange(256) for _ in range(draw_count(random, MAX_CAUSES))]


def draw_entry(random, name, point):
    """An entry of criteria, with no cause at the first detection point that counts."""
    entry = Entry(point)
    if random.random() < 0.5:
        entry.basics = draw_basics(random)
    if point != points_of(name)[0] and random.random() < 0.5:
        entry.causes = draw_causes(random)
    if name == "oc":
        entry.number = draw_number(random) if random.random() < 0.5 else None
        entry.call_type = random.choice((None, 0, 1))
    return entry


def draw_list(random, name):
    points = draw_points(random, name, draw_count(random, MAX_ITEMS))
    if name.endswith("c"):
        return [draw_entry(random, name, point) for point in points]
    return [draw_row(random, point) for point in points]


def draw_insert(random):
    chance = random.choice((0, 0.4, 0.4, 1))
    lists = {name: draw_list(random, name) for name in ("o", "oc", "t", "tc") if random.random() < chance}
    capabilities = {name: random.choice(CAPABILITIES) for name in CSIS if name in lists and random.random() < 0.5}
    return Insert(draw_imsi(random), lists, random.random() < 0.5, capabilities)


def draw_delete(random):
    bits = "".join(random.choices("01", k=random.choice((0, 1, 4, 5, 8, 9, 12, 32, random.randint(0, 32)))))
    return Delete(draw_imsi(random), random.random() < 0.3, bits if random.random() < 0.7 else None)


def draw_cancel(random):
    return Cancel(draw_imsi(random), random.choice((2, 3, 3)), random.random() < 0.3)


def draw_update(random):
    return random.choice((draw_insert,) * 6 + (draw_delete, draw_delete, draw_cancel))(random)
