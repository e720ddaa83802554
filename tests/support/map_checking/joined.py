"""Inserts that are split over two operations of a dialogue, joined again."""

import random
from typing import NamedTuple

from support.map_checking import dissection
from support.map_checking.classes import classes_of
from support.map_checking.programs import texts_of
from wenqolo import updates
from wenqolo.decoder import answer, joined_answer
from wenqolo.drawn.lines import line_of
from wenqolo.drawn.styles import STYLES
from wenqolo.drawn.updates import draw_insert
from wenqolo.octets.encoding import Line

# Of so many inserts one is split in every place of each list, and of so many one is joined with another one.
EVERY_PLACE, OTHER = 25, 4


class Pair(NamedTuple):
    """Two arguments of one dialogue, and what they were written of, or None if they were not one."""

    first: Line
    second: Line
    text: str | None

    def __str__(self):
        return f"{self.first},{self.second.octets.hex()}"


def rest_of(name, items, place):
    """What the second insert has of a list of which the first has the items before a place."""
    return items if name in updates.CSIS and place < len(items) else items[place:]


def split(source, insert, places):
    """The insert as two, of which the first has so many items of each list. If these are not all rows of a CSI, the
    second has it whole."""
    halves = ({name: items[:places[name]] for name, items in insert.lists.items()},
              {name: rest_of(name, items, places[name]) for name, items in insert.lists.items()})
    lists = [{name: items for name, items in half.items() if items} for half in halves]
    # What comes with a CSI comes with a part of it that is there.
    first, second = ({name: phase for name, phase in insert.capabilities.items() if name in half} for half in lists)
    if source.random() < 0.5:
        first = {name: phase for name, phase in first.items() if name not in second}
    return tuple(updates.Insert(insert.imsi, half, insert.shows_imsi, some)
                 for half, some in zip(lists, (first, second)))


def places_of(source, insert):
    """A place in each list."""
    return {name: source.randint(0, len(items)) for name, items in insert.lists.items()}


def halves_of(source, number):
    """Two inserts each with what they were written of, one pair or more."""
    insert = draw_insert(source)
    if number % OTHER == 1:
        other = draw_insert(source)
        other.imsi = insert.imsi
        yield insert, other, None
    elif number % EVERY_PLACE == 0:
        for name, items in insert.lists.items():
            for place in range(len(items) + 1):
                yield *split(source, insert, places_of(source, insert) | {name: place}), updates.text_of(insert)
    else:
        yield *split(source, insert, places_of(source, insert)), updates.text_of(insert)


def pair_of(source, first, second, text, style):
    """The two as lines of a dialogue that has their IMSI."""
    lines = [line_of(source, insert, style)._replace(imsi=first.imsi) for insert in (first, second)]
    return Pair(*lines, text)


def drawn_pairs(seed, numbers):
    styles = [*STYLES.values()]
    for number in numbers:
        source = random.Random(f"{seed} joined {number}")
        for halves in halves_of(source, number):
            yield pair_of(source, *halves, styles[number % len(styles)])


def joined_by_tshark(pair, readings):
    """What the fields that tshark shows of both make, or None if it reads one of them in a way of its own."""
    for line, reading in zip(pair[:2], readings):
        text, rule = answer(line)
        if classes_of(line, text, rule, reading) != []:
            return None
    return updates.text_of(updates.joined(*(reading.update for reading in readings)))


def compare(pair, read, readings):
    """Returns whether tshark's fields were compared too."""
    modelled = joined_answer(pair[:2])
    assert pair.text in (None, read), f"{pair}\n  is joined as {read}\n  and was split of {pair.text}"
    assert read == modelled, f"{pair}\n  is joined as {read}\n  and by the rules as {modelled}"
    shown = joined_by_tshark(pair, readings)
    if shown is None or read.startswith("fault"):
        return False
    assert read == shown, f"{pair}\n  is joined as {read}\n  and by tshark as {shown}"
    return True


def check_pairs(seed, numbers):
    """How many pairs there are, how many are refused, and with how many tshark was compared; and the differences."""
    pairs = [*drawn_pairs(seed, numbers)]
    reads = texts_of(pairs)
    shown = iter(dissection.read([line for pair in pairs for line in pair[:2]]))
    counts, differences = [len(pairs), sum(read.startswith("fault") for read in reads), 0], []
    for pair, read in zip(pairs, reads):
        try:
            counts[2] += compare(pair, read, (next(shown), next(shown)))
        except AssertionError as difference:
            differences.append(str(difference))
    return counts, differences
