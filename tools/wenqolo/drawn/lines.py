"""Lines of OPERATION,IMSI,HEX that are drawn: what a decoder of arguments reads."""

from wenqolo.drawn.mutations import mutated
from wenqolo.drawn.updates import draw_imsi, draw_update
from wenqolo.octets.encoding import Line, element_of
from wenqolo.updates import OPERATIONS, Insert


def line_of(random, update, style):
    """The line of an update. The dialogue has the IMSI if the argument has none, and else perhaps."""
    is_given = isinstance(update, Insert) and not update.shows_imsi or random.random() < 0.5
    imsi = update.imsi if is_given else ""
    return Line(OPERATIONS[type(update)], imsi, style.octets(random, element_of(update)))


def drawn_line(random, style):
    """A random update, and its line."""
    update = draw_update(random)
    return update, line_of(random, update, style)


def mutated_line(random, line):
    """The line with edits of its octets, and sometimes with another IMSI or another operation."""
    chance = random.random()
    if chance < 0.02:
        return line._replace(imsi=random.choice(("", draw_imsi(random))))
    if chance < 0.04:
        line = line._replace(operation=random.choice([*OPERATIONS.values()]))
    return line._replace(octets=mutated(random, line.octets))
