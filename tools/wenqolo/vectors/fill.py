"""Octets of steps that are written into vectors. A `?` in their place becomes what the line `=` below the step says
that they hold, in the shortest form. `TAG(CONTENTS)`, also within others, becomes an element with its length."""

import re
import textwrap

from wenqolo.octets.ber import length_octets, minimal
from wenqolo.octets.encoding import element_of
from wenqolo.vectors import FOLDER
from wenqolo.vectors.records import update_of

WIDTH = 118
STEP = re.compile(r"^(insert|further|delete|cancel) (\S+) ([^=\n]*[?(][^=\n]*) => (.*)$(?:\n=(.*)$)?", re.M)


def with_length(element):
    tag, content = element.groups()
    return tag + length_octets(len(content) // 2).hex() + content


def with_lengths(text):
    """The octets of a text with elements, from the inner ones to the outer ones."""
    octets, previous = text.replace(" ", ""), ""
    while octets != previous:
        previous, octets = octets, re.sub(r"([0-9a-f]{2})\(([0-9a-f]*)\)", with_length, octets)
    return octets


def filled(step):
    word, imsi, text, answer, holds = step.groups()
    octets = with_lengths(text)
    if text == "?":
        octets = minimal(element_of(update_of(word, imsi, holds))).hex()
    line = f"{word} {imsi} " + " ".join(octets[at : at + 16] for at in range(0, len(octets), 16)) + f" => {answer}"
    return line + ("" if holds is None else f"\n={holds}")


def wrapped(line):
    """A line of at most WIDTH columns, with lines behind it that go on with it."""
    return line if len(line) <= WIDTH or line.startswith("#") else textwrap.fill(line, WIDTH, subsequent_indent="  ")


def fill_all():
    for path in sorted(FOLDER.glob("*.txt")):
        whole = STEP.sub(filled, re.sub(r"\n +", " ", path.read_text()))
        path.write_text("".join(f"{wrapped(line)}\n" for line in whole.splitlines()))
