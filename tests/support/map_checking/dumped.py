"""Dumps of stores, a line IMSI,HEX for each record, and the scripts that restore them."""

import random
import re
from pathlib import Path

from support.map_checking.encoded import encoded_lines, sent_update
from support.map_checking.programs import CHECK, REPLAY, output_of, with_lists
from support.processes import run
from wenqolo import updates
from wenqolo.drawn.lines import line_of
from wenqolo.drawn.mutations import mutated
from wenqolo.drawn.styles import STYLES
from wenqolo.drawn.updates import draw_insert
from wenqolo.octets.encoding import Line

# Of so many lines one has its octets edited.
EDITED = 4

# What is no line of a dump. These stand before the lines of each dump that is restored.
NO_LINES = ("26201", "26201,3000,3000", "26201,300", "26201,30x0", "2620,3000", "2620x,3000", ",3000", '"26201,3000')


def recorded(insert):
    """The Insert of a record: criteria have entries, and stand beside their CSI."""
    lists = {name: items for name, items in insert.lists.items() if name in updates.CSIS
             or name[0] in insert.lists and any(item.point in updates.points_of(name) for item in items)}
    return updates.Insert(insert.imsi, lists)


def drawn_dump(seed, numbers):
    """The lines of a dump, with the texts that they were written of, or with None if they have edits."""
    sources = [random.Random(f"{seed} dumped {number}") for number in numbers]
    inserts = [recorded(draw_insert(source)) for source in sources]
    drawn = [(insert, line_of(source, insert, STYLES["minimal"])) for source, insert in zip(sources, inserts)]
    for number, source, insert, line in zip(numbers, sources, inserts, encoded_lines(drawn)):
        text = updates.text_of(sent_update(insert))
        if number % EDITED == 0:
            line, text = line._replace(octets=mutated(source, line.octets)), None
        yield line._replace(imsi=insert.imsi), text


def kept_dump(path):
    """The lines of a dump in a file. It is not known what they were written of."""
    lines = [text.split(",") for text in Path(path).read_text().splitlines()]
    return [(Line(updates.OPERATIONS[updates.Insert], imsi, bytes.fromhex(digits)), None) for imsi, digits in lines]


def faults_of(told):
    """The faults by the numbers of their lines. What is no line of a dump comes before them."""
    first = [f"camel_map_check: line {number} is no IMSI,HEX" for number, _ in enumerate(NO_LINES, 1)]
    assert told[: len(first)] == first
    found = [re.fullmatch("camel_map_check: line ([0-9]+): (fault .*)", text) for text in told[len(first) :]]
    assert all(found), f"of a line of a dump is said {told[len(first) + found.index(None)]}"
    return {int(fault[1]): fault[2] for fault in found}


def restored_texts(lines):
    """What the script that restores the lines has of each behind its Register, and what came beside it; or the fault of
    the line. The script is replayed."""
    dump = [*NO_LINES, *(f"{line.imsi},{line.octets.hex()}" for line in lines)]
    ended = run(CHECK, "--restore", octets="".join(f"{text}\n" for text in dump).encode())
    faults, script = faults_of(ended.stderr.decode().splitlines()), iter(ended.stdout.decode().splitlines())
    records = []
    for number, line in enumerate(lines, len(NO_LINES) + 1):
        assert number in faults or next(script, "nothing") == f"register,{line.imsi}", f"{line} in a dump"
        records.append(faults.get(number) or next(script, "nothing"))
    assert (ended.returncode, [*script]) == (2, []), "a dump with lines that are none"
    output_of([REPLAY], ended.stdout.decode())
    return with_lists(lines, records)
