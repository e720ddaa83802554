"""Random arguments, and what each is compared with."""

import random
from collections import Counter

from support.map_checking import dissection
from support.map_checking.classes import classes_of
from support.map_checking.dumped import drawn_dump, restored_texts
from support.map_checking.encoded import encoded_lines, sent_update
from support.map_checking.programs import texts_of
from wenqolo.decoder import answer
from wenqolo.drawn.lines import drawn_line, mutated_line
from wenqolo.drawn.styles import STYLES
from wenqolo.updates import text_of

# As the tools write them, with edits, as the encoder makes them of the written ones, and as a dump has them.
KINDS = ("written", "edited", "encoded", "dumped")


def drawn_lines(seed, kind, numbers):
    """The lines of these numbers, with the texts that they were written of, or with None if they have edits."""
    if kind == "dumped":
        return [*drawn_dump(seed, numbers)]
    styles, sources = [*STYLES.values()], [random.Random(f"{seed} {number}") for number in numbers]
    drawn = [drawn_line(source, styles[number % len(styles)]) for number, source in zip(numbers, sources)]
    if kind == "edited":
        return [(mutated_line(source, line), None) for source, (_, line) in zip(sources, drawn)]
    if kind == "encoded":
        return [*zip(encoded_lines(drawn), (text_of(sent_update(update)) for update, _ in drawn))]
    return [(line, text_of(update)) for update, line in drawn]


def kind_of(text):
    """The word of a record, or the number of a fault."""
    return text.rpartition(" ")[0] if text.startswith("fault") else text.partition(",")[0]


def compared(line, text, read, reading):
    """The classes of what a line leaves, unless it differs."""
    modelled, rule = answer(line)
    assert text in (None, read), f"{line}\n  is read as {read}\n  and was written of {text}"
    assert read == modelled, f"{line}\n  is read as {read}\n  and by the rules as {modelled} ({rule})"
    classes, marks = classes_of(line, read, rule, reading), ", ".join(sorted(reading.marks)) or "none"
    assert classes is not None, (f"{line}\n  is read as {read} ({rule})\n  and by tshark as {reading.text} with the "
                                 f"marks {marks}, which nothing explains")
    return classes


def check_lines(kind, drawn):
    """Compares lines. Returns counts of answers, of classes, and the differences."""
    lines, texts = zip(*drawn)
    reads = restored_texts(lines) if kind == "dumped" else texts_of(lines)
    kinds, classes, differences = Counter(), Counter(), []
    for line, text, read, reading in zip(lines, texts, reads, dissection.read(lines)):
        kinds[kind_of(read)] += 1
        try:
            classes.update(compared(line, text, read, reading) or ["as tshark"])
        except AssertionError as difference:
            differences.append(str(difference))
    return kinds, classes, differences


def check_chunk(seed, kind, numbers):
    """Compares the lines of these numbers."""
    return check_lines(kind, drawn_lines(seed, kind, numbers))
