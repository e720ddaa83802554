"""The records of a script, by docs/SCRIPT.md. The module csv of the standard library reads some octets otherwise."""

import re
from itertools import islice, pairwise

BYTE_ORDER_MARK = b"\xef\xbb\xbf"

# A field that is quoted up to a single quote and may go on after it, or that is not quoted, or that is empty; and what
# ends it.
FIELD = re.compile(rb'(?:"[^"]*(?:""[^"]*)*(?:"[^,\r\n]*)?|[^",\r\n][^,\r\n]*)?(,|\r\n?|\n|\Z)')

# Empty lines, which are no records, and the first octet of a record.
BEGINNING = re.compile(rb"([\r\n]*)[^\r\n]")


def starts(script):
    """Yields where each record begins, with the empty lines before it. The record itself is read with the next one."""
    start = len(BYTE_ORDER_MARK) if script.startswith(BYTE_ORDER_MARK) else 0
    while beginning := BEGINNING.match(script, start):
        yield start
        start = last_field(script, beginning.end(1)).end()


def last_field(script, start):
    """The last field of the record that begins here."""
    field = FIELD.match(script, start)
    while field[1] == b",":
        field = FIELD.match(script, field.end())
    return field


def records(script):
    """The octets of each record, with the empty lines before it and its end."""
    return [script[start:end] for start, end in pairwise([*starts(script), len(script)])]


def ended_records(script):
    """How many records have a line end. Of the last one it may be missing."""
    found = records(script)
    is_open = found and not last_field(found[-1], BEGINNING.match(found[-1]).end(1))[1]
    return len(found) - bool(is_open)


def octets_before(script, number):
    """The octets before the record of this number, counted from 1, or None if there are not so many records."""
    start = next(islice(starts(script), number - 1, None), None)
    return None if start is None else script[:start]
