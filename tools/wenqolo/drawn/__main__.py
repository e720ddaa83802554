"""Prints random MAP arguments of InsertSubscriberData, DeleteSubscriberData and CancelLocation, one a line, as
OPERATION,IMSI,HEX: the IMSI is that of the dialogue, or empty, and the octets are in hexadecimal. They are written
straight from the types of TS 29.002, by no code of the crates. This tool is tested, and not proved.
"""

import argparse
import random

from wenqolo.drawn.lines import drawn_line, mutated_line
from wenqolo.drawn.styles import STYLES
from wenqolo.updates import record_of

EPILOG = """
styles: minimal      the shortest lengths
        lengths      longer lengths than needed, of up to four octets
        indefinite   indefinite lengths
        extensions   fields of other data, extension containers, and fields that no version has
        mixed        all of these, and fields in any order

The same seed gives the same arguments. With --records the lines are the records of a script that the arguments decode
to. With --mutate the arguments have random edits: other bits, cut off or put in octets, other lengths, fields that come
twice or in the place of others.
"""


def main():
    parser = argparse.ArgumentParser(prog="python3 -m wenqolo.drawn", description=__doc__, epilog=EPILOG,
                                     formatter_class=argparse.RawDescriptionHelpFormatter)
    parser.add_argument("--seed", type=int, default=1, help="1 if it is not given")
    parser.add_argument("--count", type=int, default=10, help="of lines, 10 if it is not given")
    parser.add_argument("--style", choices=[*STYLES, "all"], default="all", help="each in turn if it is not given")
    kind = parser.add_mutually_exclusive_group()
    kind.add_argument("--records", action="store_true", help="print the records that the arguments decode to")
    kind.add_argument("--mutate", action="store_true", help="print arguments with random edits")
    given = parser.parse_args()
    names = [*STYLES] if given.style == "all" else [given.style]
    for number in range(given.count):
        source = random.Random(f"{given.seed} {number}")
        update, line = drawn_line(source, STYLES[names[number % len(names)]])
        if given.records:
            print(record_of(update))
        else:
            print(mutated_line(source, line) if given.mutate else line)


if __name__ == "__main__":
    main()
