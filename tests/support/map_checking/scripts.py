"""Random scripts, and the same scripts after their updates went through octets and back."""

import random

from support.map_checking.programs import CHECK, REPLAY, answers_of, output_of
from wenqolo.drawn.lines import line_of
from wenqolo.drawn.scripts import draw_records, text_of
from wenqolo.drawn.styles import STYLES
from wenqolo.drawn.updates import draw_imsi

RECORDS, SUBSCRIBERS = 40, 3


def both_scripts(source):
    """A script, and the same one with the records that the program reads of the octets of its updates."""
    imsis = [draw_imsi(source) for _ in range(SUBSCRIBERS)]
    records = [f"register,{imsi}" for imsi in imsis] + draw_records(source, imsis, RECORDS)
    style = source.choice([*STYLES.values()])
    lines = [line_of(source, record, style) for record in records if not isinstance(record, str)]
    answers = iter(answers_of([CHECK], lines))
    through = [record if isinstance(record, str) else next(answers) for record in records]
    return "\n".join(map(text_of, records)) + "\n", "\n".join(through) + "\n"


def check_script(seed, number):
    """Compares what both scripts leave. Returns how many lines trigger a service."""
    plain, through = both_scripts(random.Random(f"{seed} script {number}"))
    left, right = output_of([REPLAY], plain), output_of([REPLAY], through)
    assert left == right, (f"script {number} of seed {seed} leaves other lines after its updates went through octets:\n"
                           f"{plain}-- and with the records that were read:\n{through}")
    return sum(" trigger " in line for line in left.splitlines())
