"""The programs that are checked: camel_map_check, which reads arguments, and camel_replay."""

from pathlib import Path

from support.processes import run

CHECK, REPLAY = (Path(__file__).resolve().parents[3] / f"crates/{name}/out/{name}"
                 for name in ("camel_map_check", "camel_replay"))


def output_of(command, text):
    """What a program writes of a text. It is to end with status 0 and to say nothing else."""
    ended = run(*command, octets=text.encode())
    said = ended.stderr[-200:].decode(errors="replace")
    assert not ended.returncode and not said, f"{command[0]} ends with status {ended.returncode}: {said}"
    return ended.stdout.decode()


def answers_of(command, lines):
    """What the program answers to each line."""
    try:
        answers = output_of(command, "".join(f"{line}\n" for line in lines)).splitlines()
    except AssertionError as fault:
        if len(lines) == 1:
            raise AssertionError(f"{lines[0]}\n  {fault}") from None
        # Each by itself, so that the line at which the program ends is named.
        return [answer for line in lines for answer in answers_of(command, [line])]
    assert len(answers) == len(lines), f"{command} answers {len(lines)} lines with {len(answers)}"
    return answers


def with_lists(lines, records):
    """The records that lines are read as, each with what came beside it, or the faults of the lines."""
    lists = answers_of([CHECK, "--lists"], lines)
    return [record if record == listed else f"{record} {listed}" for record, listed in zip(records, lists)]


def texts_of(lines):
    """The record that each line is read as, and what came beside it; or the fault of the line."""
    return with_lists(lines, answers_of([CHECK], lines))
