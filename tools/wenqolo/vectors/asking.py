"""How a program that speaks the two pipes is asked the steps of vectors, and what is said of its answers."""

import re
import select
import shlex
import subprocess
import time
from os import read

from wenqolo.vectors.records import Records, Untold

# So many seconds a program has for an answer and for its end, and so many steps are shown of each rule that failed.
LIMIT, SHOWN = 120, 3


class Failed(Exception):
    """A program does not answer, or does not end."""


def script_of(vectors):
    """The records of vectors, each with the step that it asks, or None. Each vector begins with no data, and what it
    changes is published before a call. A step that has no record is left out."""
    for vector in vectors:
        yield None, "clear"
        made = Records()
        for step in vector.steps:
            try:
                record = made.of(step)
            except Untold:
                continue
            if step.word == "call":
                yield None, "publish"
            yield step, record


def answer_in(line):
    """The answer that a line of a script's output is: without numbers of updates and fronts."""
    return re.sub(r"^(?:(accepted) \d+|front \d+ )", r"\1", line)


def command_of(program, profile):
    """A program needs to know of profiles only for vectors of profile 2."""
    return [*program, "--profile", "2"] if profile == 2 else program


def line_of(child):
    """The line of a child, which has LIMIT seconds for it."""
    octets, end = b"", time.monotonic() + LIMIT
    while not octets.endswith(b"\n"):
        if not select.select([child.stdout], [], [], max(0, end - time.monotonic()))[0]:
            raise Failed(f"no line came within {LIMIT} seconds")
        taken = read(child.stdout.fileno(), 4096)
        if not taken:
            raise Failed("the program has ended")
        octets += taken
    return octets.decode().strip()


def end(child):
    """Ends the input of a child, which has to end then."""
    child.stdin.close()
    try:
        child.wait(LIMIT)
    except subprocess.TimeoutExpired as fault:
        child.kill()
        raise Failed(f"{shlex.join(child.args)} goes on {LIMIT} seconds after the end of its input") from fault


def answers_between_pipes(program, profile, vectors):
    """The answers of a program by the places of their steps, record by record."""
    answers, command = {}, command_of(program, profile)
    with subprocess.Popen(command, stdin=subprocess.PIPE, stdout=subprocess.PIPE, bufsize=0) as child:
        for step, record in script_of(vectors):
            try:
                child.stdin.write(f"{record}\n".encode())
                line = line_of(child)
            except (BrokenPipeError, Failed) as fault:
                child.kill()
                raise Failed(f"{shlex.join(command)}, at the record {record}: {fault}") from fault
            if step:
                answers[step.place] = answer_in(line)
        end(child)
    return answers


def answers_of_model(make, vectors):
    """The answers of a model, which is made anew for each vector."""
    return {step.place: answer for vector in vectors for model in [make()]
            for step in vector.steps for answer in [model.answer(step)]}


def failed(vectors, answers):
    """The rules of the steps that are answered otherwise, each with these steps."""
    rules = {}
    for vector in vectors:
        for step in vector.steps:
            if answers.get(step.place, step.answer) != step.answer:
                rules.setdefault(vector.rule, []).append((vector, step))
    return rules


def report(vectors, answers):
    """The lines that say what failed, and how many steps were asked."""
    rules = failed(vectors, answers)
    for anchor, found in rules.items():
        for vector, step in found[:SHOWN]:
            yield f"{step.place}: {anchor}, {vector.name}: {answers[step.place]}, NOT {step.answer}"
        if len(found) > SHOWN:
            yield f"and {len(found) - SHOWN} more of {anchor}"
    untold = sum(step.place not in answers for vector in vectors for step in vector.steps)
    yield (f"{len(vectors)} vectors of {len({vector.rule for vector in vectors})} rules, {len(answers)} answers"
           + (f", {untold} steps that it can't be asked" if untold else "")
           + (f"; rules that failed: {' '.join(rules)}" if rules else ", each as expected"))
