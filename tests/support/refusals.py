"""Runs of a program that is refused memory: the first request of a run, in the next one the second, and so on."""

from collections import namedtuple

from support.processes import run

MOST = 2000

# What a run leaves, and how many requests it was refused.
Run = namedtuple("Run", "status output said refused")


def refuse(environment, command, **options):
    """A run in this environment of the fixture `refusing`."""
    done = run(*command, env=environment, **options)
    said = done.stderr.decode()
    return Run(done.returncode, done.stdout, said.replace("REFUSED\n", ""), said.count("REFUSED\n"))


def sweep(refusing, command, width=1, **options):
    """Yields the runs that are refused as many requests as the width, and at last the one that has no such request."""
    for first in range(1, MOST + 1):
        ended = refuse(refusing(first, first + width - 1), command, **options)
        yield ended
        if ended.refused == 0:
            return
    raise AssertionError(f"{command}: over {MOST} requests")
