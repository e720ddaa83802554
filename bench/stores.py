"""The store beside its peers: looks, publications, memory and registers, by the protocol of README.md.

The programs take turns, so that what else the machine does concerns them alike, and each figure is the least of all
turns. All sums are compared with those of the first program.
"""

import os
import statistics
import sys

from programs import SIZES, answer, drop_scripts, numbers_from, octets_held, rounded, script, stores
from workload import call_count

LOOKS = 1 << 21
PUBLICATIONS = {1: 20000, 10: 5000, 1000: 100}
REGISTERS = 1_000_000
HEAD = ("Subscribers", "Program", "A publication is seen", "ns a look", "4 readers to 1", "µs a publication of 1",
        "of 10", "of 1000", "octets a subscriber")


class Sums:
    """What the programs have to agree on: what the first one said of a request counts."""

    def __init__(self):
        self.first = {}
        self.faults = []

    def compare(self, program, request, sums):
        if sums != self.first.setdefault(request, sums):
            self.faults.append(f"{program.name}: other sums for {' '.join(map(str, request))}")


def run(program, sums, words, readers, rounds):
    """The nanoseconds of each reader, and those of the writer."""
    printed = answer([*program.command, "run", readers, rounds], script("run", *words))
    lines = [line.split() for line in printed.splitlines()]
    sums.compare(program, ("run", *words, readers, rounds), [line[2] for line in lines])
    return [int(line[1]) for line in lines[:-1]], int(lines[-1][1])


def check(program, sums):
    """Decisions behind each of many publications, and readers beside a writer."""
    for words in (1000, 10, 100), (40, 7, 400):
        printed = answer([*program.command, "each"], script("check", *words))
        sums.compare(program, ("check", *words), [line.split()[1] for line in printed.splitlines()])
    run(program, sums, (1000, 10, 2000), 2, 20)


def figures_of(program, known, sums):
    """What one turn measures."""
    calls = call_count(known)
    rounds = max(1, LOOKS // calls)
    (one,), _ = run(program, sums, (known, 0, 0), 1, rounds)
    four, _ = run(program, sums, (known, 0, 0), 4, rounds)
    figures = {"look": one / (rounds * calls)}
    figures["look of four"] = 1 / sum(rounds * calls / nanoseconds for nanoseconds in four)
    for batch, publications in PUBLICATIONS.items():
        _, nanoseconds = run(program, sums, (known, batch, publications), 0, 0)
        figures[batch] = nanoseconds / publications / 1000
    empty, full = (octets_held([*program.command, "run", 0, 0], script("data", count)) for count in (1, known))
    figures["octets"] = (full - empty) / known
    return figures


def row(program, known, least):
    """The figures of a program, with how many times the least of the peers each is."""
    own = least[program]

    def beside(what):
        peers = [figures[what] for peer, figures in least.items() if peer.is_peer]
        return f"{rounded(own[what])} ({own[what] / min(peers):.2f})" if peers else rounded(own[what])

    cells = [known, program.name, program.seen, beside("look"), rounded(own["look"] / own["look of four"])]
    return [*cells, *map(beside, (*PUBLICATIONS, "octets"))]


def print_row(cells):
    print(f"| {' | '.join(map(str, cells))} |", flush=True)


def registers(program):
    """How many medians the slowest register takes, each the least of six runs."""
    path = script("registers", REGISTERS)
    turns = []
    for _ in range(6):
        printed = answer([*program.command, "each"], path)
        turns.append([int(line.split()[0]) for line in printed.splitlines()])
    least = [min(times) for times in zip(*turns)]
    return max(least) / statistics.median(least)


def measure():
    programs, turns, sums = stores(), numbers_from("TURNS", "5")[0], Sums()
    for program in programs:
        check(program, sums)
    print_row(HEAD)
    print_row(["---"] * len(HEAD))
    for known in numbers_from("SIZES", SIZES):
        least = {}
        for number in range(turns):
            print(f"{known} subscribers, turn {number + 1} of {turns}", file=sys.stderr)
            for program in programs:
                figures = figures_of(program, known, sums)
                before = least.get(program, figures)
                least[program] = {what: min(figure, before[what]) for what, figure in figures.items()}
        for program in programs:
            print_row(row(program, known, least))
        drop_scripts()
    for program in programs:
        if program.name == "camel_vlr" and not os.environ.get("SIZES"):
            print(f"The slowest of {REGISTERS} registers takes {registers(program):.1f} medians.")
    drop_scripts()
    print("\n".join(sums.faults) or "All programs gave the same sums.")
    return 1 if sums.faults else 0
