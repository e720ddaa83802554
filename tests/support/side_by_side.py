"""Checks of many items, on all cores."""

import os
import signal
from concurrent.futures import ProcessPoolExecutor
from multiprocessing import get_context


def end_at_interrupt():
    """Has Ctrl-C end this process: one of a pool would take it for the fault of an item, and go on with the next."""
    signal.signal(signal.SIGINT, signal.SIG_DFL)


def side_by_side(check, items, chunksize=1):
    """Yields what the check returns of each item, in their order. It ends with the first item that fails."""
    cores = len(os.sched_getaffinity(0))
    with ProcessPoolExecutor(cores, get_context("fork"), initializer=end_at_interrupt) as pool:
        yield from pool.map(check, items, chunksize=chunksize)


def chunks_of(count, size):
    """The numbers below a count, as many at a time as a worker takes."""
    return [range(start, min(start + size, count)) for start in range(0, count, size)]
