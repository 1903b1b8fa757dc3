"""The values of leaves, by some processes at once: a leaf is told by its arcs, whether each is used, the line of its
prices, and the prices of sets and of rows with their numbers."""
import os
from collections import deque
from multiprocessing import Pool

from reference.bounding import PricedSet, Region
from reference.rows import PricedRow
from vrptw import end_with_parent

# How many leaves wait for each process at once, so that memory doesn't grow with the tree.
AHEAD = 4


class Valuer:
    """Finds values in a process; the sets and rows are those of the leaves' lists."""

    def __init__(self, pricing, sets, rows=()):
        self.pricing = pricing
        self.sets = [(frozenset(one.customers), one.need) for one in sets]
        self.rows = [frozenset(row) for row in rows]

    def priced(self, sets, rows=()):
        return (tuple(PricedSet(number, *self.sets[number - 1], price) for number, price in sets)
                + tuple(PricedRow(number, self.rows[number - 1], price) for number, price in rows))

    def value(self, task, most=None):
        """The value of a leaf, or this many tenths where it isn't less; None where it has too many labels."""
        arcs, is_used, line, sets, rows = task
        return self.pricing.value(region(self.pricing.instance.count, arcs, is_used), prices_of(line),
                                  self.priced(sets, rows), most)


def region(count, arcs, is_used):
    return Region(count, frozenset(arc for arc, used in zip(arcs, is_used) if used),
                  frozenset(arc for arc, used in zip(arcs, is_used) if not used))


def prices_of(line):
    return [int(word) for word in line.split(b" ")[1:]]


def begin(valuer):
    """Begins in a process, which ends with the one that started it."""
    end_with_parent()
    Valuers.here = valuer


class Valuers:
    """Processes that work on leaves, and what they answer in order; the one of a process stands in `here`."""
    here = None

    def __init__(self, valuer, jobs, most=1000):
        self.jobs = max(1, min(jobs or os.cpu_count() or 1, most))
        # The pool ends its processes where this one is broken off.
        self.pool = Pool(self.jobs, begin, (valuer,))

    def answers(self, work, tasks):
        """What work answers to each task, in order; no more wait at once than processes can soon take."""
        waiting = deque()
        for task in tasks:
            waiting.append(self.pool.apply_async(work, (task,)))
            if len(waiting) > AHEAD * self.jobs:
                yield waiting.popleft().get()
        while waiting:
            yield waiting.popleft().get()

    def end(self, is_whole=True):
        """Ends the processes, at once where the work was broken off."""
        if is_whole:
            # Each ends by itself: one that has just begun may lose the signal by which the pool would end it.
            self.pool.close()
            self.pool.join()
        else:
            self.pool.terminate()


def value_of(task):
    """The value of a leaf, by the process at work."""
    return Valuers.here.value(task)
