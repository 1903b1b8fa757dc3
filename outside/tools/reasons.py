"""Why an instance has no plan, as far as plain arithmetic tells."""
from collections import namedtuple

from tools.loads import as_there
from tools.units import units_of

# One line, whether it proves that there is no plan, the customer that it is of, or None, and whether times say it.
Reason = namedtuple("Reason", "told proves customer is_timed", defaults=(False,))


def earliest(instance):
    """By the place of a customer when its service can begin at the earliest, by any way over other customers; told,
    too, where that is past the due date. The earliest one is gone on from first: nobody comes earlier who leaves
    later. Loads don't count, so no vehicle begins earlier than this."""
    begin = [None] + [max(instance.ready(0) + instance.arc[0][i], instance.ready(i))
                      for i in range(1, instance.count + 1)]
    rest = set(range(1, instance.count + 1))
    while rest:
        i = min(rest, key=lambda at: (begin[at] > instance.due(at), begin[at]))
        if begin[i] > instance.due(i):
            break
        rest.remove(i)
        leave = begin[i] + instance.service(i)
        for j in rest:
            begin[j] = min(begin[j], max(leave + instance.arc[i][j], instance.ready(j)))
    return begin


def latest(instance):
    """By the place of a customer when its service has to begin at the latest, by any way home over other customers and
    by its due date; below its ready time where no way is in time."""
    begin = [None] + [alone_by(instance, i) for i in range(1, instance.count + 1)]
    rest = set(range(1, instance.count + 1))
    while rest:
        j = max(rest, key=lambda at: (begin[at] >= instance.ready(at), begin[at]))
        if begin[j] < instance.ready(j):
            break
        rest.remove(j)
        for i in rest:
            by = begin[j] - instance.arc[i][j] - instance.service(i)
            begin[i] = max(begin[i], min(by, instance.due(i)))
    return begin


def alone_by(instance, i):
    """When service has to begin at the latest where the vehicle goes home from there."""
    return min(instance.due(i), instance.due(0) - instance.arc[i][0] - instance.service(i))


class Words:
    """How customers, times and demands are told: by numbers, or as a table of names has them."""

    def __init__(self, instance, names=None):
        self.names, self.units, self.there = names, units_of(names), as_there(instance, names)

    def customer(self, i):
        return "customer %d" % i if self.names is None else self.names.called(i)

    def moment(self, tenths):
        """A moment, which may lie before the day."""
        return "before the day" if self.units.clock and tenths < 0 else self.units.moment(tenths)


def heavy(instance, words):
    """Customers whose demand no vehicle holds."""
    for i in range(1, instance.count + 1):
        if instance.demand(i) > instance.capacity:
            own, most = (words.units.load(load) for load in (words.there.demand(i), words.there.capacity))
            yield Reason("%s can't be served: met a demand of %s, wanted at most %s, which a vehicle holds" % (
                words.customer(i), own, most), True, i)


def late(instance, words):
    """Customers that a vehicle of their own can't serve in time. Arcs are truncated, so a way over other customers may
    be shorter; where none is in time either, there is no plan."""
    at, by = earliest(instance), latest(instance)
    for i in range(1, instance.count + 1):
        alone = max(instance.ready(0) + instance.arc[0][i], instance.ready(i))
        if alone <= alone_by(instance, i):
            continue
        proves = at[i] > by[i]
        yield Reason("%s can't be served alone: met a service that begins at %s, wanted by %s; over other customers it "
                     "%s: met %s, wanted by %s" % (
                         words.customer(i), words.moment(alone), words.moment(alone_by(instance, i)), "can't either"
                         if proves else "may be, so this proves nothing", words.moment(at[i]), words.moment(by[i])),
                     proves, i, True)


def too_much(instance, words):
    """All demands together, where the fleet doesn't hold them: as they were before some had none, which proves it,
    too, since parts that are cut to whole ones are together no more than their sum cut so."""
    units, whole = words.units, sum(row[2] for row in words.there.rows)
    if sum(units.whole(row[2]) for row in instance.rows) > instance.fleet * units.whole(instance.capacity):
        yield Reason("the fleet can't serve all: met a demand of %s, wanted at most %s, which %s" % (
            units.load(whole), units.room(words.there.capacity, instance.fleet),
            "1 vehicle holds" if instance.fleet == 1 else "%d vehicles hold" % instance.fleet), True, None)


def reasons(instance, names=None):
    """All reasons, those of single customers first, told by numbers or as a table of names has them."""
    words = Words(instance, names)
    return [*heavy(instance, words), *late(instance, words), *too_much(instance, words)]


def proofs_of(instance, names=None):
    """The reasons that prove that there is no plan."""
    return [reason for reason in reasons(instance, names) if reason.proves]
