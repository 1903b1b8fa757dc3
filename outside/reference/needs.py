"""What sets of customers need, and how often a route enters one, by the definitions.

A route *enters* a set each time it goes from the depot or a customer outside it to one in it. So many times all routes
of a plan enter it at least, as the set *needs*:

- its demands over the capacity, rounded up;
- at least 2 where it has at most 10 customers and no order of them is in time on the quickest ways.

Arcs are truncated, so a way over other rows may be quicker than the arc. A route that serves others between two
customers takes no less than the quickest way.
"""
from functools import lru_cache

# How many customers a set may have for its need to ask whether one vehicle can serve all of them in time.
MOST_TIMED = 10


@lru_cache(1)
def quickest(instance):
    """From each row to each the length of the shortest way over any rows."""
    way = [list(row) for row in instance.arc]
    for over, rest in enumerate(way):
        for row in way:
            first = row[over]
            row[:] = [known if known < first + more else first + more for known, more in zip(row, rest)]
    return way


def is_in_time(instance, customers):
    """Whether some order of these customers meets each due date and the depot's, on the quickest ways, with waits and
    services."""
    way, stops, left = quickest(instance), sorted(customers), {}
    # By those served, as bits, and the last one of them: when it is left at the earliest.
    for served in range(1, 1 << len(stops)):
        for last, j in enumerate(stops):
            before = served & ~(1 << last)
            arrivals = [left[before, i] + way[stops[i]][j] for i in range(len(stops)) if (before, i) in left]
            if not before:
                arrivals = [instance.ready(0) + way[0][j]]
            begin = max(min(arrivals, default=instance.due(j) + 1), instance.ready(j))
            if served >> last & 1 and begin <= instance.due(j):
                left[served, last] = begin + instance.service(j)
    return any((served, last) in left and left[served, last] + way[j][0] <= instance.due(0)
               for last, j in enumerate(stops))


def need(instance, customers):
    """How many times the routes of a plan enter this set of customers at least."""
    by_load = -(-sum(instance.demand(i) for i in customers) // instance.capacity)
    if by_load >= 2 or len(customers) > MOST_TIMED:
        return by_load
    return 1 if is_in_time(instance, customers) else 2


def entries(customers, route):
    """How often a route enters this set of customers."""
    return sum(j in customers and i not in customers for i, j in zip([0] + list(route), route))
