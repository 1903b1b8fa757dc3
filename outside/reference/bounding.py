"""Relaxed routes, leaf values and the bounds of trees, by the definitions; with prices of sets and rows, too."""
from collections import namedtuple

from reference.needs import entries
from reference.rows import bit_after, charges, rows_in

# How many routes or labels are gone through for one leaf.
MOST_STEPS = 300_000


class TooLong(Exception):
    """A leaf has too many relaxed routes or labels for this program."""


class PricedSet(namedtuple("PricedSet", "number customers need price")):
    """A set of customers with its number in a list, what it needs, and the price at a leaf for each time that it is
    entered."""
    __slots__ = ()

    @property
    def worth(self):
        """What it brings to the value of a leaf, in grains."""
        return self.price * self.need


def sets_in(priced):
    """Of what has a price at a leaf the sets."""
    return [one for one in priced if isinstance(one, PricedSet)]


class Region:
    def __init__(self, count, required=frozenset(), forbidden=frozenset()):
        self.count, self.required, self.forbidden = count, required, forbidden

    def used(self, arc):
        return Region(self.count, self.required | {arc}, self.forbidden)

    def unused(self, arc):
        return Region(self.count, self.required, self.forbidden | {arc})

    def decided(self, arc):
        return arc in self.required or arc in self.forbidden

    def allows(self, i, j):
        if i == j or (i, j) in self.forbidden:
            return False
        for a, b in self.required:
            if (a, b) != (i, j) and (i != 0 and a == i or j != 0 and b == j):
                return False
        return True


def neighbour_lists(instance, neighbours):
    lists = [frozenset()]
    for v in range(1, instance.count + 1):
        others = sorted((u for u in range(1, instance.count + 1) if u != v), key=lambda u: (instance.arc[v][u], u))
        lists.append(frozenset([v] + others[:neighbours]))
    return lists


def least_by_routes(instance, region, prices, neighbours, priced=()):
    """The least reduced cost, by going through all relaxed routes one after the other; None if there is none."""
    lists, found = neighbour_lists(instance, neighbours), None
    stack, steps = [([], instance.ready(0), 0, 0)], 0
    while stack:
        steps += 1
        if steps > MOST_STEPS:
            raise TooLong
        route, time, load, cost = stack.pop()
        at = route[-1] if route else 0
        if route and region.allows(at, 0) and time + instance.arc[at][0] <= instance.due(0):
            whole = cost + 1000 * instance.arc[at][0]
            whole -= sum(one.price * entries(one.customers, route) for one in sets_in(priced))
            whole += sum(one.price * charges(one, route, lists) for one in rows_in(priced))
            found = whole if found is None else min(found, whole)
        for j in range(1, instance.count + 1):
            begin = max(time + instance.arc[at][j], instance.ready(j))
            if (not region.allows(at, j) or load + instance.demand(j) > instance.capacity or begin > instance.due(j)
                    or not forgets(route, j, lists)):
                continue
            stack.append((route + [j], begin + instance.service(j), load + instance.demand(j),
                          cost + 1000 * instance.arc[at][j] - prices[j - 1]))
    return found


def forgets(route, j, lists):
    """Between the last visit of j and its next one a stop's neighbour list doesn't hold j."""
    if j not in route:
        return True
    last = len(route) - 1 - route[::-1].index(j)
    return any(j not in lists[w] for w in route[last + 1:])


def paid_by_steps(prices, priced):
    """What each step pays, by its two rows: the price of the customer that it comes to, and of each set it enters."""
    paid = [[0] + list(prices) for _ in range(len(prices) + 1)]
    for one in sets_in(priced):
        for i, row in enumerate(paid):
            for j in one.customers if i not in one.customers else ():
                row[j] += one.price
    return paid


def least_by_labels(instance, region, prices, neighbours, priced=()):
    """The least reduced cost, by labels: one is dropped where another one with the same last stop has no greater
    time, load and cost, remembers nothing more, and has no bit of a row more."""
    lists, paid, found = neighbour_lists(instance, neighbours), paid_by_steps(prices, priced), None
    rows = rows_in(priced)
    buckets = [[] for _ in range(instance.capacity + 1)]
    held = [[] for _ in range(instance.count + 1)]
    buckets[0].append((0, instance.ready(0), 0, frozenset(), frozenset()))
    steps = 0
    for load in range(instance.capacity + 1):
        for at, time, cost, memory, bits in buckets[load]:
            steps += len(held[at])
            if steps > 4 * MOST_STEPS:
                raise TooLong
            if at and not any(label == (load, time, cost, memory, bits) for label in held[at]):
                continue
            if at and region.allows(at, 0) and time + instance.arc[at][0] <= instance.due(0):
                whole = cost + 1000 * instance.arc[at][0]
                found = whole if found is None else min(found, whole)
            for j in range(1, instance.count + 1):
                begin = max(time + instance.arc[at][j], instance.ready(j))
                more = load + instance.demand(j)
                if j in memory or not region.allows(at, j) or more > instance.capacity or begin > instance.due(j):
                    continue
                charged = sum(one.price for one in rows if one.number in bits and j in one.customers)
                label = (more, begin + instance.service(j), cost + 1000 * instance.arc[at][j] - paid[at][j] + charged,
                         (memory & lists[j]) | {j},
                         frozenset(one.number for one in rows if bit_after(one, one.number in bits, j, lists)))
                if any(dominates(other, label) for other in held[j]):
                    continue
                held[j] = [other for other in held[j] if not dominates(label, other)] + [label]
                buckets[more].append((j, *label[1:]))
    return found


def dominates(a, b):
    return all(one <= other for one, other in zip(a, b))


def leaf_grains(instance, prices, priced, version, found):
    """A leaf's value in grains, by the least reduced cost that was found; None where no route is relaxed."""
    found = 0 if found is None else found
    grains = sum(prices) + sum(one.worth for one in priced) + instance.fleet * min(0, found)
    return grains + instance.fewest_routes() * max(0, found) if version == 2 else grains


def leaf_value(instance, region, prices, neighbours, version, least, priced=()):
    found = least(instance, region, prices, neighbours, priced)
    return max(0, -(-leaf_grains(instance, prices, priced, version, found) // 1000))


def tree_bound(instance, region, tree, neighbours, version, least):
    """A tree is ("P", prices), ("P", prices, priced sets and rows) or ("S", arc, used, unused)."""
    if tree[0] == "P":
        value = leaf_value(instance, region, tree[1], neighbours, version, least, *tree[2:])
        return min(instance.ceiling() + 1, value)
    _, arc, used, unused = tree
    return min(tree_bound(instance, region.used(arc), used, neighbours, version, least),
               tree_bound(instance, region.unused(arc), unused, neighbours, version, least))
