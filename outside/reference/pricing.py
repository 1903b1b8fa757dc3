"""The values of a tree's leaves by labels, faster than `bounding.py` finds them: sets are words of bits, and labels
that can't lead to the least reduced cost stay where they are."""
from heapq import heappop, heappush

from reference.bounding import Region, leaf_grains, neighbour_lists, paid_by_steps
from reference.rows import is_remembered, rows_in

# How many labels a leaf may have, unless more are allowed.
MOST_LABELS = 200_000

# How many slots of time there may be; with more, none are made.
MOST_SLOTS = 400

NEVER, ALWAYS = float("inf"), -float("inf")


class TooMany(Exception):
    """A leaf has more labels than may be kept."""


class Pricing:
    """What all leaves of a tree have in common: neighbour lists as bits, the tree's version, and how many labels a leaf
    may have."""

    def __init__(self, instance, neighbours, version, most_labels=MOST_LABELS):
        self.instance, self.version, self.most_labels = instance, version, most_labels
        self.lists = neighbour_lists(instance, neighbours)
        self.bits = [sum(1 << u for u in near) for near in self.lists]
        self.slot = min((instance.service(i) + instance.arc[i][j] for i in range(1, instance.count + 1)
                         for j in range(1, instance.count + 1) if i != j), default=instance.due(0) + 1)

    def value(self, region, prices, priced=(), most=None):
        """A leaf's value in tenths, by the definition, or that many at most, where a number is given: then only what
        may make it less is looked at. None where it has too many labels."""
        most = self.instance.ceiling() + 1 if most is None else min(most, self.instance.ceiling() + 1)
        try:
            found = self.least(region, prices, priced, self.limit(region, prices, priced, most))
        except TooMany:
            return None
        grains = leaf_grains(self.instance, prices, priced, self.version, found)
        return min(most, max(0, -(-grains // 1000)))

    def limit(self, region, prices, priced, most):
        """The least reduced cost with which a leaf's value is so many tenths or more; above all where there is none,
        and where it isn't known that there is a relaxed route."""
        spare = leaf_grains(self.instance, prices, priced, self.version, 0) - 1000 * (most - 1) - 1
        if spare >= 0:
            return -(spare // self.instance.fleet)
        routes = self.instance.fewest_routes() if self.version == 2 else 0
        return -(spare // routes) if routes and self.serves_one(region) else NEVER

    def serves_one(self, region):
        """Whether some customer may be served alone."""
        instance = self.instance
        for i in range(1, instance.count + 1):
            begin = max(instance.ready(0) + instance.arc[0][i], instance.ready(i))
            if (region.allows(0, i) and region.allows(i, 0) and instance.demand(i) <= instance.capacity
                    and begin <= instance.due(i)
                    and begin + instance.service(i) + instance.arc[i][0] <= instance.due(0)):
                return True
        return False

    def least(self, region, prices, priced=(), limit=NEVER):
        """The least reduced cost over all relaxed routes, or None; the limit, if there is one, where none costs
        less."""
        return self.cheapest(region, prices, priced, False, limit)[0]

    def cheapest(self, region, prices, priced=(), keeps_routes=True, limit=NEVER):
        """The least reduced cost over all relaxed routes, or None, and routes that were met, with theirs: stops are
        linked, the last one first, where routes are to be kept. The label that may lead to the least cost is taken
        first, so that the search is over where none may lead below the route found, or below the limit."""
        arc, ways, count = self.instance.arc, self.ways(region, prices, priced), 0
        floors, routes, rows = self.floors(region, ways), [], Rows(self.instance.count, rows_in(priced), self.lists)
        held, found = [[] for _ in arc], limit
        waiting = [(ALWAYS, 0, self.instance.ready(0), 0, 0, 0, 0, ())]
        while waiting:
            least, load, begin, cost, memory, bits, at, stops = heappop(waiting)
            if least >= found:
                break
            if at and (load, begin, cost, memory, bits) not in held[at]:
                continue
            leave = begin + self.instance.service(at)
            if at and region.allows(at, 0) and leave + arc[at][0] <= self.instance.due(0):
                found = min(found, cost + 1000 * arc[at][0])
                if keeps_routes:
                    routes.append((cost + 1000 * arc[at][0], stops))
            for j, length, spent in ways[at]:
                start = max(leave + length, self.instance.ready(j))
                more = load + self.instance.demand(j)
                if memory >> j & 1 or more > self.instance.capacity or start > self.instance.due(j):
                    continue
                now = cost + spent + rows.price(bits & rows.here[j])
                least = now + self.floor(floors, at, j, start)
                label = (more, start, now, memory & self.bits[j] | 1 << j, (bits ^ rows.here[j]) & rows.kept[j])
                if least < found and self.keep(held[j], label, rows):
                    heappush(waiting, (least, *label, j, (j, stops) if keeps_routes else stops))
                    count += 1
                    if count > self.most_labels:
                        raise TooMany
        return None if found == NEVER else found, routes

    def floors(self, region, ways):
        """For each stop and slot of time what it costs at least to come home from there, if service begins at the
        slot's beginning or later: whatever the load and the stops before, but for one. With it the stop that comes next
        then, and what it costs where another one does. A step takes a slot at least, so the last slot comes first."""
        slots = max(row[4] for row in self.instance.rows) // max(1, self.slot) + 1
        if self.slot == 0 or slots > MOST_SLOTS:
            return None
        ready, due = self.instance.ready, self.instance.due
        floors = [[None] * slots for _ in ways]
        for slot in reversed(range(slots)):
            begin = slot * self.slot
            for i in range(1, len(ways)):
                if begin + self.slot <= ready(i):
                    floors[i][slot] = floors[i][slot + 1]
                elif begin <= due(i):
                    floors[i][slot] = self.floor_from(region, ways, floors, i, max(begin, ready(i)))
        return floors

    def floor_from(self, region, ways, floors, i, begin):
        """What it costs at least to come home from a customer whose service begins at that time or later, with the stop
        that comes next, and what it costs where another one does."""
        instance, leave = self.instance, begin + self.instance.service(i)
        best, then, other = NEVER, 0, NEVER
        if region.allows(i, 0) and leave + instance.arc[i][0] <= instance.due(0):
            best = 1000 * instance.arc[i][0]
        for j, length, spent in ways[i]:
            start = max(leave + length, instance.ready(j))
            if start <= instance.due(j):
                cost = spent + self.floor(floors, i, j, start)
                if cost < best:
                    best, then, other = cost, j, best
                elif cost < other:
                    other = cost
        return best, then, other

    def floor(self, floors, at, j, start):
        """What it costs at least to come home from a customer that is served from then on, behind this stop."""
        if floors is None:
            return ALWAYS
        best, then, other = floors[j][start // self.slot]
        return other if then == at != 0 and self.bits[j] >> at & 1 else best

    def ways(self, region, prices, priced):
        """From each stop the customers that the region allows and that a vehicle may reach in time, with the length of
        the arc and what it costs in grains, less what the step pays."""
        arc, count, paid = self.instance.arc, self.instance.count, paid_by_steps(prices, priced)
        leave = [self.instance.ready(i) + self.instance.service(i) for i in range(count + 1)]
        return [[(j, arc[i][j], 1000 * arc[i][j] - paid[i][j]) for j in range(1, count + 1)
                 if leave[i] + arc[i][j] <= self.instance.due(j) and region.allows(i, j)] for i in range(count + 1)]

    def keep(self, held, label, rows):
        """Whether no label of the customer is as good as this one; those that are no better than it go. One is as good
        as another only if it costs less by the prices of the rows that have a bit in it alone."""
        load, time, cost, memory, bits = label
        for other in held:
            if (other[0] <= load and other[1] <= time and other[2] <= cost and other[3] & ~memory == 0
                    and other[2] + rows.price(other[4] & ~bits) <= cost):
                return False
        held[:] = [other for other in held if not (
            load <= other[0] and time <= other[1] and cost <= other[2] and memory & ~other[3] == 0
            and cost + rows.price(bits & ~other[4]) <= other[2])]
        held.append(label)
        return True


class Rows:
    """Rows that have a price, as bits by their places: those that each customer is one of, and those that are kept
    there."""

    def __init__(self, count, rows, lists):
        self.prices = [one.price for one in rows]
        self.here, self.kept = [0] * (count + 1), [0] * (count + 1)
        for place, one in enumerate(rows):
            for v in range(1, count + 1):
                self.here[v] |= (v in one.customers) << place
                self.kept[v] |= (v in one.customers or is_remembered(one, v, lists)) << place

    def price(self, bits):
        """What the rows whose bit is set cost together."""
        found = 0
        while bits:
            found += self.prices[(bits & -bits).bit_length() - 1]
            bits &= bits - 1
        return found


def leaves(count, tree):
    """The region and the prices of each leaf, and those of sets where the tree has them, in preorder."""
    rest = [(Region(count), tree)]
    while rest:
        region, tree = rest.pop()
        if tree[0] == "P":
            yield (region, *tree[1:])
        else:
            rest += [(region.unused(tree[1]), tree[3]), (region.used(tree[1]), tree[2])]
