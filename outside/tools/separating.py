"""Sets of customers that the flow of some routes enters less often than they need: by growth along the flow and from
what is near for loads, by beams for time. What it misses costs height of a bound alone."""
from reference.needs import MOST_TIMED, need

# How far below its need a set has to be entered, and how many sets are taken at once.
SHORT, MOST_SETS = 0.05, 25
# How many sets of each size a beam keeps, how many customers each is tried with, how many sets are asked for their
# need by time at once, and how many growths from each customer are drawn beside the plain one.
BEAM, WIDE, MOST_ASKED, GROWTHS = 25, 5, 400, 2


class Flow:
    """How much flows between customers, both ways together, and how much a set is entered."""

    def __init__(self, instance, routes):
        """By routes with their shares."""
        self.instance, numbers = instance, range(instance.count + 1)
        self.between = [[0.0] * (instance.count + 1) for _ in numbers]
        for share, route in routes:
            for i, j in zip(route, route[1:]):
                self.between[i][j] += share
                self.between[j][i] += share

    def to(self, i, customers):
        return sum(self.between[i][j] for j in customers)

    def entries(self, customers):
        """How often a set is entered where each customer is served once."""
        return len(customers) - sum(self.to(i, customers) for i in customers) / 2

    def by_load(self, customers):
        return -(-sum(self.instance.demand(i) for i in customers) // self.instance.capacity)


class Separating:
    """Finds sets; needs that were found are remembered."""

    def __init__(self, instance, random):
        self.instance, self.random, self.needs, self.taken = instance, random, {}, set()
        self.near = [sorted(range(1, instance.count + 1), key=lambda j: (j != i, instance.arc[i][j], j))
                     for i in range(instance.count + 1)]

    def sets(self, routes):
        """Sets with their needs, those furthest below theirs first, and none much like one before."""
        flow, found = Flow(self.instance, routes), {}
        for customers in self.heavy(flow):
            self.note(found, customers, flow.by_load(customers), flow.entries(customers))
        self.note_late(found, flow)
        chosen = []
        for customers, (short, needs) in sorted(found.items(), key=lambda one: (-one[1][0], sorted(one[0]))):
            if all(len(customers ^ other) > 1 for other, _ in chosen) and len(chosen) < MOST_SETS:
                chosen.append((customers, needs))
        self.taken |= {customers for customers, _ in chosen}
        return chosen

    def note(self, found, customers, needs, entries):
        if needs - entries > SHORT and customers not in self.taken and len(customers) > 1:
            found[customers] = (needs - entries, needs)

    def heavy(self, flow):
        """Sets that may be too heavy: grown from each customer, those next to it, and what flows together."""
        for i in range(1, self.instance.count + 1):
            for growth in range(1 + GROWTHS):
                yield from self.grown(flow, i, 0.3 * growth)
            for size in range(2, self.instance.count + 1):
                yield from self.shrunk(flow, frozenset(self.near[i][:size]))
        together = self.together(flow)
        for place, one in enumerate(together):
            yield from self.shrunk(flow, one)
            for other in together[:place]:
                yield from self.shrunk(flow, one | other)

    def grown(self, flow, first, by_chance):
        """Sets that grow by the customer to which most flows, as chance makes it more."""
        customers = frozenset([first])
        rest = set(range(1, self.instance.count + 1)) - customers
        flows = {i: flow.between[first][i] for i in rest}
        while len(rest) > 1:
            best = max(rest, key=lambda i: flows[i] * (1 + by_chance * self.random.random())
                       - 1e-7 * self.instance.arc[first][i])
            rest.remove(best)
            customers |= {best}
            for i in rest:
                flows[i] += flow.between[best][i]
            yield customers

    def shrunk(self, flow, customers):
        """A set, and those that come of it where who lowers its entries most goes, as long as it needs as much."""
        needs, entries = flow.by_load(customers), flow.entries(customers)
        yield customers
        while needs - entries > -1 and len(customers) > 2:
            gain, one = max((1 - flow.to(i, customers), -i) for i in customers)
            if gain <= 0 or flow.by_load(customers - {-one}) < needs:
                return
            customers, entries = customers - {-one}, entries - gain
            yield customers

    def together(self, flow):
        """The parts that hang together by a flow of at least so much."""
        found = set()
        for least in (1e-6, 0.3, 0.7):
            rest = set(range(1, self.instance.count + 1))
            while rest:
                part, added = set(), {min(rest)}
                while added:
                    part |= added
                    added = {j for j in rest - part if any(flow.between[i][j] >= least for i in added)}
                rest -= part
                if len(part) > 1:
                    found.add(frozenset(part))
        return sorted(found, key=sorted)

    def note_late(self, found, flow):
        """Sets that one vehicle holds and hasn't time for, from beams."""
        met = {customers: entries for i in range(1, self.instance.count + 1)
               for customers, entries in self.beam(flow, i)}
        # Those of many customers take long, and are seldom entered little enough.
        new = sorted((entries + 0.05 * len(customers), sorted(customers)) for customers, entries in met.items()
                     if customers not in self.needs)
        for _, customers in new[:MOST_ASKED]:
            self.needs[frozenset(customers)] = need(self.instance, customers)
        for customers, entries in met.items():
            if customers in self.needs:
                self.note(found, customers, self.needs[customers], entries)

    def beam(self, flow, first):
        """Sets of each size from a customer on, those that are entered least."""
        sets = {frozenset([first]): 1.0}
        for _ in range(MOST_TIMED - 1):
            wider = {}
            for customers, entries in sets.items():
                flows = sorted(((flow.to(j, customers), j) for j in range(1, self.instance.count + 1)
                                if j not in customers), reverse=True)
                for more, j in flows[:WIDE]:
                    if more > SHORT and entries + 1 - more < 2 - SHORT:
                        wider[customers | {j}] = entries + 1 - more
            best = sorted(wider.items(), key=lambda one: (one[1], sorted(one[0])))[:BEAM]
            sets = {customers: entries for customers, entries in best if flow.by_load(customers) == 1}
            yield from sets.items()
