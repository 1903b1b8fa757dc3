"""Who is left out of a plan, why, and what would do: each change is tried before it is told."""
import copy
from collections import namedtuple

from reference.instances import is_plan, walk_times
from tools.choosing import Choice
from tools.dialects import dialect_of, spelled
from tools.loads import as_there
from tools.reasons import earliest, latest
from tools.touring import Tables, Tour

# One who is left out: the number, what it is called, and words for the table.
Row = namedtuple("Row", "number name demand ready due reason would_do")
# How many are told on a terminal.
MOST_TOLD = 10
# Vehicles that hold so much more of what the fleet has to hold are tried, in percent; and so many vehicles more.
MORE_ROOM, MORE_VEHICLES = (0, 2, 5, 10, 20, 35, 50, 75, 100), 4
MOST_CAPACITY, MOST_FLEET = 10_000, 1000


class LeftOut:
    """The customers that routes of an instance leave out; who is barred can't be served by any plan."""

    def __init__(self, instance, names, routes, barred):
        self.instance, self.names, self.units, self.barred = instance, names, names.units, set(barred)
        self.there = as_there(instance, names)
        self.tables, self.routes = Tables(instance), [list(route) for route in routes]
        self.tours = [Tour(self.tables, route) for route in self.routes]
        served = {i for route in routes for i in route}
        self.numbers = [i for i in range(1, instance.count + 1) if i not in served]
        # Their rows, and what would do for all of them, in words.
        self.rows = [self.row(i) for i in self.numbers]
        self.advice = []

    def is_heavy(self, i):
        return self.instance.demand(i) > self.instance.capacity

    def reason(self, i):
        """Why one isn't served, in a planner's words; of the plan that stands where no plan at all is at fault."""
        units, instance, there = self.units, self.instance, self.there
        if self.is_heavy(i):
            return "it takes %s, and a vehicle holds %s" % (units.load(there.demand(i)), units.load(there.capacity))
        if i in self.barred:
            at, by = self.bounds(i)
            return "a vehicle is there at %s at the earliest, and it is due at %s" % (
                units.moment(at), units.moment(instance.due(i))) if at > instance.due(i) else (
                "a vehicle begins there at %s at the earliest, and has to by %s to be back when the depot closes" % (
                    units.moment(at), units.moment(max(by, 0))))
        free = max([instance.capacity - tour.load for tour in self.tours], default=0)
        free = instance.capacity if len(self.tours) < instance.fleet else free
        if instance.demand(i) > free and not units.whole(free):
            return "it takes %s, and every vehicle is full" % units.load(there.demand(i))
        if instance.demand(i) > free and there.demand(i) <= self.free():
            return "it takes %s, which no vehicle has room for once loads are rounded" % units.load(there.demand(i))
        if instance.demand(i) > free:
            return "it takes %s, and the most that a vehicle has room for is %s" % (
                units.load(there.demand(i)), units.load(self.free()))
        return "no vehicle that has room for it can be there in time and serve its others in time"

    def free(self):
        """The most that a vehicle has room for, in loads of the table."""
        there = self.there
        loads = [sum(map(there.demand, route)) for route in self.routes]
        return there.capacity - min(loads if len(loads) == self.instance.fleet else [*loads, 0])

    def bounds(self, i):
        """When the service of one may begin at the earliest, and has to at the latest, by any ways."""
        return earliest(self.instance)[i], latest(self.instance)[i]

    def begins(self, i):
        """When a vehicle could begin at one in the plan that stands, whatever its due date: for each place that leaves
        the others in time."""
        instance, arc = self.instance, self.instance.arc
        tours = self.tours + ([self.tables.empty] if len(self.tours) < instance.fleet else [])
        for tour in tours:
            room = tour.load + instance.demand(i) <= instance.capacity
            ways = zip([0] + tour.stops, tour.stops + [0], tour.ends, tour.latest) if room else ()
            for place, (before, after, end, by) in enumerate(ways):
                begin = max(end + arc[before][i], instance.ready(i))
                if begin + instance.service(i) + arc[i][after] <= by:
                    yield begin, tour.stops[:place] + [i] + tour.stops[place:]

    def due_that_does(self, i):
        """The earliest due date by which one could be put back, in words, once that was tried; nothing where none
        is."""
        found = min(self.begins(i), default=None)
        if found is None:
            return ""
        step = 10 * self.units.scale if self.units.clock else 10
        due = -(-found[0] // step) * step
        other = changed(self.instance, rows={i: due})
        if due <= self.instance.due(i) or walk_times(other, found[1]) is None:
            return ""
        return "until %s" % self.units.moment(due)

    def row(self, i):
        units, instance = self.units, self.instance
        demand = units.load(self.there.demand(i)) if self.there.demand(i) >= units.visits else "a visit"
        return Row(i, self.names.called(i), demand, units.moment(instance.ready(i)), units.moment(instance.due(i)),
                   self.reason(i), self.due_that_does(i))

    def advise(self, is_over):
        """Finds what would do for all: vehicles more, vehicles that hold more, or for a single one a later due date."""
        self.advice = []
        if not self.barred:
            self.advice += self.tried(self.more_vehicles(), is_over)
        if all(self.is_heavy(i) for i in self.barred) and self.units.capacity is None:
            self.advice += self.tried(self.more_room(), is_over)
        if len(self.rows) == 1 and self.rows[0].would_do:
            self.advice.append("%s %s" % (self.rows[0].name, self.rows[0].would_do))

    def tried(self, changes, is_over):
        """The first change by which all are served, as a list of its words; empty where none was found in time."""
        for words, other in changes:
            if is_over():
                return []
            choice = Choice(other, self.routes)
            choice.search(is_over)
            if not choice.left and is_plan(other, choice.routes()):
                return [words]
        return []

    def more_vehicles(self):
        first = max(self.instance.fleet + 1, self.instance.fewest_routes())
        for fleet in range(first, min(first + MORE_VEHICLES, MOST_FLEET + 1)):
            yield "%d vehicles" % fleet, changed(self.instance, fleet=fleet)

    def more_room(self):
        """Vehicles that hold more, in whole units of the table, from what the fleet has to hold on."""
        instance, units, whole = self.instance, self.units, self.units.whole
        demands = [whole(instance.demand(i)) for i in range(1, instance.count + 1)]
        least, tried = max(-(-sum(demands) // instance.fleet), *demands), set()
        for more in MORE_ROOM:
            table = -(-least * (100 + more) // (100 * units.demands))
            capacity = table * units.demands * units.visits + units.visits - 1
            if instance.capacity < capacity <= MOST_CAPACITY and capacity not in tried:
                tried.add(capacity)
                yield "vehicles that hold %s" % units.load(capacity), changed(instance, capacity=capacity)

    def told(self):
        """Lines for a terminal: up to ten customers, and what would do."""
        rows = self.rows
        lines = ["Left out: %d customer%s." % (len(rows), "" if len(rows) == 1 else "s")]
        lines += ["  %s, %s, %s to %s: %s%s" % (row[1:6] + ("; %s would do" % row.would_do if row.would_do else "",))
                  for row in rows[:MOST_TOLD]]
        return lines + (["What would do: %s." % ", or ".join(self.advice)] if self.advice else [])

    def table(self):
        """The table for a spreadsheet."""
        rows = [list(Row._fields[1:])] + [list(row[1:]) for row in self.rows]
        return spelled([(rows, 0)], dialect_of(self.names))


def changed(instance, fleet=None, capacity=None, rows=None):
    """An instance with another fleet, another capacity, or other due dates of some customers."""
    other = copy.copy(instance)
    other.fleet, other.capacity = fleet or instance.fleet, capacity or instance.capacity
    other.rows = [row[:4] + ((rows or {}).get(i, row[4]),) + row[5:] for i, row in enumerate(instance.rows)]
    return other
