"""What leaves an instance without a plan, as far as it shows before anything is solved."""
import heapq

from reference.instances import Instance
from tools.loads import as_there
from tools.reasons import earliest
from tools.tool import listed

# How many customers of a kind are named.
MOST_NAMED = 8


def ways_back(instance):
    """How long the way to the depot takes at least from the end of each customer's service, by any way."""
    found, rest, done = {}, [(0, 0)], set()
    while rest:
        time, at = heapq.heappop(rest)
        if at in done:
            continue
        done.add(at)
        for i in range(1, instance.count + 1):
            # The service of a customer on the way counts; that of the one where the way begins doesn't.
            way = instance.arc[i][at] + (time + instance.service(at) if at else 0)
            if way < found.get(i, way + 1):
                found[i] = way
                heapq.heappush(rest, (way, i))
    return found


def told(places, first):
    """A note on customers, each with its line, and what is said of the first one."""
    others = places[1:]
    return first + (", and so is it with %s %s" % (
        "customer" if len(others) == 1 else "customers", listed(others, MOST_NAMED)) if others else "")


def head(problem, i, field):
    """How a note on a customer begins, with the line of a field and the name where there is one."""
    name = "" if problem.names[i] == str(i) else ", %s" % problem.names[i]
    return "there is no plan: customer %d%s (line %d) " % (i, name, problem.rows[i][field].line)


def notes(problem):
    """Each reason why no plan serves all customers, with the line of the first one that it is of."""
    rows = [row[:3] + tuple(10 * time for time in row[3:]) for row in problem.rows]
    instance = Instance(problem.name.encode(), problem.fleet, problem.capacity, rows)
    everyone = range(1, instance.count + 1)
    arrivals, back = earliest(instance), ways_back(instance)
    finish = [0] + [arrivals[i] + instance.service(i) + back[i] for i in everyone]
    full = [i for i in everyone if instance.demand(i) > instance.capacity]
    late = [i for i in everyone if arrivals[i] > instance.due(i)]
    behind = [i for i in everyone if i not in late and finish[i] > instance.due(0)]
    units, there = problem.names.units, as_there(instance, problem.names)
    if full:
        yield told(full, head(problem, full[0], 2) + "has a demand of %s, and a vehicle holds %s" % (
            units.load(there.demand(full[0])), units.load(there.capacity)))
    if late:
        yield told(late, head(problem, late[0], 4) + "is reached at %s at the earliest, and is due at %s" % (
            units.moment(arrivals[late[0]]), units.moment(instance.due(late[0]))))
    if behind:
        yield told(behind, head(problem, behind[0], 4) + "lets a vehicle be back at %s at the earliest, and the depot "
                   "closes at %s" % (units.moment(finish[behind[0]]), units.moment(instance.due(0))))
    total = sum(there.demand(i) for i in everyone)
    is_much = units.whole(sum(map(instance.demand, everyone))) > instance.fleet * units.whole(instance.capacity)
    if not full and is_much:
        yield "there is no plan: the demands are %s together, and %s of %s hold%s %s" % (
            units.load(total), "1 vehicle" if instance.fleet == 1 else "%d vehicles" % instance.fleet,
            units.load(there.capacity), "s" if instance.fleet == 1 else "",
            units.room(there.capacity, instance.fleet))
