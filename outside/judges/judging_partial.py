"""One search for who is served where not all can be: against all sets of up to nine customers, and of forty against
leaving them out one by one."""
from fractions import Fraction

from cases.edges import edge_words
from cases.random_texts import laid_out
from judges.kind import Kind, tools_by
from judges.running import demand
from reference.instances import Instance, read, walk
from tools.carrying import placed
from tools.choosing import Choice

MOST_CUSTOMERS = 9
# How many turns a search may take here.
MOST_TURNS = 500


def finishes(instance):
    """By the set of its customers, as bits, the least moment at which a vehicle is back that serves these in time."""
    at, found = {(1 << i - 1, i): max(instance.ready(0) + instance.arc[0][i], instance.ready(i))
                 for i in range(1, instance.count + 1)}, {}
    at = {key: begin for key, begin in at.items() if begin <= instance.due(key[1])}
    for served in range(1, 1 << instance.count):
        for last in [i for i in range(1, instance.count + 1) if (served, i) in at]:
            leaves = at[served, last] + instance.service(last)
            found[served] = min(found.get(served, leaves + instance.arc[last][0]), leaves + instance.arc[last][0])
            for i in [i for i in range(1, instance.count + 1) if not served >> i - 1 & 1]:
                begin = max(leaves + instance.arc[last][i], instance.ready(i))
                key = served | 1 << i - 1, i
                if begin <= instance.due(i) and begin < at.get(key, begin + 1):
                    at[key] = begin
    return found


def members(served):
    return [i + 1 for i in range(served.bit_length()) if served >> i & 1]


def servable(instance):
    """All sets of customers, as bits, that the fleet serves."""
    single = [served for served, back in finishes(instance).items() if back <= instance.due(0)
              and sum(instance.demand(i) for i in members(served)) <= instance.capacity]
    found, last = {0}, {0}
    for _ in range(min(instance.fleet, instance.count)):
        last = {one | other for one in last for other in single if not one & other} - found
        found |= last
    return found


def counts_of(served, priorities):
    """How many of each priority are served, the greatest first."""
    return [sum(priorities[i] == one for i in served) for one in sorted(set(priorities[1:]), reverse=True)]


def most_of(instance, priorities):
    """The best counts of all sets, and the most demand with these."""
    return max((counts_of(members(served), priorities), sum(instance.demand(i) for i in members(served)))
               for served in servable(instance))


def demand_routes(instance, routes):
    """Each route is in time within its load, no customer is twice in them; answers who is served."""
    served = [i for route in routes for i in route]
    demand(len(routes) <= instance.fleet and len(set(served)) == len(served), "routes %r" % routes)
    demand(all(walk(instance, route) for route in routes), "not in time or too heavy: %r" % routes)
    return served


def demand_no_room(instance, routes, left):
    """None of those that are left fits anywhere as the routes stand."""
    for i in left:
        longer = [route[:at] + [i] + route[at:] for route in routes for at in range(len(route) + 1)]
        longer += [[i]] if len(routes) < instance.fleet else []
        demand(not any(walk(instance, route) for route in longer), "%d is left out, and fits" % i)


def demand_most(instance, priorities, served):
    """At most one fewer is served than could be, of the greatest priority whose number isn't the most; answers how it
    stands to the most."""
    most, told = most_of(instance, priorities), counts_of(served, priorities)
    demand(told <= most[0], "%r are served, and at most %r can be" % (told, most[0]))
    if told == most[0]:
        weight = sum(instance.demand(i) for i in served)
        demand(weight <= most[1], "a demand of %d is served, and %d is the most" % (weight, most[1]))
        return "the most, and the most demand" if weight == most[1] else "the most, with less demand"
    own, other = next(pair for pair in zip(told, most[0]) if pair[0] != pair[1])
    demand(own >= other - 1, "%r are served, and %r can be" % (told, most[0]))
    return "one below the most"


def drawn_instance(random):
    """An instance with a fleet near the edge, or with so few vehicles that many are left out."""
    if random.randrange(4) == 0:
        return read(laid_out(random, edge_words(random, random.randint(1, MOST_CUSTOMERS))))
    wide, long = random.choice([10, 30, 100]), random.choice([20, 100, 300])
    rows = [(random.randrange(wide), random.randrange(wide), 0, 0, 10 * random.choice([250, 400]), 0)]
    most = random.choice([1, 5, 20])
    for _ in range(random.randint(5, MOST_CUSTOMERS)):
        ready = random.randrange(200)
        rows.append((random.randrange(wide), random.randrange(wide), random.randint(1, most), 10 * ready,
                     10 * (ready + random.randrange(long)), 10 * random.choice([0, 5, 10, 30])))
    fleet = random.randint(1, 3)
    load = sum(row[2] for row in rows) * random.choice([30, 50, 80, 120]) // (100 * fleet)
    return Instance(b"few", fleet, max(1, load), rows)


def drawn_priorities(random, count):
    """Priorities, of which many are alike, or all of them."""
    some = random.choice([[0], [0], [0, 1], [0, 0, 0, 5], [1, 2, 3], range(-9, 10)])
    return [0] + [random.choice(some) for _ in range(count)]


def left_one_by_one(instance):
    """How many are left where the first one that fits nowhere is left out, and all is built anew."""
    kept = list(range(1, instance.count + 1))
    while True:
        rows = [instance.rows[i] for i in [0] + kept]
        _, unfit = placed(Instance(b"some", instance.fleet, instance.capacity, rows))
        if not unfit:
            return instance.count - len(kept)
        del kept[unfit[0] - 1]


def judge_forty(random):
    """One search on forty customers in three vehicles of 40: no more are left than one by one."""
    rows = [(50, 50, 0, 0, 4800, 0)]
    for _ in range(40):
        ready = random.randrange(360)
        rows.append((random.randrange(100), random.randrange(100), random.randint(1, 9), 10 * ready,
                     10 * min(470, ready + random.choice([30, 60, 120])), 50))
    instance, turns = Instance(b"forty", 3, 40, rows), iter(range(MOST_TURNS))
    choice = Choice(instance)
    choice.search(lambda: next(turns, None) is None)
    served = demand_routes(instance, choice.routes())
    demand_no_room(instance, choice.routes(), choice.left)
    fewer = left_one_by_one(instance) - (40 - len(served))
    demand(fewer >= 0, "%d more are left than one by one" % -fewer)
    return "forty: %s" % ("fewer than one by one" if fewer else "as many as one by one")


def judge_partial(folder, random):
    """One search on up to nine customers, or now and then on forty."""
    if random.randrange(40) == 0:
        return judge_forty(random)
    instance = drawn_instance(random)
    priorities = drawn_priorities(random, instance.count)
    turns = iter(range(MOST_TURNS))
    choice = Choice(instance, (), [Fraction(one) for one in priorities])
    choice.search(lambda: next(turns, None) is None)
    routes = [route for route in choice.routes() if route]
    served = demand_routes(instance, routes)
    left = [i for i in range(1, instance.count + 1) if i not in served]
    demand(sorted(choice.left) == left, "left are %r, and it says %r" % (left, choice.left))
    demand_no_room(instance, routes, left)
    told = demand_most(instance, priorities, served)
    return told if left else "all are served"


KINDS = {
    "partial": Kind("who is served of up to 9 customers where not all can be: at most one below all subsets", 60,
                    tools_by(judge_partial)),
}
