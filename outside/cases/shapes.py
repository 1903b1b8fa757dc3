"""Few customers as random places rarely have them: at one moment, at one place, with many plans of equal cost, for one
vehicle."""
from math import isqrt

from cases.random_texts import HEAD, instance_words


def words_of(random, fleet, capacity, rows):
    """The words of an instance with these numbers in its rows, the depot's first."""
    words = ["c%d" % random.randrange(1000)] + list(HEAD)
    words[4], words[5] = str(fleet), str(capacity)
    return words + [str(number) for at, row in enumerate(rows) for number in [at] + list(row)]


def one_moment(random, count):
    """Windows of one moment, along drawn routes that end on the last moment or any time before: most have one plan,
    or none where the fleet is one short."""
    places = [(random.randrange(30), random.randrange(30)) for _ in range(count + 1)]
    rows, last, fleet, left = {}, 0, 0, random.sample(range(1, count + 1), count)
    while left:
        fleet, at, time = fleet + 1, 0, 0
        for number in [left.pop() for _ in range(random.randint(1, len(left)))]:
            time += way(places[at], places[number]) + random.choice([0, 0, 5])
            service = random.choice([0, 0, 7])
            rows[number] = places[number] + (1, time, time, service)
            at, time = number, time + service
        last = max(last, time + way(places[at], places[0]))
    depot = places[0] + (0, 0, last + random.choice([0, 0, 100]), 0)
    fleet = max(1, fleet - random.choice([0, 0, 0, 1]))
    return words_of(random, fleet, count, [depot] + [rows[number] for number in range(1, count + 1)])


def waiting(random, count):
    """Narrow windows along drawn routes, that open when a vehicle comes or a while later; and the routes."""
    places = [(random.randrange(30), random.randrange(30)) for _ in range(count + 1)]
    rows, routes, left, opens = {}, [], random.sample(range(1, count + 1), count), random.choice([0, 360])
    last = opens
    while left:
        routes.append([left.pop() for _ in range(random.randint(1, len(left)))])
        at, time = 0, opens
        for number in routes[-1]:
            ready = time + way(places[at], places[number]) + random.choice([-3, 0, 5, 20, 90])
            ready, service = max(0, ready), random.choice([0, 5, 7])
            rows[number] = places[number] + (1, ready, ready + random.choice([3, 10, 25, 100]), service)
            at, time = number, max(ready, time + way(places[at], places[number])) + service
        last = max(last, time + way(places[at], places[0]))
    depot = places[0] + (0, opens, last + random.choice([0, 0, 15, 300]), 0)
    return words_of(random, count, count, [depot] + [rows[number] for number in range(1, count + 1)]), routes


def way(a, b):
    """Whole units that suffice from one place to another one."""
    square = (a[0] - b[0]) ** 2 + (a[1] - b[1]) ** 2
    return 1 + isqrt(square - 1) if square else 0


def one_place(random, count):
    """Customers at few places, some at the depot's, that need no service."""
    spots = [(0, 0), (0, 0), (30, 40), (3, 4)]
    rows = [(0, 0, 0, 0, 1000, 0)] + [random.choice(spots[random.randrange(2):]) + (1, 0, 1000, 0)
                                      for _ in range(count)]
    return words_of(random, random.randint(1, count), random.randint(1, count), rows)


def ties(random, count):
    """A square grid around the depot without windows, so that many plans cost the same."""
    rows = [(1, 1, 0, 0, 1000, 0)] + [(random.randrange(3), random.randrange(3), random.choice([1, 1, 2]), 0,
                                       random.choice([1000, 1000, 6]), 0) for _ in range(count)]
    return words_of(random, random.randint(1, count + 1), random.randint(2, 5), rows)


def one_vehicle(random, count):
    """A fleet of one whose capacity suffices, or is one short."""
    demands = [random.randint(1, 4) for _ in range(count)]
    rows = [(10, 10, 0, 0, 1000, 0)]
    for demand_here in demands:
        ready = random.choice([0, 0, random.randrange(150)])
        rows.append((random.randrange(20), random.randrange(20), demand_here, ready,
                     random.choice([1000, ready + random.randrange(150)]), random.choice([0, 1, 10])))
    return words_of(random, 1, max(1, sum(demands) - random.choice([0, 0, 0, 1])), rows)


SHAPES = [instance_words, instance_words, one_moment, one_place, ties, one_vehicle]
