"""Instances after Solomon's six classes: clustered, uniform or half of each; narrow windows and small vehicles, or wide
windows and large ones. Places, demands and times are of his scale, and a vehicle of its own reaches each customer. In
a third of the files vehicles hold half as much, so that loads bind as well as windows."""
from collections import namedtuple

from cases.shapes import way, words_of

# A class: the depot's place, the capacity, when the depot closes, the time of a service, how long a window is, one of
# how many customers has a long one, how many of ten customers stand in clusters, and the demands.
Class = namedtuple("Class", "depot capacity closes service width long clustered demands")
TENS = (10, 20, 30, 40)
CLASSES = {
    "c1": Class((40, 50), 200, 1236, 90, (50, 85), 5, 10, TENS),
    "c2": Class((40, 50), 700, 3390, 90, (60, 250), 25, 10, TENS),
    "r1": Class((35, 35), 200, 230, 10, (40, 80), 25, 0, range(1, 38)),
    "r2": Class((35, 35), 1000, 1000, 10, (70, 160), 25, 0, range(1, 25)),
    "rc1": Class((40, 50), 200, 240, 10, (30, 85), 25, 5, TENS),
    "rc2": Class((40, 50), 1000, 960, 10, (50, 170), 25, 5, TENS),
}
FLEET, WIDE, PER_CLUSTER = 25, 100, (8, 10)


def near(random, centre):
    """A place near that of a cluster."""
    return tuple(min(WIDE - 1, max(0, at + random.randint(-6, 6))) for at in centre)


def spots(random, of, count):
    """The places of the customers, with the number that a customer has in its cluster, or None."""
    found, clustered = [], count * of.clustered // 10
    while len(found) < clustered:
        centre = (random.randrange(WIDE), random.randrange(WIDE))
        size = min(random.randint(*PER_CLUSTER), clustered - len(found))
        order = random.sample(range(size), size)
        found += [(near(random, centre), number) for number in order]
    found += [((random.randrange(WIDE), random.randrange(WIDE)), None) for _ in range(count - clustered)]
    return found


def row_of(random, of, place, number):
    """A customer's row. Windows follow each other in a cluster where service is long, as if a vehicle went through it;
    others are anywhere in the day."""
    first = way(of.depot, place)
    last = of.closes - first - of.service
    half = random.randint(*of.width) // 2
    middle = random.randint(first, last)
    if number is not None and of.service > 10:
        middle = min(last, first + number * (of.service + 5) + random.randint(-20, 20))
    ready, due = max(0, middle - half), min(last, middle + half)
    if random.randrange(of.long) == 0:
        ready, due = 0, last
    return place + (random.choice(of.demands), ready, max(due, first), of.service)


def class_words(random, name, count):
    """The words of an instance of a class."""
    of = CLASSES[name]
    capacity = random.choice([of.capacity, of.capacity, of.capacity // 2])
    rows = [row_of(random, of, *spot) for spot in spots(random, of, count)]
    return words_of(random, FLEET, capacity, [of.depot + (0, 0, of.closes, 0)] + rows)
