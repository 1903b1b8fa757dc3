"""Few customers with fleets and capacities near the edge: as many vehicles as a plan needs, one more, or one fewer."""
from cases.shapes import way, words_of
from reference.instances import read
from reference.optimum import cheapest_routes

MOST_LOAD, MOST_DEMAND, HORIZON = 10_000, 10_000, 1000
DEMANDS = ([1], [1, 2, 3], [54, 55, 109], range(1, 10), range(1, 1000))


def fewest_needed(instance):
    """The fewest fitting routes that serve each customer once, however large the fleet is; None where none do."""
    routes = list(cheapest_routes(instance))
    needed = {0: 0}
    for served in range(1 << instance.count):
        for subset in routes if served in needed else ():
            if served & subset == 0:
                more = needed[served] + 1
                needed[served | subset] = min(more, needed.get(served | subset, more))
    return needed.get((1 << instance.count) - 1)


def drawn_capacity(random, demands):
    """What some of the customers need together, or a little less; at least what the heaviest one needs, unless by
    chance it is one short."""
    some = sum(random.sample(demands, random.randint(1, len(demands)))) - random.choice([0, 0, 0, 1, 2])
    heaviest = max(demands) - random.choice([0] * 15 + [1])
    return min(MOST_LOAD, max(1, some, heaviest))


def windows(random, places):
    """Ready and due times of the customers: any time, one moment that several share (each of them needs a vehicle),
    a narrow window, or by chance one that is over before a vehicle comes."""
    ways = [way(places[0], place) for place in places[1:]]
    moment, kind = max(ways) + random.choice([0, 1, 30]), random.randrange(4)
    found = []
    for far in ways:
        ready = random.choice([far, moment, moment + 20])
        found.append([(0, HORIZON), random.choice([(0, HORIZON), (moment, moment)]),
                      (ready, ready + random.choice([0, 5, 40])), (0, far + random.choice([0, 10, 40]))][kind])
    late = random.randrange(len(ways))
    if random.randrange(12) == 0 and ways[late] > 1:
        found[late] = (0, ways[late] - 2)
    return found


def edge_words(random, count):
    """The words of an instance. The fleet is one fewer, as many or one more than the demands need, or than a plan needs
    at all. Customers stand at few places or anywhere, and the depot may close too early for the furthest one."""
    wide = random.choice([1, 4, 30, 100])
    places = [(random.randrange(wide), random.randrange(wide)) for _ in range(count + 1)]
    pick = random.choice(DEMANDS)
    demands = [random.choice(pick) for _ in range(count)]
    if random.randrange(10) == 0:
        demands[random.randrange(count)] = random.choice([MOST_DEMAND - 1, 10 * max(demands)])
    capacity = drawn_capacity(random, demands)
    if random.randrange(3) == 0:
        capacity = min(capacity, 200)
    rows = [place + (demand, *window, random.choice([0, 0, 1, 10]))
            for place, demand, window in zip(places[1:], demands, windows(random, places))]
    closes = HORIZON + 500
    if random.randrange(10) == 0:
        closes = max(row[4] for row in rows) + random.randrange(wide + 10)
    depot = places[0] + (0, 0, closes, 0)
    needed = -(-sum(demands) // capacity)
    if random.randrange(2):
        text = " ".join(words_of(random, count, capacity, [depot] + rows)).encode()
        needed = fewest_needed(read(text)) or needed
    return words_of(random, min(1000, max(1, needed + random.choice([-1, -1, 0, 0, 1]))), capacity, [depot] + rows)
