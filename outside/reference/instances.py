"""Instances in Solomon's layout: a reader of its own, distances, walks, plans and costs.

Written apart from the program, by lists and without speed. Times and costs are tenths.
"""
from math import isqrt

SEPARATORS = b" \t\r\n"
LAYOUT = [b"VEHICLE", b"NUMBER", b"CAPACITY", None, None, b"CUSTOMER", b"CUST", b"NO.", b"XCOORD.", b"YCOORD.",
          b"DEMAND", b"READY", b"TIME", b"DUE", b"DATE", b"SERVICE", b"TIME"]
MOST_CUSTOMERS = 400


class Fault(Exception):
    """Why a text is no instance, as the program's line names it."""


class Instance:
    """Row 0 is the depot, row i customer i; a row is x, y, demand, ready, due, service, times in tenths."""

    def __init__(self, name, fleet, capacity, rows):
        self.name, self.fleet, self.capacity, self.rows = name, fleet, capacity, rows
        self.count = len(rows) - 1
        self.arc = [[isqrt(100 * ((a[0] - b[0]) ** 2 + (a[1] - b[1]) ** 2)) for b in rows] for a in rows]

    def demand(self, i):
        return self.rows[i][2]

    def ready(self, i):
        return self.rows[i][3]

    def due(self, i):
        return self.rows[i][4]

    def service(self, i):
        return self.rows[i][5]

    def ceiling(self):
        return 2 * self.count * max(max(row) for row in self.arc)

    def fewest_routes(self):
        total = sum(self.demand(i) for i in range(1, self.count + 1))
        return -(-total // self.capacity)


def words(text):
    """The words with their lines; a foreign byte before or directly after a word comes in its place."""
    found, line, at = [], 1, 0
    while at < len(text):
        if text[at] in SEPARATORS:
            line += text[at] == 10
            at += 1
            continue
        start = at
        while at < len(text) and 0x21 <= text[at] <= 0x7E:
            at += 1
        if at < len(text) and text[at] not in SEPARATORS:
            found.append(("NotAscii offset %d" % at, line))
            return found
        found.append((bytes(text[start:at]), line))
    return found


class Words:
    def __init__(self, text):
        self.rest = words(text)

    def next(self, at_end="Truncated"):
        if not self.rest:
            raise Fault(at_end)
        word, line = self.rest.pop(0)
        if isinstance(word, str):
            raise Fault(word)
        return word, line

    def number(self, low, high, at_end="Truncated"):
        word, line = self.next(at_end)
        if not (1 <= len(word) <= 9 and word.isdigit()):
            raise Fault("BadNumber line %d" % line)
        value = int(word)
        if not low <= value <= high:
            raise Fault("OutOfRange line %d" % line)
        return value, line


def read(text):
    """The instance of a text, or the first fault from the left."""
    source = Words(text)
    name, line = source.next()
    if len(name) > 32:
        raise Fault("BadWord line %d" % line)
    numbers = []
    for wanted in LAYOUT:
        if wanted is None:
            numbers.append(source.number(1, 1000 if not numbers else 10000)[0])
            continue
        word, line = source.next()
        if word != wanted:
            raise Fault("BadWord line %d" % line)
    rows = []
    while True:
        if not source.rest and len(rows) == 1:
            raise Fault("NoCustomers")
        if not source.rest and len(rows) > 1:
            return Instance(name, numbers[0], numbers[1], rows)
        rows.append(read_row(source, len(rows)))


def read_row(source, number):
    if source.rest and isinstance(source.rest[0][0], str):
        raise Fault(source.rest[0][0])
    if number > MOST_CUSTOMERS:
        raise Fault("TooManyCustomers")
    found, line = source.number(0, 999999999)
    if found != number:
        raise Fault("OutOfOrder line %d" % line)
    x = source.number(0, 10000)[0]
    y = source.number(0, 10000)[0]
    demand, line = source.number(0, 999999999)
    if number == 0 and demand != 0:
        raise Fault("BadDepot")
    if number > 0 and demand == 0:
        raise Fault("DemandZero line %d" % line)
    if demand > 10000:
        raise Fault("OutOfRange line %d" % line)
    ready = source.number(0, 1000000)[0]
    due, line = source.number(0, 1000000)
    if due < ready:
        raise Fault("WindowReversed line %d" % line)
    service = source.number(0, 1000000)[0]
    if number == 0 and service != 0:
        raise Fault("BadDepot")
    return (x, y, demand, 10 * ready, 10 * due, 10 * service)


def walk(instance, route):
    """Times of service and the return, or None where the route isn't fitting."""
    if not route or any(not 1 <= i <= instance.count for i in route):
        return None
    if sum(instance.demand(i) for i in route) > instance.capacity:
        return None
    return walk_times(instance, route)


def walk_times(instance, route):
    """Times of service and the return of customers in this order, or None where one comes too late."""
    at, time, begins = 0, instance.ready(0), []
    for i in route:
        begin = max(time + instance.arc[at][i], instance.ready(i))
        if begin > instance.due(i):
            return None
        begins.append(begin)
        at, time = i, begin + instance.service(i)
    finish = time + instance.arc[at][0]
    return (begins, finish) if finish <= instance.due(0) else None


def route_cost(instance, route):
    stops = [0] + route + [0]
    return sum(instance.arc[a][b] for a, b in zip(stops, stops[1:]))


def plan_cost(instance, routes):
    return sum(route_cost(instance, route) for route in routes)


def is_plan(instance, routes):
    served = sorted(i for route in routes for i in route)
    return (len(routes) <= instance.fleet and served == list(range(1, instance.count + 1))
            and all(walk(instance, route) for route in routes))
