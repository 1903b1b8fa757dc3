"""Solutions as other solvers spell them: routes in lines, lists, objects or tours, and a cost or none."""
import re

from reference.texts import shown
from tools.listings import Reader, Routes
from tools.naming import ARROW, Naming, numbering_of_lkh
from tools.tool import listed, number, quoted

ROUTE = re.compile(r"(?:route|vehicle|tour)\s*#?\s*[0-9]+\s*:(.*)\Z", re.I)
# OR-Tools has the stops in the line below.
HEAD = re.compile(r"route for vehicle\s+\S+\s*:(.*)\Z", re.I)
BARE = re.compile(r"[0-9][0-9\s,]*\Z")
COST = re.compile(r"(?:cost|objective)\b\s*:?\s*(.*)\Z", re.I)
UNIT = re.compile(r"(?<=[0-9.])\s*(?:m|km|miles|min|s|h)\Z")
# What stands around the routes in files of best known solutions and in what PyVRP, OR-Tools and LKH print.
AROUND = re.compile(
    r"(instance name|authors?|date|reference|solution|solution results|routes|distance|duration|run-time|time|"
    r"iterations|name|type|comment|dimension|eof|(time|distance|load|cost) of the route|"
    r"total (time|distance|load) of all routes|maximum of the route distances|dropped nodes|solver status)"
    r"\s*(:.*)?\Z|[=-]+\Z|time\s+[0-9.]+\Z", re.I)
# LKH: the length of a tour, how many places it has, its beginning; the head and the lines of its solutions.
LENGTH = re.compile(r"comment\s*:\s*length\s*=\s*(\S+)\Z", re.I)
DIMENSION = re.compile(r"dimension\s*:\s*([0-9]{1,9})\Z", re.I)
TOUR = re.compile(r"tour_section\Z", re.I)
OF_LKH = re.compile(r".*, cost: (?:[0-9]+_)?(\S+)\Z", re.I)
HEAD_OF_LKH = re.compile(r"the tours traveled by the [0-9]+ salesmen are:\Z", re.I)
TOUR_OF_LKH = re.compile(r"([0-9][0-9\s]*?)\s*\(#?[0-9]+\)\s*(?:cost:\s*\S+)?\Z", re.I)


class Spelled:
    """The routes, whose numbers know their lines; their numbering; the cost as its word, or None; notes, and the lines
    that were passed over."""

    def __init__(self, text, numbering, count):
        self.text, self.count, self.naming = text, count, Naming(text, numbering)
        self.routes, self.cost, self.passed, self.notes = [], None, [], []
        self.dimension, self.lines = None, text.filled()
        for line, told in self.lines:
            if told[0] in "[({":
                self.read_listing(line, told)
            elif TOUR.match(told):
                self.read_tour()
            elif HEAD.match(told) and not HEAD.match(told)[1].strip():
                self.read_below(line)
            else:
                self.read_line(line, told)
        if not self.routes:
            text.at_end("a route")

    @property
    def numbering(self):
        return self.naming.numbering

    def read_line(self, line, told):
        route, cost = ROUTE.match(told) or HEAD.match(told), COST.match(told)
        length = LENGTH.match(told) or OF_LKH.match(told)
        if route:
            self.routes.append(self.naming.stops(line, route[1]))
        elif length:
            self.read_cost(line, length[1])
        elif AROUND.match(told):
            self.dimension = DIMENSION.match(told) or self.dimension
            self.passed.append(line)
        elif cost:
            self.read_cost(line, cost[1])
        elif HEAD_OF_LKH.match(told):
            self.naming.numbering = numbering_of_lkh(self.count, self.numbering.names)
        elif TOUR_OF_LKH.match(told):
            self.routes.append(self.naming.stops(line, TOUR_OF_LKH.match(told)[1]))
        elif BARE.match(told) or ARROW.search(told):
            self.routes.append(self.naming.stops(line, told))
        else:
            self.text.refuse(line, quoted(told), "a route, a list of routes or a cost")

    def read_below(self, line):
        """The route that stands in the line below its head."""
        line, told = next(self.lines, (line, ""))
        if not told:
            self.text.at_end("a route")
        if not BARE.match(told) and not ARROW.search(told):
            self.text.refuse(line, quoted(told), "the route of the vehicle above")
        self.routes.append(self.naming.stops(line, told))

    def read_cost(self, line, word):
        if self.cost is not None:
            self.text.refuse(line, "a second cost", "one")
        word = UNIT.sub("", word)
        if number(word) is None:
            self.text.refuse(line, quoted(word), "a cost, a number")
        self.cost = word

    def read_listing(self, line, told):
        """Lists of routes or objects with routes, which may go on in the lines that follow."""
        for value in Reader(self.text, self.lines).values(line, told):
            found = Routes(self.text, value)
            self.routes += [[self.naming.stop(*stop) for stop in route] for route in found.routes]
            if found.cost is not None:
                self.read_cost(found.cost.line, found.cost.word)
            if found.is_object:
                self.notes.append("of the object in line %d the routes and the cost are read, and nothing else"
                                  % value.line)

    def read_tour(self):
        """A tour through all places, which the depot and its copies behind the last customer part into routes."""
        self.naming.numbering = numbering_of_lkh(self.count, self.numbering.names)
        last = int(self.dimension[1]) if self.dimension else 0
        parts, begins_there = [[]], None
        for line, word in ((line, word) for line, told in self.lines for word in told.split()):
            if word in ("-1", "EOF"):
                break
            stop = self.naming.stop(line, word)
            is_depot = stop == 1 or self.count + 1 < stop <= last
            begins_there = is_depot if begins_there is None else begins_there
            if is_depot:
                parts.append([])
            else:
                parts[-1].append(stop)
        if not begins_there and len(parts) > 1:
            # A tour is closed: what stands before the first depot goes on behind the last one.
            parts[0] = parts.pop() + parts[0]
        self.routes += [part for part in parts if part]


def customers(text, spelled, numbering):
    """The routes that aren't empty, by our numbers, and what is noted; each customer stands in them once."""
    met, routes, empty = {}, [], []
    for place, stops in enumerate(spelled, 1):
        route = without_depots(stops, numbering.depots)
        for stop in route:
            if not numbering.first <= stop <= numbering.last:
                text.refuse(stop.line, '"%d"' % stop, numbering.told())
            if stop in met:
                # A tour's routes don't stand in the order of its lines.
                before, again = sorted((met[stop], stop.line))
                text.refuse(again, "customer %s again, after line %d" % (numbering.called(stop), before),
                            numbering.told())
            met[stop] = stop.line
        if route:
            routes.append([stop - numbering.first + 1 for stop in route])
        else:
            empty.append(place)
    for stop in range(numbering.first, numbering.last + 1):
        if stop not in met:
            text.at_end(numbering.told(), "no customer %s" % numbering.called(stop).rstrip(","))
    return routes, ["empty routes are left out: %s" % listed(empty)] if empty else []


def without_depots(stops, depots):
    begin = 1 if stops and stops[0] in depots else 0
    end = len(stops) - 1 if len(stops) > begin and stops[-1] in depots else len(stops)
    return stops[begin:end]


def text_of(routes, cost):
    lines = ["Route #%d: %s" % (place, " ".join(str(i) for i in route)) for place, route in enumerate(routes, 1)]
    return "\n".join(lines + ["Cost %s" % shown(cost), ""])


def certificate(instance):
    """The certificate of prices 0: by version 1 its bound is 0 whatever the routes are."""
    return "\n".join([
        "VRPTW-CERT 1", "INSTANCE " + instance.name.decode(), "CUSTOMERS %d" % instance.count, "NEIGHBOURS 0",
        "BOUND 0.0", "TREE", "P" + instance.count * " 0", "END", ""])
