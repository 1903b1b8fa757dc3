"""One run of `plan` on a table in degrees, or with more decimals than the limits hold: what it says of the table on the
terminal, the page, the sheets and in JSON is true of the table's own ways, by all plans that the instance allows."""
import json
import math
import os
import re
from fractions import Fraction

from judges.judging_layouts import tool
from judges.kind import Kind, program_by
from judges.running import demand, got, put, run_check
from reference.instances import read, route_cost
from reference.texts import read_solution, tenths

# The kilometres of the globe's radius, and of how much arithmetic may be off.
RADIUS, FINE = 6371.0088, 1e-6
NUMBER = r"([0-9]+(?:\.[0-9]+)?)"
SERVES = re.compile(r"[0-9]+ vehicles? serves? (.*) and drives? %s (km|units)(?: \(at most %s \3 off\))?"
                    r"(, and .*)\.$" % (NUMBER, NUMBER), re.M)
LEAST = re.compile(r"^By your table no plan(?: with so few)? that (.*?) allows? is shorter than %s (km|units), so this "
                   r"one is at most %s \3 longer than the best of them\.$" % (NUMBER, NUMBER), re.M)
MOVED = re.compile(r"^(?:%s (?:km|units) (more|less) than|as far as) the best plan(?:, which has [^,]*)?, at most %s "
                   r"(km|units) off$" % (NUMBER, NUMBER), re.M)
WITHIN = {"en": "within %s %s", "de": "auf %s %s genau", "fr": "à %s %s près"}
UNITS = {"en": "units", "de": "Einheiten", "fr": "unités"}


def spot(place):
    """A place on a globe whose radius is 1."""
    lat, lon = map(math.radians, place)
    return math.cos(lat) * math.cos(lon), math.cos(lat) * math.sin(lon), math.sin(lat)


def on_globe(first, second):
    """Kilometres between two places, by the chord between them."""
    chord = math.dist(spot(first), spot(second))
    return 2 * RADIUS * math.asin(min(1.0, chord / 2))


class Drawn:
    """A table of few customers: its text, the options, what its distances are counted in, and its ways."""

    def __init__(self, random):
        self.random, self.is_globe = random, random.randrange(4) > 0
        self.count, self.fleet = random.choice([(random.randint(5, 8), 1),
                                                (random.randint(1, 6), random.randint(1, 3))])
        self.detour, self.speed = random.choice([None, "1", "1.17", "1.3", "2"]), random.choice([20, 33, 50, 80])
        self.places = [self.on_degrees() for _ in range(self.count + 1)] if self.is_globe else self.flat()
        self.is_narrow, self.rows = random.randrange(3) == 0, []
        for i in range(self.count + 1):
            ready = random.randint(360, 1200) if i and self.is_narrow else 300
            due = min(1430, ready + random.randint(30, 400)) if i and self.is_narrow else 1430
            self.rows.append((ready, due, random.randint(1, 4) if i else 0, random.randint(0, 15) if i else 0))
        self.capacity = max(4, -(-sum(row[2] for row in self.rows) // self.fleet) + random.choice([0, 1, 9]))

    def on_degrees(self):
        """A place as degrees in decimals, in a region of some kilometres to some hundreds, now and then far north."""
        random = self.random
        if not hasattr(self, "centre"):
            self.centre = random.uniform(-60, 60) + random.choice([0, 0, 12]), random.uniform(-179, 179)
            self.wide = random.choice([0.02, 0.2, 0.2, 1, 2.5])
            self.high = random.choice([0.02, 1, 1]) * self.wide
        return ("%.5f" % (self.centre[0] + random.uniform(-1, 1) * self.high),
                "%.5f" % ((self.centre[1] + random.uniform(-1, 1) * self.wide + 180) % 360 - 180))

    def flat(self):
        """Places on a map that the limits don't hold with all decimals."""
        random = self.random
        far, digits = random.choice([(9000, 1), (500, 2), (500, 3), (90, 5)])
        return [tuple("%.*f" % (digits, random.uniform(0, far)) for _ in "xy") for _ in range(self.count)] + [
            ("%d.%s" % (far, "0" * (digits - 1) + "7"), "0")]

    def text(self):
        lines = ["name,%s,demand,ready,due,service" % ("lat,lon" if self.is_globe else "x,y")]
        for i, (place, (ready, due, load, service)) in enumerate(zip(self.places, self.rows)):
            times = ["%02d:%02d" % divmod(at, 60) for at in (ready, due)] if self.is_globe else [
                str(10 * at) for at in (ready, due)]
            lines.append(",".join(["c%d" % i, *place, str(load), *times, str(service)]))
        return "".join(line + "\n" for line in lines).encode()

    def options(self):
        found = ["--vehicles", str(self.fleet), "--capacity", str(self.capacity)]
        found += ["--speed", str(self.speed)] if self.is_globe else []
        return found + (["--detour", self.detour] if self.is_globe and self.detour else [])

    def ways(self):
        """The ways of the table between each two places."""
        places = [tuple(map(float, place)) for place in self.places]
        factor = float(self.detour or "1.3") if self.is_globe else 1.0
        return [[factor * (on_globe if self.is_globe else math.dist)(a, b) for b in places] for a in places]

    def measure(self):
        return "km" if self.is_globe else "units"

    def called(self):
        return "the rounded map" if self.is_globe else "the rounded numbers"

    def way(self, cost, scale):
        """A cost of the instance, in tenths, in what the table counts."""
        return Fraction(cost, 10 * scale) * (Fraction(self.speed, 60) if self.is_globe else 1)


def real(ways, routes):
    return sum(ways[i][j] for route in routes for i, j in zip([0, *route], [*route, 0]))


def shorter(instance, ways, least):
    """A plan that the instance allows and that is shorter than this by the table, or None; by all plans, but for those
    that can't be any more."""
    def go_on(routes, cost, at, time, load, left):
        if not left:
            return routes if cost + ways[at][0] < least and time + instance.arc[at][0] <= instance.due(0) else None
        if cost + max(ways[at][j] + ways[j][0] for j in left) >= least:
            return None
        for j in sorted(left):
            begin = max(time + instance.arc[at][j], instance.ready(j))
            if begin <= instance.due(j) and load + instance.demand(j) <= instance.capacity:
                found = go_on(routes[:-1] + [routes[-1] + [j]], cost + ways[at][j], j, begin + instance.service(j),
                              load + instance.demand(j), left - {j})
                if found:
                    return found
        if at and len(routes) < instance.fleet and time + instance.arc[at][0] <= instance.due(0):
            return go_on(routes + [[]], cost + ways[at][0], 0, instance.ready(0), 0, left)
        return None
    return go_on([[]], 0.0, 0, instance.ready(0), 0, frozenset(range(1, instance.count + 1)))


def excess(drawn, instance, ways, scale):
    """By how much a plan of the instance is longer than by the table at most, in a plain way: the most of the ways to
    each customer, and the most of as many ways home as there may be."""
    over = [[max(0.0, float(drawn.way(arc, scale)) - way) for arc, way in zip(*rows)]
            for rows in zip(instance.arc, ways)]
    homes = sorted((row[0] for row in over[1:]), reverse=True)
    return sum(max(row) for row in over[1:]) + sum(homes[:instance.fleet])


def demand_bound(drawn, out, instance, ways, routes, bound, scale):
    """What is told of the table's plans is true, and no weaker than in a plain way."""
    told, digits = LEAST.search(out), 1 if drawn.is_globe else len(str(scale))
    plain = float(drawn.way(bound, scale)) - excess(drawn, instance, ways, scale)
    if told is None:
        demand("By your table" not in out and plain <= 10 ** -digits, "nothing is told of the table: %r" % out)
        return
    least, more = float(told[2]), float(told[4])
    demand((told[1], told[3]) == (drawn.called(), drawn.measure()), "%r" % out)
    found = shorter(instance, ways, least - FINE)
    demand(found is None, "%r has %s, and is told: %r" % (found, found and real(ways, found), out))
    slack = 10 ** -digits + FINE
    allowed = 0 if drawn.is_globe else 3 * instance.count * (instance.fleet > 0) / scale
    demand(least >= plain - slack - allowed, "%s is told, and %s is plain: %r" % (least, plain, out))
    own = real(ways, routes)
    demand(more >= own - least - FINE - slack, "%s more is told of %s: %r" % (more, own, out))


def demand_off(shown, off, own, digits, is_globe, told):
    """A distance that is shown is off by no more than is told; on the globe, where each way is known, that is exact."""
    demand(abs(float(shown) - own) <= float(off) + FINE, "%s off by %s is told of %s: %r" % (shown, off, own, told))
    demand(not is_globe or float(off) <= abs(float(shown) - own) + 10 ** -digits + FINE, "%s off is much of %s: %r" % (
        off, own, told))


def demand_pages(drawn, into, out, ways, routes, digits, language):
    """Page and sheets say the same, and the page says of what kilometres are made beside the first of them."""
    page, sheets = (got(os.path.join(into, name)).decode() for name in ("report.html", "drivers.html"))
    told = SERVES.search(out)
    made = "straight lines times %g, driven at %d km/h; " % (float(drawn.detour or "1.3"), drawn.speed)
    head = "at a cost of %s %s of distance (%sat most %s %s off)." % (
        told[2], drawn.measure(), made if drawn.is_globe else "", told[4], drawn.measure())
    demand(head in page and " km" not in page[:page.index(head)] and "of road" not in page, "no %r on the page" % head)
    found = LEAST.search(out)
    demand(found is None or found[0] in page, "the page lacks %r" % (found and found[0]))
    demand(not re.search("no plan (is|costs)|every plan costs", page, re.I), "whose plans isn't said")
    instance, plan, names = (os.path.join(into, name) for name in ("instance.txt", "plan.txt", "names.csv"))
    parts = json.loads(tool("timetable", instance, plan, "--names", names, "--json")[0])
    measure = drawn.measure() if drawn.is_globe else UNITS[language]
    for one, own in zip([*parts["routes"], parts["plan"]], [*([route] for route in routes), routes]):
        demand_off(one["distance"], one["distance_off"], real(ways, own), digits, drawn.is_globe, one)
        off = "%.*f" % (digits, one["distance_off"])
        demand("stops" not in one or WITHIN[language] % (off, measure) in sheets, "the sheets lack %s" % off)


def demand_moved(drawn, random, into, ways, routes):
    """What a plan that was moved by hand drives more or less by the table is as told, but for what it is off."""
    left = random.sample(range(1, drawn.count + 1), drawn.count)
    moved = [left[:drawn.count // 2], left[drawn.count // 2:]]
    put(os.path.join(into, "moved.csv"), ("vehicle,stop\n" + "".join(
        "%d,%d\n" % (vehicle, i) for vehicle, route in enumerate(moved, 1) for i in route)).encode())
    paths = [os.path.join(into, name) for name in ("instance.txt", "moved.csv", "names.csv", "plan.txt")]
    out = tool("judge", *paths[:2], "--names", paths[2], "--best", paths[3])[0].decode()
    told, more = MOVED.search(out), real(ways, moved) - real(ways, routes)
    demand(told and told[4] == drawn.measure(), "judge: %r" % out)
    shown = float(told[1] or 0) * (-1 if told[2] == "less" else 1)
    demand(abs(shown - more) <= float(told[3]) + FINE, "%s more are right: %r" % (more, out))


def judge_claims(program, folder, random):
    """A table, and what is said of it."""
    drawn, language = Drawn(random), random.choice(list(WITHIN))
    source, into = os.path.join(folder, "t.csv"), os.path.join(folder, "monday")
    put(source, drawn.text())
    has_fewest = random.randrange(5) == 0
    out, errors, status = tool("plan", source, "--into", into, "--seconds", "20", "--program", program, "--drivers",
                               "--searchers", "1", "--bounders", "1", "--lang", language, *drawn.options(),
                               *(["--fewest"] if has_fewest else []))
    out, into = out.decode(), os.path.join(into, "now")
    demand("Traceback" not in errors and got(os.path.join(into, "instance.txt")), "plan: %r" % errors)
    if status:
        is_known = out.startswith("There is no plan of all customers by %s: " % drawn.called())
        demand(is_known or out.startswith(("No plan", "There is no plan of all customers: the fleet can't serve all: ")),
               "plan: %r" % out)
        return "no plan"
    held = [got(os.path.join(into, name)) for name in ("instance.txt", "plan.txt", "certificate.txt")]
    instance, ways, (routes, cost) = read(held[0]), drawn.ways(), read_solution(held[1])
    scale = (instance.due(0) - instance.ready(0)) // (10 * (1430 - 300) * (1 if drawn.is_globe else 10))
    line, _, _ = run_check(program, folder, held[0], held[2], held[1])
    bound = tenths(line.split()[-1].encode())
    told, digits = SERVES.search(out), 1 if drawn.is_globe else len(str(scale - 1)) + 1 if scale > 1 else 1
    demand(told and told[4] and told[3] == drawn.measure(), "no error of the cost is told: %r" % out)
    demand(drawn.called() in told[5] and cost == sum(map(lambda one: route_cost(instance, one), routes)), "%r" % out)
    few = " with so few" * (" with so few" in told[5])
    # A busy machine may find no plan of the fewest in time; where it did, whose plans a bound is of is said.
    demand(has_fewest if few else not has_fewest or instance.fleet == drawn.fleet, "the fleet is %d: %r" % (
        instance.fleet, out))
    demand(line.startswith("GAP") or told[5] == ", and no plan of %s%s is shorter" % (drawn.called(), few), "%r" % out)
    demand(("no plan with so few that" in out) == ("By your table" in out and bool(few)), "%r" % out)
    demand(not has_fewest or "there is no plan (" not in out or "the demands are" in out, "%r" % out)
    demand_off(told[2], told[4], real(ways, routes), digits, drawn.is_globe, out)
    demand_bound(drawn, out, instance, ways, routes, bound, scale)
    if random.randrange(3) == 0:
        demand_moved(drawn, random, into, ways, routes)
    demand_pages(drawn, into, out, ways, routes, digits, language)
    return "%s, %s" % ("degrees" if drawn.is_globe else "decimals", line.split()[0])


KINDS = {
    "claims": Kind("what plan says of a table whose ways were rounded is true of the table's own, by all plans", 6,
                   program_by(judge_claims)),
}
