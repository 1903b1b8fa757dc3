"""One run of judge: a plan moved at random, in a table by stops or by vehicles or as solvers spell it; all that is
wrong with it, by a walk written anew."""
import csv
import io
import os

from cases.random_texts import laid_out
from cases.shapes import waiting
from judges.judging_layouts import tool
from judges.judging_tables import plan_text
from judges.kind import Kind, tools_by
from judges.running import demand, got, put
from reference.instances import plan_cost, read
from tools.names import table_of
from tools.units import Units

VEHICLES = ("vehicle", "route", "Fahrzeug", "Tour", "chauffeur")
NAMES = ("name", "Kunde", "client")


def moved(random, routes):
    """The routes after some moves: customers change places, stand twice, or are gone."""
    routes = [list(route) for route in routes] + [[]]
    for _ in range(random.randrange(4)):
        source, target = random.choice([route for route in routes if route]), random.choice(routes)
        taken = random.randrange(len(source))
        stop = source[taken]
        if random.randrange(6) > 0:
            del source[taken]
        if random.randrange(6) > 0:
            target.insert(random.randint(0, len(target)), stop)
        if not any(routes):
            source.append(stop)
    return [route for route in routes if route]


def interleaved(random, routes):
    """Pairs of a vehicle and a stop, each vehicle's in order."""
    left = [(place, list(route)) for place, route in enumerate(routes)]
    while left:
        place, route = random.choice(left)
        yield place, route.pop(0)
        left = [pair for pair in left if pair[1]]


def by_stop(random, routes, called, named):
    """A table with a line for each stop; its columns in any order, and depots here and there."""
    columns = random.sample(["vehicle", "arrival", *random.choice([["name"], ["stop"], ["name", "stop"]])],
                            k=None or 3) if random.randrange(3) == 0 else ["vehicle", "name", "stop", "arrival"]
    if "vehicle" not in columns or not {"name", "stop"} & set(columns):
        columns = ["stop", "vehicle"]
    heading = {"vehicle": random.choice(VEHICLES), "name": random.choice(NAMES), "stop": "stop", "arrival": "arrival"}
    rows = [[heading[column] for column in columns]]
    for place, stop in interleaved(random, routes):
        fields = {"vehicle": called[place], "name": named[stop], "stop": str(stop), "arrival": "07:10"}
        rows.append([fields[column] for column in columns])
        if random.randrange(5) == 0:
            rows.append([{**fields, "name": named[0], "stop": "0"}[column] for column in columns])
    return rows + random.choice([[], [[]]]) + random.choice([[], [["route", "stop", "load"], ["1", "2", "7"]]])


def by_vehicle(random, routes, called, named):
    """A table with a line for each vehicle."""
    has_called = random.randrange(2) == 0
    rows = [([called[place]] if has_called else []) + [named[stop] for stop in route]
            for place, route in enumerate(routes)]
    wide = max(map(len, rows))
    if wide == 1:
        rows, wide = [row + [named[0]] for row in rows], 2
    return [row + [""] * (wide - len(row)) for row in rows], has_called


def spelled(random, rows):
    """The text of a table, as a spreadsheet writes it."""
    found = io.StringIO()
    csv.writer(found, delimiter=random.choice(",;\t"), lineterminator=random.choice(["\n", "\r\n"])).writerows(rows)
    return random.choice(["", "\ufeff"]) + found.getvalue()


def clock(tenths, units):
    """A moment as people read it."""
    if not units.clock:
        return units.number(tenths)
    days, minutes = divmod(tenths // (10 * units.scale), 24 * 60)
    return "%02d:%02d%s" % (*divmod(minutes, 60), " +%d" % days if days else "")


def length(tenths, units):
    return "%d:%02d" % divmod(tenths // (10 * units.scale), 60) if units.clock else units.number(tenths)


def cut(tenths, units):
    return tenths - tenths % (10 * units.scale) if units.clock else tenths


def wrong_of(instance, called, route, named, units):
    """What is wrong with a vehicle that leaves when the depot opens."""
    load = sum(instance.demand(i) for i in route)
    if load > instance.capacity:
        yield "vehicle %s carries %d, and holds %d" % (called, load, instance.capacity)
    now, before = instance.ready(0), 0
    for i in [*route, 0]:
        now = max(now + instance.arc[before][i], instance.ready(i))
        due = instance.due(i)
        if now > due:
            yield "vehicle %s is at %s at %s, %s after %s" % (
                called, named[i] if i else "the depot", clock(cut(now, units), units),
                length(cut(now, units) - cut(due, units), units), clock(cut(due, units), units))
        now, before = now + instance.service(i), i


def wrong(instance, routes, called, named, units):
    """All that is wrong, line by line."""
    found, where = [], {}
    for place, route in enumerate(routes):
        found += wrong_of(instance, called[place], route, named, units)
        for i in route:
            where.setdefault(i, []).append(called[place])
    missing = [named[i] for i in range(1, instance.count + 1) if i not in where]
    found += ["not served: " + ", ".join(missing)] if missing else []
    found += ["%s is served %d times, by %s" % (named[i], len(where[i]), ", ".join(where[i]))
              for i in sorted(where) if len(where[i]) > 1]
    if len(routes) > instance.fleet:
        found.append("%d vehicles drive, and there are %d" % (len(routes), instance.fleet))
    return found


def text_of(random, routes, labels, named):
    """A spelling of the routes, and what their vehicles are called in it."""
    numbered = [str(place) for place in range(1, len(routes) + 1)]
    form = random.randrange(4)
    if form < 2:
        rows = by_stop(random, routes, labels, named)
        # Vehicles come in the order in which their first stops stand there.
        return spelled(random, rows), labels, rows
    if form == 2:
        rows, has_called = by_vehicle(random, routes, labels, named)
        return spelled(random, rows), labels if has_called else numbered, None
    return "".join("Route #%d: %s\n" % (place, " ".join(map(str, route)))
                   for place, route in enumerate(routes, 1)), numbered, None


def in_order(rows, routes, labels):
    """The routes in the order in which a table by stops has their vehicles first."""
    place = next(at for at, field in enumerate(rows[0]) if field in VEHICLES)
    met = list(dict.fromkeys(row[place] for row in rows[1:] if len(row) > place and row[place] in labels))
    order = sorted(range(len(routes)), key=lambda one: met.index(labels[one]))
    return [routes[one] for one in order], [labels[one] for one in order]


def judge_moved(folder, random):
    path, plan, table, best, back = (os.path.join(folder, name) for name in ("i", "moved", "names", "best", "back"))
    words, first = waiting(random, random.randint(1, 9))
    words[4:6] = [str(len(first) + random.randrange(2)), str(max(map(len, first)))]
    put(path, laid_out(random, words))
    instance = read(got(path))
    routes, units = moved(random, first), random.choice([Units(), Units(clock=1), Units(scale=10, clock=1)])
    named = ["Depot"] + ["Stop %s" % "abcdefghi"[i] for i in range(instance.count)]
    put(table, table_of(named, units=units).encode())
    put(best, plan_text(instance, first))
    labels = random.sample(["Anna", "Bert", "Carla", "V 4", "V 5", "F", "G", "H", "I", "J", "K"], len(routes))
    text, called, rows = text_of(random, routes, labels, named)
    if rows is not None:
        routes, called = in_order(rows, routes, called)
    put(plan, text.encode())
    out, errors, status = tool("judge", path, plan, "--names", table, "--best", best)
    demand(errors == "", "%r: %s" % (text, errors))
    lines, right = out.decode().split("\n"), wrong(instance, routes, called, named, units)
    head = "no plan: %d thing%s wrong" % (len(right), " is" if len(right) == 1 else "s are") if right else "a plan"
    demand(lines[:lines.index("")] == [head, *right] and status == (3 if right else 0),
           "%r: %d, %r, and %r is right" % (text, status, lines, right))
    more = plan_cost(instance, routes) - plan_cost(instance, first)
    told = "as far as the best plan" if not more else "%s units %s" % (units.number(abs(more)),
                                                                      "more" if more > 0 else "less")
    demand(lines[-2].startswith(told), "%r: %r, and %s is right" % (text, lines[-2], told))
    judge_written(folder, instance, routes, (path, plan, table, back))
    return "a plan" if not right else "none"


def judge_written(folder, instance, routes, paths):
    """What -o writes is the plan, where each customer is served once; else nothing is written."""
    path, plan, table, back = paths
    out, errors, status = tool("judge", path, plan, "--names", table, "-o", back)
    if sorted(i for route in routes for i in route) == list(range(1, instance.count + 1)):
        demand(got(back) == plan_text(instance, routes), "wrote %r, and %r is right" % (got(back), routes))
    else:
        demand(status == 1 and "doesn't serve each customer once" in errors and got(back) is None,
               "%d, %r, %r" % (status, errors, out))


KINDS = {
    "moved": Kind("a plan moved by hand, in any spelling, by judge: all that is wrong, by a walk of its own", 30,
                  tools_by(judge_moved)),
}
