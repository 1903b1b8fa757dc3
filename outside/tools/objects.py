"""Instances and timetables as objects of JSON; docs/timetable.schema.json says what they have. Numbers are exact, in
the units of the table that came in; where its times are of the day, `clock` has them as words, cut to the minute."""
import json

from tools.apart import apart_of
from tools.loads import as_there
from tools.names import DEGREES
from tools.timing import LATE, Stop, Sums, cells, further_cells, shares, stops, sum_cells, sums_shown, total
from tools.tool import number
from tools.units import units_of
import vrptw

# Of a stop and of a route what is a moment or a length of time.
STOP_TIMES = ("arrival", "wait", "begin", "end", "slack")
SUM_TIMES = ("duration", "waiting", "driving", "service", "leaves", "back")
# Why routes that serve each customer once are no plan: of the reasons that are about a route, or about all.
LATE_REASON, FULL_REASON = "Late", "OverCapacity"


def valued(words):
    """Words by their names as numbers, where they spell some."""
    return {name: word if number(word) is None else json.loads(word) for name, word in words}


def only(names, pairs):
    return {name: word for name, word in pairs if name in names}


def place_of(names, i):
    """What the table of names says of a place, with its degrees where they are known."""
    found = dict(zip(further_cells(names, None), further_cells(names, i)))
    at = names.place(i)
    found.update(zip(DEGREES, at) if at else ())
    return found


def window_of(row, units):
    """Ready time, due date and service of a row in tenths, as numbers, and as words of the day where they are."""
    ready, due, service = row[3:]
    found = valued((name, units.number(value)) for name, value in (
        ("ready", ready), ("due", due), ("service", service)))
    return found, {"ready": units.moment(ready), "due": units.moment(due), "service": units.span(service)}


def instance_object(name, fleet, capacity, rows, names):
    """The instance: rows have whole numbers, and their times in tenths."""
    units, places = units_of(names), []
    for i, row in enumerate(rows):
        window, clock = window_of(row, units)
        place = {"stop": i, **valued(zip("xy", (units.number(10 * row[0]), units.number(10 * row[1])))),
                 **valued([("demand", units.load(row[2]))]), **window}
        places.append({**place, **({"clock": clock} if units.clock else {}),
                       **({"place": place_of(names, i)} if names else {})})
    told = units.words()
    return {"name": name, "vehicles": fleet, **valued([("capacity", units.room(capacity, 1))]),
            **({"units": told} if told else {}), "places": places}


def stop_object(instance, stop, units, names):
    """A stop, or the return (0)."""
    row = instance.rows[stop.stop]
    window, clock = window_of(row, units)
    found = {**valued(zip(Stop._fields, cells(stop, units.exact()))), **valued([("demand", units.load(row[2]))]),
             "ready": window["ready"], "due": window["due"], "is_late": stop.slack < 0}
    if units.clock:
        found["clock"] = {**only(STOP_TIMES, zip(Stop._fields, cells(stop, units))), "ready": clock["ready"],
                          "due": clock["due"]}
    return {**found, **({"place": place_of(names, stop.stop)} if names else {})}


def sums_object(exact, shown, units):
    """Sums as numbers, and as words of the day where times are."""
    found = valued(zip(Sums._fields, sum_cells(exact, units.exact())))
    if units.clock:
        found["clock"] = only(SUM_TIMES, zip(Sums._fields, sum_cells(shown, units)))
    return found


def reasons_of(instance, routes):
    """All reasons why routes are no plan."""
    rows = tuple((*row[:3], *(moment // 10 for moment in row[3:])) for row in instance.rows)
    own = vrptw.Instance(instance.name.decode(), instance.fleet, instance.capacity, rows)
    return vrptw.schedule(own, routes).reasons


def flags(reasons):
    """What is wrong, as flags."""
    kinds = {reason.kind for reason in reasons}
    return {"is_late": LATE_REASON in kinds, "is_too_full": FULL_REASON in kinds}


def off_object(apart, routes):
    """By how much the distance is off at most, where the table's ways were rounded."""
    off = apart.off(routes) if apart else None
    return {} if off is None else valued([("distance_off", apart.cut(off, True))])


def plan_object(instance, exact, shown, units, reasons):
    """The verdict, what is wrong with a plan that is none, its sums and its shares."""
    told, spelled = shares(instance, exact, units.exact()), shares(instance, shown, units)
    longest = valued([("longest_duration", units.exact().span(told.longest_duration))])
    found = {"is_plan": not reasons, **flags(reasons),
             "reasons": [{"kind": reason.kind, "route": reason.route, "customer": reason.customer}
                         for reason in reasons],
             **sums_object(total(exact), total(shown), units), **valued(zip(
                 told._fields[:-1], map(str, told[:-1]))), **longest}
    if units.clock:
        found["clock"]["longest_duration"] = units.span(spelled.longest_duration)
    return found


def timetable(instance, routes, names=None, depart=LATE):
    """Instance, routes with their stops, and plan, as a text."""
    units, reasons, found, apart = units_of(names), reasons_of(instance, routes), [], apart_of(instance, names)
    instance = as_there(instance, names)
    exact, shown = ([sums_shown(instance, route, one, depart) for route in routes] for one in (units.exact(), units))
    for place, route in enumerate(routes, 1):
        own = [reason for reason in reasons if reason.route == place]
        found.append({"route": place, **sums_object(exact[place - 1], shown[place - 1], units),
                      **off_object(apart, [route]), **flags(own),
                      "stops": [stop_object(instance, stop, units, names)
                                for stop in stops(instance, route, depart)]})
    told = instance_object(instance.name.decode(), instance.fleet, instance.capacity, instance.rows, names)
    plan = {**plan_object(instance, exact, shown, units, reasons), **off_object(apart, routes)}
    return written({"instance": told, "routes": found, "plan": plan})


def written(told):
    return json.dumps(told, ensure_ascii=False, indent=1) + "\n"


def of_problem(problem):
    """The instance of a problem as a text, with the names that it has."""
    rows = [(*row[:3], *(10 * moment for moment in row[3:])) for row in problem.rows]
    names = problem.names
    names = names if names.has_names() or names.headings or not names.units.is_plain else None
    return written({"instance": instance_object(problem.name, problem.fleet, problem.capacity, rows, names)})
