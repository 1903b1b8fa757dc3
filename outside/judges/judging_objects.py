"""One run of objects of JSON: those of timetable have what their schema says, words of the day are the numbers beside
them, and convert makes the same instance of them; so it does of an object by hand, and one with something wrong is
refused with its line."""
import json
import os
from fractions import Fraction

from cases.random_texts import instance_words, laid_out
from judges.judging_departures import minutes
from judges.judging_globe import drawn_routes
from judges.judging_globe import table as table_on_globe
from judges.judging_layouts import demand_notes, demand_refusal, tool, values
from judges.judging_tables import plan_text
from judges.kind import Kind, tools_by
from judges.running import demand, got, put
from judges.schemas import judge_schema
from reference import checking
from reference.instances import read
from tools.names import names_of, table_of
from tools.places import TOP
from tools.units import Units

COLUMNS = ("x", "y", "demand", "ready", "due", "service")
# What is wrong with a place: a column, and what stands there.
WRONG = [("x", "east"), ("due", None), ("demand", -1), ("service", [5]), ("y", True), ("ready", "25:61"), ("x", {})]


def schema():
    with open(os.path.join(TOP, "docs", "timetable.schema.json"), encoding="utf-8") as file:
        return json.load(file)


def demand_clock(told):
    """Words of the day are the numbers beside them, cut to the minute; lengths are off by less than a minute for each
    of their two ends."""
    for name, word in told.get("clock", {}).items():
        demand(abs(minutes(word.lstrip("-")) - abs(told[name])) < 2 and (
            name not in ("arrival", "begin", "end", "leaves", "back", "ready", "due")
            or minutes(word) == int(told[name])), "%s is %r, and %r beside" % (name, told[name], word))


def demand_told(told, instance, routes, units):
    """Windows, demands, loads and flags are those of the instance."""
    for route, mine in zip(told["routes"], routes):
        load = 0
        for stop, i in zip(route["stops"], [*mine, 0]):
            load += instance.demand(i)
            right = [Fraction(instance.ready(i), 10 * units.scale), Fraction(instance.due(i), 10 * units.scale)]
            demand(all(abs(one - other) < 0.01 for one, other in zip(right, (stop["ready"], stop["due"]))), "%r" % stop)
            demand(stop["is_late"] == (stop["slack"] < 0) and stop["stop"] == i, "%r" % stop)
            demand_clock(stop)
        demand((route["is_late"], route["is_too_full"]) == (
            any(stop["is_late"] for stop in route["stops"]), load > instance.capacity), "%r" % route)
        demand_clock({**route, "clock": {name: word for name, word in route.get("clock", {}).items()
                                         if name in ("leaves", "back")}})
    demand(len(told["routes"]) == len(routes), "%d routes" % len(told["routes"]))
    defect = checking.plan_defect(instance, routes)
    plan = told["plan"]
    kinds = {reason["kind"] for reason in plan["reasons"]}
    demand(plan["is_plan"] == (defect is None) and (defect is None or defect in kinds), "%s, and %r" % (defect, plan))
    demand((plan["is_late"], plan["is_too_full"]) == ("Late" in kinds, "OverCapacity" in kinds), "%r" % plan)


def judge_back(folder, path, held, names):
    """convert makes of the object the same instance, and of that one an object again, and the same instance."""
    for source, target in (("o.json", "back.txt"), ("back.txt", "again.json"), ("again.json", "end.txt")):
        words = ["convert", os.path.join(folder, source), os.path.join(folder, target)]
        out, errors, status = tool(*words, *(["--names", os.path.join(folder, "n2.csv")]
                                             if names and source == "o.json" else []))
        demand(status == 0, "%s: %s" % (words, errors))
        demand_notes("convert", errors)
        made = got(os.path.join(folder, target))
        demand(source.endswith("txt") or read(made).rows == held.rows and (read(made).fleet, read(made).capacity) == (
            held.fleet, held.capacity), "%s of %s is %r" % (target, path, made))


def drawn(folder, random):
    """The paths of an instance, of a plan and of names or None, the plan's routes, the units, and places in degrees."""
    path, plan, names = (os.path.join(folder, name) for name in ("i.txt", "p.txt", "n.csv"))
    count, places, units = random.randint(1, 9), None, Units()
    if random.randrange(3) == 0:
        source = os.path.join(folder, "t.csv")
        text, places = table_on_globe(random, count)
        put(source, text.encode())
        out, errors, status = tool("convert", source, path, "--vehicles", "3", "--capacity", "5", "--speed", "50",
                                   "--names", names)
        demand(status == 0, "convert: %s" % errors)
        units = names_of(names, read(got(path)).count).units
    else:
        put(path, laid_out(random, instance_words(random, count)))
        units = random.choice([Units(), Units(clock=1), Units(scale=10, clock=1), Units(scale=7), Units(scale=100)])
        put(names, table_of(["depot"] + ["stop %d" % i for i in range(1, read(got(path)).count + 1)], ["floor"],
                            [["%d" % i] for i in range(read(got(path)).count + 1)], units=units).encode())
        names = random.choice([names, None])
        units = units if names else Units()
    routes = drawn_routes(random, read(got(path)).count)
    put(plan, plan_text(read(got(path)), routes))
    return path, plan, names, routes, units, places


def judge_timetable(folder, random):
    """The object of a timetable."""
    path, plan, names, routes, units, places = drawn(folder, random)
    words = [path, plan, "--json", *(["--names", names] if names else []), *random.choice([[], ["--depart", "early"]])]
    out, errors, status = tool("timetable", *words)
    demand(status == 0, "timetable: %s" % errors)
    told, instance = json.loads(out), read(got(path))
    judge_schema(told, schema(), schema())
    demand_told(told, instance, routes, units)
    if places:
        there = [(one["place"]["lat"], one["place"]["lon"]) for one in told["instance"]["places"]]
        demand(there == places, "%r, and %r is right" % (there, places))
    put(os.path.join(folder, "o.json"), out)
    judge_back(folder, path, instance, names)
    return "degrees" if places else "names" if names else "numbers"


def by_hand(random, instance):
    """An object of an instance, and the places in it."""
    places = []
    for i, row in enumerate(values(instance)):
        words = dict(zip(COLUMNS, (random.choice([int, str])(value) for value in row)))
        words.update(random.choice([{}, {"name": "#%d, a" % i}, {"place": {"name": "é", "floor": i}}]))
        places.append({name: words[name] for name in random.sample(list(words), len(words))})
    told = {"name": instance.name.decode(), "vehicles": instance.fleet, "capacity": instance.capacity, "places": places}
    return random.choice([told, {"instance": told, "routes": []}]), places


def judge_by_hand(folder, random):
    """An object by hand, as it is or with something wrong."""
    instance = read(laid_out(random, instance_words(random, random.randint(1, 9))))
    told, places = by_hand(random, instance)
    source, target = (os.path.join(folder, name) for name in ("o.json", "i.txt"))
    wrong = random.choice([None, random.randrange(len(places))])
    if wrong is not None:
        column, value = random.choice(WRONG)
        places[wrong][column] = value
    text = json.dumps(told, indent=1, ensure_ascii=random.choice([True, False]))
    put(source, text.encode())
    came = tool("convert", source, target, *([] if random.randrange(2) else ["--from", "json"]))
    if wrong is None:
        demand(came[2] == 0 and read(got(target)).rows == instance.rows, "convert: %r" % (came,))
        demand_notes("convert", came[1])
        return "by hand"
    line = next(at for at, one in enumerate(text.split("\n"), 1)
                if one.strip() == "{" and text.split("\n")[:at].count(one) == wrong + 1 and one == places_begin(text))
    demand_refusal("convert", source, line, came)
    demand(got(target) is None, "convert wrote of what it refuses")
    return "wrong"


def places_begin(text):
    """The line with which each place begins."""
    lines = text.split("\n")
    return lines[next(at for at, line in enumerate(lines) if '"places": [' in line) + 1]


def judge_objects(folder, random):
    """An object of one of both kinds."""
    return (judge_by_hand if random.randrange(3) == 0 else judge_timetable)(folder, random)


KINDS = {
    "objects": Kind("objects of timetable --json, by their schema, and back by convert; objects by hand, wrong ones",
                    20, tools_by(judge_objects)),
}
