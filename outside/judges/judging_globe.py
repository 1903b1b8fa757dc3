"""One run of draw on the globe: a table with random degrees, converted, and its routes as GeoJSON and GPX: the places of
the table, in the order of the routes, at the times of the timetable."""
import csv
import io
import json
import os
from xml.etree import ElementTree

from judges.judging_layouts import tool
from judges.judging_tables import plan_text
from judges.kind import Kind, tools_by
from judges.running import demand, got, put
from reference.instances import read

RTE, POINT = ("{http://www.topografix.com/GPX/1/1}" + name for name in ("rte", "rtept"))


def table(random, count):
    """A table of places near a random one, as its text, and the places as they are written there."""
    lat, lon = random.uniform(-60, 60), random.uniform(-179, 179)
    places = [("%.*f" % (random.randint(2, 6), lat + random.uniform(-0.2, 0.2)),
               "%.*f" % (random.randint(2, 6), lon + random.uniform(-0.2, 0.2))) for _ in range(count + 1)]
    comma = random.randrange(2) == 0
    found = io.StringIO()
    writer = csv.writer(found, delimiter=";" if comma else ",")
    writer.writerow(["name", "note", "lat", "lon", "demand", "ready", "due", "service"])
    for i, place in enumerate(places):
        shown = [word.replace(".", ",") if comma else word for word in place]
        writer.writerow(["Place %d" % i, "<&>", *shown, "1" if i else "0", "06:00", "23:00", "5" if i else "0"])
    return found.getvalue(), [tuple(map(float, place)) for place in places]


def drawn_routes(random, count):
    """Customers in random routes."""
    left, routes = random.sample(range(1, count + 1), count), []
    while left:
        routes.append([left.pop() for _ in range(random.randint(1, len(left)))])
    return routes


def demand_geojson(out, routes, places, times):
    """The lines are the routes, and the spots the stops in their order, at these times."""
    features = json.loads(out)["features"]
    lines = [one["geometry"]["coordinates"] for one in features if one["geometry"]["type"] == "LineString"]
    right = [[list(places[i][::-1]) for i in [0, *route, 0]] for route in routes]
    demand(lines == right, "%r, and %r is right" % (lines, right))
    spots = [(one["properties"], tuple(one["geometry"]["coordinates"][::-1])) for one in features
             if one["geometry"]["type"] == "Point"][1:]
    told = [(own["vehicle"], own["order"], own["stop"], own["arrival"], own["begin"], at) for own, at in spots]
    right = [(vehicle, order, i, *times[vehicle, i], places[i]) for vehicle, route in enumerate(routes, 1)
             for order, i in enumerate(route, 1)]
    demand(told == right, "%r, and %r is right" % (told, right))


def demand_gpx(out, routes, places, times):
    """The routes are those from depot to depot, and tell the times."""
    found = ElementTree.fromstring(out.decode()).findall(RTE)
    told = [[(float(point.get("lat")), float(point.get("lon"))) for point in one.findall(POINT)] for one in found]
    right = [[places[i] for i in [0, *route, 0]] for route in routes]
    demand(told == right, "%r, and %r is right" % (told, right))
    for vehicle, (one, route) in enumerate(zip(found, routes), 1):
        said = [point[1].text for point in one.findall(POINT)][1:-1]
        demand(all(times[vehicle, i][0] in words and times[vehicle, i][1] in words for i, words in zip(route, said)),
               "%r" % said)


def judge_globe(folder, random):
    """A table with degrees, and its plan on the globe."""
    source, path, plan, names = (os.path.join(folder, name) for name in ("t.csv", "i.txt", "p.txt", "n.csv"))
    count = random.randint(1, 9)
    text, places = table(random, count)
    put(source, text.encode())
    out, errors, status = tool("convert", source, path, "--vehicles", str(count), "--capacity", str(count), "--speed",
                               "50", "--names", names)
    demand(status == 0, "convert: %s" % errors)
    instance, routes = read(got(path)), drawn_routes(random, count)
    put(plan, plan_text(instance, routes))
    rows = csv.DictReader(io.StringIO(tool("timetable", path, plan, "--names", names, "--csv", "--dialect", "plain")[0]
                                      .decode().split("\n\n")[0]))
    times = {(int(row["route"]), int(row["stop"])): (row["arrival"], row["begin"]) for row in rows}
    for option, judged in (("--geojson", demand_geojson), ("--gpx", demand_gpx)):
        out, errors, status = tool("draw", path, plan, "--names", names, option)
        demand((errors, status) == ("", 0), "draw %s: %d, %r" % (option, status, errors))
        judged(out, routes, places, times)
    return "%d routes" % len(routes)


KINDS = {
    "globe": Kind("a table in degrees, its routes as GeoJSON and GPX by draw: the places and times of the table", 12,
                  tools_by(judge_globe)),
}
