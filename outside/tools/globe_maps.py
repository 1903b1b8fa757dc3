"""A plan's routes on the globe, for programs that show maps: GeoJSON (RFC 7946) and GPX 1.1, where places are known in
degrees. Lines between stops are straight."""
import json
from html import escape

from reference.instances import route_cost
from tools.timing import LATE, as_shown, stops, sums_shown
from tools.tool import Refused, told_path
from tools.units import units_of

GPX = '<gpx version="1.1" creator="vrptw" xmlns="http://www.topografix.com/GPX/1/1">'


class OnGlobe:
    """A plan whose places are known in degrees; refused where one isn't."""

    def __init__(self, instance, routes, names, path, depart=LATE):
        self.instance, self.routes, self.names, self.depart = instance, routes, names, depart
        self.units = units_of(names)
        self.places = [names.place(i) if names is not None else None for i in range(instance.count + 1)]
        if None in self.places:
            raise Refused("%s: met no lat and lon of %s, wanted those of all places, as convert --names writes them of a "
                          "table in degrees" % ("--names" if path is None else told_path(path), self.called(
                              self.places.index(None))))

    def called(self, i):
        """What a place is called."""
        name = "depot" if i == 0 else "customer %d" % i
        return name if self.names is None or self.names[i] == str(i) else self.names[i]

    def stops(self, route):
        """The stops of a route and the return, as they are shown."""
        return [as_shown(stop, self.units) for stop in stops(self.instance, route, self.depart)]

    def told(self, stop):
        """When a vehicle is at a stop, in words."""
        units = self.units
        if stop.stop == 0:
            return "back at %s" % units.moment(stop.arrival)
        return "arrives at %s, serves from %s to %s" % tuple(
            map(units.moment, (stop.arrival, stop.begin, stop.end)))

    def feature(self, kind, coordinates, told):
        return {"type": "Feature", "geometry": {"type": kind, "coordinates": coordinates}, "properties": told}

    def at(self, i):
        """Where a place is, as GeoJSON has it: longitude first."""
        return list(reversed(self.places[i]))

    def line(self, vehicle, route):
        """A route as a line, with its sums."""
        units, sums = self.units, sums_shown(self.instance, route, self.units, self.depart)
        return self.feature("LineString", [self.at(i) for i in [0, *route, 0]], {
            "vehicle": vehicle, "stops": len(route), "load": units.load(sums.load),
            "distance": "%s %s" % (units.distance(route_cost(self.instance, route)), units.measure()),
            "leaves": units.moment(sums.leaves), "back": units.moment(sums.back)})

    def spot(self, vehicle, order, stop):
        """A stop as a spot."""
        units, i = self.units, stop.stop
        told = {"vehicle": vehicle, "order": order, "stop": i, "name": self.called(i),
                "arrival": units.moment(stop.arrival), "begin": units.moment(stop.begin),
                "end": units.moment(stop.end), "demand": units.load(self.instance.demand(i))}
        address = self.names.address(i)
        return self.feature("Point", self.at(i), {**told, **({"address": address} if address else {})})


def geojson(plan):
    """A line for each route, a spot for each stop, and one for the depot."""
    found = [plan.feature("Point", plan.at(0), {"stop": 0, "name": plan.called(0)})]
    for vehicle, route in enumerate(plan.routes, 1):
        found.append(plan.line(vehicle, route))
        found += [plan.spot(vehicle, order, stop) for order, stop in enumerate(plan.stops(route)[:-1], 1)]
    return json.dumps({"type": "FeatureCollection", "features": found}, ensure_ascii=False, indent=1) + "\n"


def gpx(plan):
    """A route for each vehicle, from the depot to the depot."""
    lines = ['<?xml version="1.0" encoding="UTF-8"?>', GPX]
    for vehicle, route in enumerate(plan.routes, 1):
        leaves = plan.units.moment(sums_shown(plan.instance, route, plan.units, plan.depart).leaves)
        lines += ["<rte>", "<name>Vehicle %d</name>" % vehicle, "<number>%d</number>" % vehicle,
                  point(plan, 0, "leaves at %s" % leaves)]
        lines += [point(plan, stop.stop, plan.told(stop)) for stop in plan.stops(route)] + ["</rte>"]
    return "\n".join(lines + ["</gpx>", ""])


def point(plan, i, told):
    lat, lon = plan.places[i]
    return '<rtept lat="%s" lon="%s"><name>%s</name><desc>%s</desc></rtept>' % (
        lat, lon, escape(plan.called(i)), escape(told))
