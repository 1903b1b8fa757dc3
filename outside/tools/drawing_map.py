"""A plan's routes as a map: an SVG text of customers, depot and a line for each route, with a legend and a scale."""
from reference.instances import route_cost
from tools.drawing import (EDGE, HEAD, Places, boxes_beside, colour, customer_name, dash, is_hollow, of_route,
                           plural, round_step, sheet, short, text, title, told_of)
from tools.timing import LATE, stops
from tools.units import units_of

# The longer side of a map of up to so many customers; that of more grows with them, so that numbers have room.
SIDE, CUSTOMERS, MOST_SIDE = 860, 110, 1700
FOOT, BADGE, LEGEND, ROW = 30, 8.5, 258, 17
# Where the words of the legend's columns end.
ENDS = (82, 122, 170, 242)
# Up to so many customers have their names in the map, where names are given.
MOST_NAMED = 60
HALO = 'stroke="white" stroke-width="1.8" stroke-opacity="0.85" paint-order="stroke" stroke-linejoin="round"'


class Frame:
    """Where a place stands in the picture; north is up, and both axes have one scale."""

    def __init__(self, instance):
        side = min(MOST_SIDE, SIDE * max(1, instance.count / CUSTOMERS) ** 0.5)
        self.left, self.low = (min(row[axis] for row in instance.rows) for axis in (0, 1))
        self.high = max(row[1] for row in instance.rows)
        wide = max(row[0] for row in instance.rows) - self.left
        spread = max(wide, self.high - self.low, 1)
        self.scale = (side - 2 * EDGE) / spread
        self.width = round(2 * EDGE + self.scale * max(wide, spread / 2))
        self.bottom = round(2 * EDGE + HEAD + self.scale * (self.high - self.low))
        self.height = self.bottom + FOOT
        self.size, self.radius = (12, 5) if instance.count <= 30 else (10, 4.2)

    def place(self, row):
        return EDGE + self.scale * (row[0] - self.left), HEAD + EDGE + self.scale * (self.high - row[1])


def line(frame, instance, stops, style):
    points = " ".join("%.1f,%.1f" % frame.place(instance.rows[stop]) for stop in stops)
    return '<polyline points="%s" %s/>' % (points, style)


def route_lines(frame, instance, number, route, units):
    """The line of a route from its first customer to its last one, and thinner the ways from and to the depot; the way
    back is dotted."""
    load = sum(instance.demand(i) for i in route)
    told = "Route %d: %s; %s, load %s of %s, cost %s" % (
        number + 1, " ".join(str(i) for i in route), plural(len(route), "customer"), units.load(load),
        units.load(instance.capacity), units.distance(route_cost(instance, route)))
    return of_route(number, [
        '<g stroke="%s" fill="none" stroke-linejoin="round">' % colour(number), title(told),
        line(frame, instance, [0, route[0]], 'stroke-width="1.4" stroke-opacity="0.6"'),
        line(frame, instance, route, 'stroke-width="2.6"' + dash(number)),
        line(frame, instance, [route[-1], 0], 'stroke-width="1.4" stroke-opacity="0.6" stroke-dasharray="1.5 3.5"'),
        "</g>"])


def filled(number):
    """Fill and stroke of a route's spot or badge, and the colour of what is written in it."""
    hue = colour(number)
    return ("white", hue, hue) if is_hollow(number) else (hue, "white", "white")


def customer_spot(frame, instance, i, number, begin, names):
    """The spot of a customer; what is told where a pointer rests on it."""
    units = units_of(names)
    told = "Customer %d, route %d%s: demand %s, window %s to %s, service %s, served at %s" % (
        i, number + 1, customer_name(names, i), units.load(instance.demand(i)), units.moment(instance.ready(i)),
        units.moment(instance.due(i)), units.span(instance.service(i)), units.moment(begin))
    x, y = frame.place(instance.rows[i])
    fill, stroke, _ = filled(number)
    return ('<circle cx="%.1f" cy="%.1f" r="%.1f" fill="%s" stroke="%s" stroke-width="%s">%s</circle>'
            % (x, y, frame.radius, fill, stroke, 2 if is_hollow(number) else 1, title(told)))


def badge_boxes(frame, instance, route):
    """Where the number of a route may stand: on its first arc, or beside its first customer where that is short."""
    (x, y), (to_x, to_y) = frame.place(instance.rows[0]), frame.place(instance.rows[route[0]])
    length = ((to_x - x) ** 2 + (to_y - y) ** 2) ** 0.5
    if length < 5 * BADGE:
        for left, top, _, _ in boxes_beside(to_x, to_y, 2 * BADGE, 2 * BADGE, frame.radius + 2):
            yield left, top, left + 2 * BADGE, top + 2 * BADGE
        return
    for part in (0.5, 0.42, 0.58, 0.34, 0.66, 0.74, 0.26, 0.82, 0.46, 0.54, 0.62, 0.38):
        at_x, at_y = x + part * (to_x - x), y + part * (to_y - y)
        yield at_x - BADGE, at_y - BADGE, at_x + BADGE, at_y + BADGE


def badge(number, box):
    fill, stroke, ink = filled(number)
    x, y = (box[0] + box[2]) / 2, (box[1] + box[3]) / 2
    size = 11 if number < 99 else 9
    return of_route(number, [
        '<circle cx="%.1f" cy="%.1f" r="%s" fill="%s" stroke="%s" stroke-width="1.4"/>' % (x, y, BADGE, fill, stroke),
        text(x, y + 0.36 * size, str(number + 1), size, 'text-anchor="middle" fill="%s" font-weight="bold"' % ink)])


def label(places, x, y, told, size, radius, more=""):
    """A label beside a spot, where it hides least."""
    # How wide a letter is in the mean, bold or not.
    letter = 0.66 if "bold" in more else 0.58
    box = places.best(list(boxes_beside(x, y, letter * size * len(told), size, radius)))
    return text(box[0], box[3] - 0.14 * size, told, size, more)


def customer_labels(frame, instance, places, names):
    """The customers' numbers or names beside their spots; those at one place stand together."""
    together, is_named = {}, names and instance.count <= MOST_NAMED
    for i in range(1, instance.count + 1):
        together.setdefault(instance.rows[i][:2], []).append(short(names[i]) if is_named else str(i))
    for place, found in together.items():
        told = ", ".join(found[:4]) + (", \u2026" if len(found) > 4 else "")
        yield label(places, *frame.place(place), told, frame.size, frame.radius)


def depot_spot(frame, instance, units):
    x, y = frame.place(instance.rows[0])
    told = "Depot: open from %s to %s" % (units.moment(instance.ready(0)), units.moment(instance.due(0)))
    return '<rect x="%.1f" y="%.1f" width="15" height="15" fill="black" stroke="white">%s</rect>' % (
        x - 7.5, y - 7.5, title(told))


def scale_line(frame, units):
    """A line at the bottom that is a round number of units long."""
    # How many units of the instance, along a straight line, one of what is shown has.
    one = units.scale * (60 / float(units.speed) if units.speed else 1)
    count = round_step((frame.width - 2 * EDGE) / 4 / frame.scale / one, -2)
    y, wide = frame.height - 12, count * one * frame.scale
    told = "%g km driven" % count if units.speed else "%g units" % count if count != 1 else "1 unit"
    return ['<path d="M%d %.1fv6h%.1fv-6" fill="none" stroke="#444"/>' % (EDGE, y - 6, wide),
            text(EDGE + wide + 8, y, told, 11, 'fill="#444"')]


def legend_rows(instance, routes, units):
    """Stops, load and distance of each route, as words, and those of all."""
    rows = [[len(route), sum(instance.demand(i) for i in route), route_cost(instance, route)] for route in routes]
    rows.append([sum(column) for column in zip(*rows)])
    return [[str(stops), units.load(load), units.distance(cost)] for stops, load, cost in rows]


def legend(instance, routes, left, height, units):
    """The legend in columns beside a picture so high, and how wide it is."""
    top, found, rows = HEAD + EDGE, [], legend_rows(instance, routes, units)
    most = max(8, int((height - top - ROW) / ROW))
    columns = -(-len(rows) // most)
    for column in range(columns):
        for x, told in zip(ENDS, ("vehicle", "stops", "load", "distance")):
            found.append(text(left + LEGEND * column + x, top - ROW, told, 11, 'text-anchor="end" fill="#444"'))
    for number, row in enumerate(rows):
        x, y = left + LEGEND * (number // most), top + ROW * (number % most)
        is_all = number == len(routes)
        parts = [text(x + end, y, told, 12, 'text-anchor="end"%s' % (' font-weight="bold"' if is_all else ""))
                 for end, told in zip(ENDS, ["all" if is_all else str(number + 1)] + row)]
        if is_all:
            found += parts
            continue
        fill, stroke, _ = filled(number)
        found += of_route(number, [
            '<path d="M%.1f %.1fh30" stroke="%s" stroke-width="2.6"%s/>' % (x + 6, y - 4, colour(number), dash(number)),
            '<circle cx="%.1f" cy="%.1f" r="4.2" fill="%s" stroke="%s" stroke-width="1.6"/>' % (
                x + 36, y - 4, fill, stroke), *parts])
    return found, LEGEND * columns


def drawn_map(frame, instance, routes, names, depart):
    """Customers, depot and a line for each route, their numbers, and the scale."""
    spots = [frame.place(row) for row in instance.rows]
    places, radius, units = Places((0, HEAD, frame.width, frame.bottom)), frame.radius, units_of(names)
    for (x, y), wide in zip(spots, [9] + instance.count * [radius]):
        places.take((x - wide, y - wide, x + wide, y + wide))
    found = []
    for number, route in enumerate(routes):
        found += route_lines(frame, instance, number, route, units)
    for number, route in enumerate(routes):
        found += of_route(number, [customer_spot(frame, instance, stop.stop, number, stop.begin, names)
                                   for stop in stops(instance, route, depart)[:-1]])
    found.append(depot_spot(frame, instance, units))
    for route in routes:
        for stop, following in zip([0] + route, route + [0]):
            places.take_line(spots[stop], spots[following], 7 if instance.count <= CUSTOMERS else 14)
    badges = [badge(number, places.best(list(badge_boxes(frame, instance, route))))
              for number, route in enumerate(routes)]
    found += [part for parts in badges for part in parts]
    depot = short(names[0]) if names and names[0] != "0" else "depot"
    depot = label(places, *spots[0], depot, 12, 8, 'font-weight="bold"')
    labels = customer_labels(frame, instance, places, names)
    return found + ["<g %s>" % HALO, depot, *labels, "</g>", *scale_line(frame, units)]


def picture(instance, routes, cost, names=None, depart=LATE):
    """The lines of the picture of a plan."""
    frame = Frame(instance)
    told, wide = legend(instance, routes, frame.width, frame.height, units_of(names))
    return sheet(frame.width + wide, frame.height, told_of(instance, routes, cost, names),
                 drawn_map(frame, instance, routes, names, depart) + told)
