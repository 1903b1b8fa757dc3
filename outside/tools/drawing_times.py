"""A plan's routes as bars over time, beside their map: driving, waiting and service, and the windows above them."""
from tools.drawing import EDGE, HEAD, colour, customer_name, dash, of_route, sheet, short, text, title, told_of
from tools.drawing_map import MOST_NAMED, Frame, drawn_map, legend_rows
from tools.timing import LATE, leaving, stops
from tools.units import units_of

WIDE, LABEL, AXIS, FIGURES = 800, 48, 40, 185
LANES = (24, 96)
# The parts of a lane's height down to which windows go, at which the bar begins, and that it takes.
WINDOWS, BAR, THICK = 0.42, 0.48, 0.44
# How far apart the lines of windows are, at least and at most.
LEVEL, MOST_LEVEL = 4.5, 8
HINT = "thin: driving; pale: waiting; full: service; above: windows, with a dot where service begins"
CUT = "; an arrow where one goes on"
# How many signs of a name stand at a bar.
LONGEST_NAME = 14


class Scale:
    """Where a time stands in the picture: from the depot's opening to the last return; and when vehicles leave."""

    def __init__(self, instance, routes, left, wide=WIDE, depart=LATE):
        self.first, self.left, self.depart = instance.ready(0), left + LABEL, depart
        self.last = max([stops(instance, route, depart)[-1].end for route in routes] + [self.first + 1])
        self.right = self.left + wide - LABEL
        cut = [i for route in routes for i in route
               if instance.ready(i) < self.first or instance.due(i) > self.last]
        self.is_cut = bool(cut)

    def at(self, time):
        shut = min(max(time, self.first), self.last)
        return self.left + (self.right - self.left) * (shut - self.first) / (self.last - self.first)

    def marks(self, units):
        """Round times for the axis, about ten, with a last digit that is read easily."""
        unit = 10 * units.scale
        steps = ([unit * minutes for minutes in (1, 2, 5, 10, 15, 30, 60, 120, 180, 240, 360, 720)] + [
            unit * 1440 * days for days in range(1, 100)] if units.clock else
            [step * 10 ** power for power in range(9) for step in (1, 2, 5)])
        step = next((step for step in steps if step * 11 > self.last - self.first), steps[-1])
        first = -(-self.first // step) * step
        return range(first, self.last + 1, step)


class Lane:
    """Where a route's lane stands, and how its customers' names or numbers are written: their size, and in how many
    rows above the bars; no row is in the bars, and size 0 is nowhere. Names stand there where all of them fit."""

    def __init__(self, scale, instance, names, high, routes):
        self.scale, self.instance, self.names, self.high, self.units = scale, instance, names, high, units_of(names)
        self.thick, self.is_named = THICK * high, bool(names) and instance.count <= MOST_NAMED
        self.size, self.rows = self.labels(routes)
        if self.is_named and not self.size:
            self.is_named = False
            self.size, self.rows = self.labels(routes)
        self.room = WINDOWS * high - self.size * self.rows
        self.levels = max(2, int(self.room / LEVEL))

    def spans(self, route):
        """Where the services of a route begin and end, and how many signs their customers' labels have."""
        return [(self.scale.at(stop.begin), self.scale.at(stop.end), len(self.label(stop.stop)))
                for stop in stops(self.instance, route, self.scale.depart)[:-1]]

    def label(self, i):
        """What stands at a customer's bar."""
        return short(self.names[i], LONGEST_NAME) if self.is_named else str(i)

    def labels(self, routes):
        """All labels stand in the bars where they fit, else above them where they fit, else nowhere."""
        found = [self.spans(route) for route in routes]
        most = min(11, 0.8 * self.thick)
        for size in (most, 9, 8):
            if size <= most and all(end - begin > 0.64 * size * digits for row in found for begin, end, digits in row):
                return size, 0
        for size, rows in ((9, 1), (8, 1), (9, 2), (8, 2)):
            if self.high >= (3 + 2 * rows) * size and all(rows_of(spans, size, rows) for spans in found):
                return size, rows
        return 0, 0


def rows_of(spans, size, count):
    """The row of each number above a bar, from the lowest one, so that none meets another; None where it can't be."""
    ends, rows = count * [-1.0], []
    for begin, end, digits in spans:
        half = 0.31 * size * digits
        free = [row for row in range(count) if ends[row] + 2 < (begin + end) / 2 - half]
        if not free:
            return None
        rows.append(free[0])
        ends[free[0]] = (begin + end) / 2 + half
    return rows


def box(scale, begin, end, top, high, style, told):
    left = scale.at(begin)
    return '<rect x="%.1f" y="%.1f" width="%.1f" height="%.1f" %s>%s</rect>' % (
        left, top, max(scale.at(end) - left, 1), high, style, title(told))


def levels_of(instance, found, count):
    """A level for each stop's window, so that those of one level don't meet where there are enough."""
    ends, levels = [None] * count, []
    for stop in found:
        free = [level for level, end in enumerate(ends) if end is None or end < instance.ready(stop.stop)]
        level = free[0] if free else min(range(count), key=lambda one: ends[one])
        ends[level] = max(instance.due(stop.stop), ends[level] or 0)
        levels.append(level)
    return levels


def window(lane, stop, y):
    """A customer's window as a line, arrows where it goes on beyond the picture, and a mark where service begins."""
    scale, ready, due = lane.scale, lane.instance.ready(stop.stop), lane.instance.due(stop.stop)
    told = "Customer %d: from %s to %s%s" % (stop.stop, lane.units.moment(ready), lane.units.moment(due),
                                            customer_name(lane.names, stop.stop))
    found = ['<path d="M%.1f %.1fH%.1f" stroke-width="1.6" stroke-opacity="0.6">%s</path>' % (
        scale.at(ready), y, scale.at(due), title(told)),
        '<circle cx="%.1f" cy="%.1f" r="2" stroke="none"/>' % (scale.at(stop.begin), y)]
    if ready < scale.first:
        found.append('<path d="M%.1f %.1fl6 -2.5v5z" stroke="none"/>' % (scale.left - 6, y))
    if due > scale.last:
        found.append('<path d="M%.1f %.1fl-6 -2.5v5z" stroke="none"/>' % (scale.right + 6, y))
    return found


def service(lane, stop, top, row):
    """The bar of a service, and the customer's label in it or in a row above it."""
    scale, middle = lane.scale, (lane.scale.at(stop.begin) + lane.scale.at(stop.end)) / 2
    told = "Service of customer %d: %s to %s%s" % (
        stop.stop, lane.units.moment(stop.begin), lane.units.moment(stop.end), customer_name(lane.names, stop.stop))
    found = [box(scale, stop.begin, stop.end, top, lane.thick, 'stroke="white" stroke-width="0.5"', told)]
    if lane.size:
        y = top - 2 - row * lane.size if lane.rows else top + lane.thick / 2 + 0.36 * lane.size
        found.append(text(middle, y, lane.label(stop.stop), "%.1f" % lane.size, 'text-anchor="middle" stroke="none" fill="%s"'
                          % ("black" if lane.rows else "white")))
    return found


def bars(lane, number, route, top):
    """A route's bar in the lower half of its lane, and its windows in the upper one."""
    scale, instance, thick, moment = lane.scale, lane.instance, lane.thick, lane.units.moment
    middle, hue, found = top + BAR * lane.high, colour(number), stops(instance, route, scale.depart)
    left = leaving(instance, route, scale.depart)
    levels = levels_of(instance, found[:-1], lane.levels)
    # The lines of windows are close together, and close to the bar.
    apart = min(MOST_LEVEL, lane.room / (max(levels) + 1))
    rows = rows_of(lane.spans(route), lane.size, lane.rows) if lane.rows else len(levels) * [0]
    drawn = ['<g fill="%s" stroke="%s">' % (hue, hue)]
    for stop, level, row in zip(found, levels + [0], rows + [0]):
        to = "customer %d" % stop.stop if stop.stop else "the depot"
        drawn.append(box(scale, left, stop.arrival, middle + thick * 0.4, thick * 0.2, 'stroke="none"',
                         "Driving to %s: %s to %s" % (to, moment(left), moment(stop.arrival))))
        if stop.wait:
            drawn.append(box(scale, stop.arrival, stop.begin, middle + thick * 0.15, thick * 0.7,
                             'fill-opacity="0.2" stroke-width="0.5"',
                             "Waiting at %s: %s to %s" % (to, moment(stop.arrival), moment(stop.begin))))
        if stop.stop:
            drawn += service(lane, stop, middle, row)
            drawn += window(lane, stop, top + lane.room - apart * (max(levels) - level + 0.4))
        left = stop.end
    return drawn + ["</g>"]


def named_lane(lane, number, route, top, figures):
    """A lane with the number of its route before it, and its stops, load and distance behind it."""
    y, hue = top + (BAR + THICK / 2) * lane.high, colour(number)
    left, right = lane.scale.left, lane.scale.right
    return of_route(number, [
        text(left - 26, y + 4, str(number + 1), 12, 'text-anchor="end" font-weight="bold" fill="%s"' % hue),
        '<path d="M%.1f %.1fh18" stroke="%s" stroke-width="2.6"%s/>' % (left - 22, y, hue, dash(number)),
        *bars(lane, number, route, top),
        *(text(right + end, y + 4, told, 12, 'text-anchor="end"') for end, told in zip((50, 102, 175), figures))])


def axis(scale, top, bottom, units):
    """Round times below the lanes, and what they are."""
    found = ['<g stroke="#bbb" stroke-width="0.6" fill="#444">']
    marks, is_fine = list(scale.marks(units)), False
    if not units.clock:
        is_fine = any(mark % (10 * units.scale) for mark in marks)
    for time in marks:
        told = units.moment(time) if units.clock or is_fine else "%d" % (time // (10 * units.scale))
        found += ['<path d="M%.1f %.1fV%.1f"/>' % (scale.at(time), top, bottom),
                  text(scale.at(time), bottom + 14, told, 11, 'text-anchor="middle" stroke="none"')]
    told = "time of day" if units.clock else "time, in units of the %s" % ("instance" if units.is_plain else "table")
    return found + [text((scale.left + scale.right) / 2, bottom + 31, told, 11, 'text-anchor="middle" stroke="none"'),
                    "</g>"]


def drawn_bars(scale, instance, routes, names, top, high):
    """The lanes with what is said of them above, and the axis below."""
    bottom, lane = top + high * len(routes), Lane(scale, instance, names, high, routes)
    told = HINT + (CUT if scale.is_cut else "")
    drawn = [text(scale.left, top - 8, told, 11, 'fill="#444"')]
    drawn += [text(scale.right + end, top - 8, word, 11, 'text-anchor="end" fill="#444"')
              for end, word in ((50, "stops"), (102, "load"), (175, "distance"))]
    drawn += axis(scale, top, bottom, lane.units)
    for number, (route, figures) in enumerate(zip(routes, legend_rows(instance, routes, lane.units))):
        drawn += named_lane(lane, number, route, top + high * number, figures)
    return drawn


def picture(instance, routes, cost, names=None, depart=LATE):
    """The lines of the picture: the map, and beside it a lane for each route."""
    frame = Frame(instance)
    scale, top = Scale(instance, routes, frame.width, depart=depart), HEAD + EDGE
    high = min(max((frame.height - top - AXIS) / len(routes), LANES[0]), LANES[1])
    drawn = drawn_map(frame, instance, routes, names, depart) + drawn_bars(scale, instance, routes, names, top, high)
    height = max(frame.height, round(top + high * len(routes) + AXIS))
    return sheet(scale.right + FIGURES, height, told_of(instance, routes, cost, names), drawn)
