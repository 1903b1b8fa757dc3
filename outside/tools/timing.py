"""When the vehicles of a plan are where: the stops of each route with their times, as a table."""
from collections import namedtuple

from reference.instances import route_cost
from tools.dialects import dialect_of, spelled
from tools.loads import as_there
from tools.units import units_of
import vrptw

# A stop is a customer, or the depot (0) at the end; times in tenths, slack until the due date at the begin of service.
Stop = namedtuple("Stop", "stop arrival wait begin end load slack")
# Of a route, and of all: the first one that leaves, and the last one that is back.
Sums = namedtuple("Sums", "distance duration waiting driving service leaves back load")
# Of a plan: how many vehicles drive, of how many, and how full they are; and the longest duration.
Shares = namedtuple("Shares", "vehicles fleet fleet_percent load_percent longest_duration")
# When vehicles leave: as late as they may, or when the depot opens.
LATE, EARLY = "late", "early"
# How wide a column is at least.
WIDTH = 10


def add_depart(words):
    """Adds the option that says when vehicles leave."""
    words.add_argument("--depart", choices=(LATE, EARLY), default=LATE,
                       help="vehicles leave as late as they may without being back later (the default), or when the "
                            "depot opens")


def walked(instance, route, leaves):
    """The stops of a route that leaves at a moment, and the return; the slack of a late one is below 0."""
    return [Stop(*stop) for stop in vrptw.walked(instance.arc, instance.rows, route, leaves)]


def leaving(instance, route, depart=LATE):
    """When a vehicle leaves: as late as it may without being back later, or when the depot opens."""
    return instance.ready(0) if depart == EARLY else vrptw.leaving(instance.arc, instance.rows, route)


def stops(instance, route, depart=LATE):
    """The stops of a route, and the return."""
    return walked(instance, route, leaving(instance, route, depart))


def total(rows):
    """The sums of all routes, with the first one that leaves and the last one that is back."""
    found = Sums(*(sum(column) for column in zip(*rows)))
    return found._replace(leaves=min(row.leaves for row in rows), back=max(row.back for row in rows))


def as_shown(stop, units):
    """A stop whose times are cut to what is shown of them, so that they add up as they stand."""
    arrival, begin, end = (units.floor(time) for time in (stop.arrival, stop.begin, stop.end))
    return Stop(stop.stop, arrival, begin - arrival, begin, end, stop.load,
                units.floor(stop.begin + stop.slack) - begin)


def sums_shown(instance, route, units, depart=LATE):
    """The sums of a route, of times as they are shown, so that they add up."""
    leaves = units.floor(leaving(instance, route, depart))
    found = [as_shown(stop, units) for stop in stops(instance, route, depart)]
    driving = sum(stop.arrival - left for stop, left in zip(found, [leaves] + [stop.end for stop in found]))
    return Sums(route_cost(instance, route), found[-1].end - leaves, sum(stop.wait for stop in found), driving,
                sum(stop.end - stop.begin for stop in found), leaves, found[-1].end, found[-1].load)


def shares(instance, sums, units):
    """What part of the fleet drives, how full it is, and how long the longest route takes."""
    part, whole = units.share(sum(row.load for row in sums), instance.capacity, len(sums))
    return Shares(len(sums), instance.fleet, percent(len(sums), instance.fleet), percent(part, whole),
                  max(row.duration for row in sums))


def percent(part, whole):
    """A part in percent, with a decimal."""
    return "%.1f" % (100 * part / whole) if whole else "0.0"


def cells(stop, units):
    """A stop as words: its number, times, load and slack."""
    stop = as_shown(stop, units)
    return [str(stop.stop), units.moment(stop.arrival), units.span(stop.wait), units.moment(stop.begin),
            units.moment(stop.end), units.load(stop.load), units.span(stop.slack)]


def tables(instance, routes, names=None, depart=LATE):
    """The stops of all routes, the sums, and the shares of the plan, as rows of words below their headings; names, and
    what more their table says, stand in the stops' last columns. Times and distances are as they were there, where it
    tells that."""
    units, instance = units_of(names), as_there(instance, names)
    by_stop = [["route", *Stop._fields] + further_cells(names, None)]
    by_route = [["route", *Sums._fields]]
    found = [sums_shown(instance, route, units, depart) for route in routes]
    for place, route in enumerate(routes, 1):
        by_stop += [[str(place), *cells(stop, units)] + further_cells(names, stop.stop)
                    for stop in stops(instance, route, depart)]
    for place, row in [*enumerate(found, 1), ("plan", total(found))]:
        by_route.append([str(place), *sum_cells(row, units)])
    told = shares(instance, found, units)
    by_plan = [list(Shares._fields), [*map(str, told[:-1]), units.span(told.longest_duration)]]
    return by_stop, by_route, by_plan


def sum_cells(row, units):
    """The sums of a route as words."""
    return [units.distance(row.distance), *map(units.span, (row.duration, row.waiting, row.driving, row.service)),
            units.moment(row.leaves), units.moment(row.back), units.load(row.load)]


def further_cells(names, i):
    """A place's name, and what more the table of names says of it; of None the headings."""
    if not names:
        return []
    shown = names.shown()
    return (["name", *(names.headings[place] for place in shown)] if i is None
            else [names[i], *(names.further[i][place] for place in shown)])


def aligned(instance, routes, names=None, depart=LATE):
    by_stop, by_route, by_plan = tables(instance, routes, names, depart)
    columns = 1 + len(Stop._fields)
    wide = max([WIDTH] + [len(word) + 1 for row in by_stop + by_route for word in row[:columns]])
    widths = [max(map(len, column)) for column in zip(*(row[columns:] for row in by_stop))]
    lines = []
    for row in by_stop:
        lines.append("".join([word.rjust(wide) for word in row[:columns]] + [
            "  " + word.ljust(width) for word, width in zip(row[columns:], widths)]).rstrip())
        # An empty line stands behind each return.
        if row[1] == "0":
            lines.append("")
    lines += ["".join(word.rjust(wide) for word in row) for row in by_route] + [""]
    widths = [max(wide, len(word) + 2) for word in by_plan[0]]
    lines += ["".join(map(str.rjust, row, widths)) for row in by_plan]
    return "\n".join(lines + [""])


def separated(instance, routes, names=None, depart=LATE, dialect=None):
    """The tables for a spreadsheet, in a dialect or in that of the sheet that came in."""
    by_stop, by_route, by_plan = tables(instance, routes, names, depart)
    parts = [(by_stop, 1 + len(Stop._fields)), (by_route, len(by_route[0])), (by_plan, len(by_plan[0]))]
    return spelled(parts, dialect or dialect_of(names))
