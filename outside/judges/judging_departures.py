"""One run of all that tells when vehicles leave: each leaves as late as it may without being back later, by a walk
written anew, and timetable, report, sheets and bars say the same."""
import csv
import json
import os
import re

from cases.random_texts import laid_out
from cases.shapes import waiting
from judges.judging_layouts import tool
from judges.judging_tables import plan_text
from judges.kind import Kind, tools_by
from judges.running import demand, got, put
from reference.instances import read
from tools.names import table_of
from tools.units import Units

CELL = re.compile(r"<td[^>]*>([^<]*)</td>")
# A route of the picture begins with the drive to its first stop.
DRIVE = re.compile(r"Driving to customer ([0-9]+): (.*?) to (.*?)</title>")
SHEET = re.compile(r"Leaves at (.*?), back at (.*?): (.*?) of driving, (.*?) of service, (.*?) of waiting\.")


def walked(instance, route, leaves):
    """The arrivals and begins of a route that leaves then, or None where a due date is missed; times in tenths."""
    clock, before, found = leaves, 0, []
    for i in [*route, 0]:
        came = clock + instance.arc[before][i]
        served = came if came > instance.ready(i) else instance.ready(i)
        if served > instance.due(i):
            return None
        found.append((came, served))
        clock, before = served + instance.service(i), i
    return found


def latest(instance, route):
    """The latest moment at which a vehicle may leave that is back as early as can be, by halving: who leaves later is
    nowhere earlier."""
    first, last = instance.ready(0), instance.due(0)
    back = walked(instance, route, first)[-1][1]
    while first < last:
        middle = (first + last + 1) // 2
        found = walked(instance, route, middle)
        first, last = (middle, last) if found and found[-1][1] == back else (first, middle - 1)
    return first


def shown(tenths, units):
    """A moment as people read it: of the day cut to the minute, else with a tenth of a unit."""
    if not units.clock:
        return units.number(tenths)
    days, minutes = divmod(tenths // (10 * units.scale), 24 * 60)
    return "%02d:%02d%s" % (*divmod(minutes, 60), " +%d" % days if days else "")


def demand_moved(instance, route, leaves, one):
    """A departure that is a minute later, or a tenth, brings the vehicle back later or misses a due date."""
    back = walked(instance, route, leaves)[-1][1]
    for more in (one, 1):
        moved = walked(instance, route, leaves + more)
        demand(moved is None or moved[-1][1] > back, "%r may leave %d later than at %d" % (route, more, leaves))


def tables_of(words):
    """The three tables of a timetable, and its object."""
    out, errors, status = tool("timetable", *words, "--csv")
    demand((errors, status) == ("", 0), "timetable: status %d, %r" % (status, errors))
    parts = [list(csv.DictReader(part.splitlines())) for part in out.decode().split("\n\n")]
    return (*parts, json.loads(tool("timetable", *words, "--json")[0]))


def demand_stops(instance, route, leaves, rows, units):
    """Arrivals and begins are those of the walk."""
    right = [tuple(shown(time, units) for time in pair) for pair in walked(instance, route, leaves)]
    told = [(row["arrival"], row["begin"]) for row in rows]
    demand(told == right, "%r: %r, and %r is right" % (route, told, right))


def minutes(word):
    """A time that is told, in minutes or in tenths of a unit."""
    clock = re.match(r"([0-9]+):([0-9]{2})(?: \+([0-9]+))?\Z", word)
    return 60 * int(clock[1]) + int(clock[2]) + 24 * 60 * int(clock[3] or 0) if clock else float(word)


def demand_sums(row):
    """What is told of a route adds up: it drives, serves and waits from leaving to the return."""
    parts = [minutes(row[name]) for name in ("driving", "service", "waiting")]
    duration = minutes(row["duration"])
    demand(abs(sum(parts) - duration) < 0.01 and abs(minutes(row["back"]) - minutes(row["leaves"]) - duration) < 0.01,
           "doesn't add up: %r" % row)


def demand_plan(sums, shares, instance):
    """The sums and shares of the plan are those of its routes."""
    routes, whole, told = sums[:-1], sums[-1], shares[0]
    for name in ("duration", "driving", "service", "waiting"):
        demand(abs(sum(minutes(row[name]) for row in routes) - minutes(whole[name])) < 0.01, "%s: %r" % (name, sums))
    right = ["%d" % len(routes), "%d" % instance.fleet, "%.1f" % (100 * len(routes) / instance.fleet), "%.1f" % (
        100 * sum(int(row["load"]) for row in routes) / (len(routes) * instance.capacity))]
    demand(list(told.values())[:4] == right, "%r, and %r is right" % (told, right))
    longest = max(minutes(row["duration"]) for row in routes)
    demand(minutes(told["longest_duration"]) == longest, "%r, and %s is right" % (told, longest))


def demand_pages(folder, words, sums):
    """The page, the sheets and the bars have the same moments."""
    page, sheets = os.path.join(folder, "page.html"), os.path.join(folder, "sheets.html")
    for name, path in (("report", page), ("sheets", sheets)):
        out, errors, status = tool(name, *words, "-o", path)
        demand((out, errors, status) == (b"", "", 0), "%s: status %d, %r" % (name, status, errors))
    names = ("leaves", "back", "driving", "service", "waiting", "duration")
    right = [tuple(row[name] for name in names) for row in sums[:-1]]
    figures = got(page).decode().split('<table class="figures">')[1].split("</table>")[0]
    told = [tuple(CELL.findall(row)[-6:]) for row in figures.split("<tr")[2:]]
    demand(told == right, "report: %r, and %r is right" % (told, right))
    told = SHEET.findall(got(sheets).decode())
    demand(told == [row[:5] for row in right], "sheets: %r, and %r is right" % (told, right))


def demand_bars(words, routes, stops, sums):
    """The bars begin with the drive from the moment at which the vehicle leaves."""
    out, errors, status = tool("draw", *words, "--times")
    demand((errors, status) == ("", 0), "draw: status %d, %r" % (status, errors))
    drives = {int(stop): (left, came) for stop, left, came in DRIVE.findall(out.decode())}
    for place, (route, row) in enumerate(zip(routes, sums), 1):
        came = next(stop["arrival"] for stop in stops if stop["route"] == str(place))
        demand(drives[route[0]] == (row["leaves"], came), "bars: %r, and %r is right" % (
            drives[route[0]], (row["leaves"], came)))


def judge_departures(folder, random):
    """A random plan with waits and narrow windows, by times as they are or of the day, that leaves late or early."""
    path, plan, table = (os.path.join(folder, name) for name in ("instance", "plan", "names"))
    words, routes = waiting(random, random.randint(1, 9))
    put(path, laid_out(random, words))
    instance = read(got(path))
    put(plan, plan_text(instance, routes))
    units = random.choice([Units(), Units(clock=1), Units(scale=10, clock=1)])
    put(table, table_of(["depot"] + ["stop %d" % i for i in range(1, instance.count + 1)], units=units).encode())
    is_early = random.randrange(4) == 0
    words = [path, plan, "--names", table, *(["--depart", "early"] if is_early else [])]
    stops, sums, shares, told = tables_of(words)
    for place, (route, row) in enumerate(zip(routes, sums), 1):
        leaves = instance.ready(0) if is_early else latest(instance, route)
        demand(row["leaves"] == shown(leaves, units), "%r leaves at %s, and %s is right" % (
            route, row["leaves"], shown(leaves, units)))
        if not is_early:
            demand_moved(instance, route, leaves, 10 * units.scale)
        demand_stops(instance, route, leaves, [stop for stop in stops if stop["route"] == str(place)], units)
        demand_sums(row)
    spelled = [row["clock"]["leaves"] if units.clock else str(row["leaves"]) for row in told["routes"]]
    demand(spelled == [row["leaves"] for row in sums[:-1]], "%r" % told)
    demand_plan(sums, shares, instance)
    demand_pages(folder, words, sums)
    demand_bars(words, routes, stops, sums)
    return "early" if is_early else "late"


KINDS = {
    "departures": Kind("when vehicles leave, by timetable, report, sheets and draw: later they'd be back later", 12,
                       tools_by(judge_departures)),
}
