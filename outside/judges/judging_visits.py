"""One run of `convert` on a table with stops without demand: by all plans, what fits and costs there is what fits and
costs in the instance, and the tools show the loads and the capacity of the table."""
import csv
import os
import re
from fractions import Fraction

from cases.exact_tables import DEMAND, DUE, ExactTable, all_plans, power_for
from judges.judging_layouts import demand_notes, tool
from judges.judging_loads import judge_counted
from judges.judging_tables import plan_text
from judges.kind import Kind, tools_by
from judges.running import demand, got, put
from reference.instances import is_plan, plan_cost, read
from reference.optimum import least_cost

MOST = 10_000
# The line of the first customer, below the heading and the depot.
FIRST_LINE = 3


def capacity_drawn(random, demands, visits, tens):
    """A capacity that some demands just fill, or one near the limit."""
    kind, part = random.randrange(4), sum(random.sample(demands, random.randint(1, len(demands))))
    if kind == 0:
        return min(MOST, max(1, (MOST - visits) // (tens * (visits + 1)) + random.choice([-1, 0, 0, 1])))
    return max(1, int(part) + random.choice([0, 0, 0, 1, -1]))


def table_drawn(random):
    """A table of 1 to 5 customers, of which any number have no demand, and whose vehicles are often exactly full."""
    count, tenths = random.choice([1, 2, 3, 3, 4, 4, 5]), random.choice([1, 1, 1, 10])
    parts = random.choice([1, 1, 1, 2, 4, 10, 100])
    demands = [Fraction(random.randint(1, 9 * parts), parts) for _ in range(count)]
    for i in random.sample(range(count), random.choice([0, 1, 1, 2, random.randint(0, count), count]) % (count + 1)):
        demands[i] = Fraction(0)
    tens = power_for(demands)
    capacity = capacity_drawn(random, demands, demands.count(0), tens)
    if random.randrange(3) == 0:
        # A full vehicle, beside which nothing has room.
        demands[random.randrange(count)] = Fraction(capacity)
    far = random.choice([3, 30])
    rows = [(*place(random, far, tenths), Fraction(0), Fraction(0), Fraction(random.choice([6 * far, 1000, 1000])),
             Fraction(0))]
    for own in demands:
        ready = random.choice([0, 0, random.randint(0, 3 * far)])
        due = random.choice([1000, 1000, 1000, ready + random.randint(far, 4 * far)])
        rows.append((*place(random, far, tenths), own, Fraction(ready), Fraction(due), Fraction(random.choice([0, 5]))))
    return ExactTable(rows, random.choice([1, 2, 2, 3, 3]), capacity)


def place(random, far, tenths):
    """Coordinates, whole or in tenths."""
    return tuple(Fraction(random.randint(0, far * tenths), tenths) for _ in "xy")


def wrong_line(table):
    """The line of what the limits don't hold by a power of ten, or None."""
    demands, visits = [row[DEMAND] for row in table.rows[1:]], table.visits()
    tens = power_for(demands)
    if tens > 1 and tens * table.capacity > MOST:
        return FIRST_LINE + next(i for i, own in enumerate(demands) if own.denominator > 1)
    if not visits:
        return None
    most = tens * (len(visits) + 1) * max(demands)
    is_held = max(most, tens * (len(visits) + 1) * table.capacity + len(visits)) <= MOST
    return None if is_held else FIRST_LINE - 1 + visits[0]


def demand_plans(table, instance):
    """Each plan fits where it does in the table, at the same cost; answers those that fit."""
    found, fine = [], 10 * table.scale
    for plan in all_plans(table.count):
        fits = table.fits(plan)
        demand(is_plan(instance, plan) == fits, "%r %s in the table, and not so in the instance" % (
            plan, "fits" if fits else "doesn't fit"))
        demand(plan_cost(instance, plan) == fine * table.cost(plan), "%r costs %d, and %s is right" % (
            plan, plan_cost(instance, plan), fine * table.cost(plan)))
        found += [plan] if fits else []
    least, right = least_cost(instance), min((fine * table.cost(plan) for plan in found), default=None)
    demand(least == right, "the least cost is %s, and %s is right" % (least, right))
    return found


def told(load, tens):
    """A load as a table has it, with the digits of its demands."""
    digits = len(str(tens)) - 1
    return "%.*f" % (digits, load) if digits else "%d" % load


def demand_timetable(table, plan, tens, words):
    """The timetable has the load behind each stop."""
    out, _, status = tool("timetable", *words, "--csv")
    demand(status == 0, "timetable: status %d" % status)
    rows = iter(list(csv.DictReader(out.decode().split("\n\n")[0].splitlines())))
    for route in plan:
        for at in [*range(1, len(route) + 1), len(route)]:
            row = next(rows)
            demand(row["load"] == told(table.load(route[:at]), tens), "timetable: %r of %r" % (row, route))


def demand_page(table, plan, tens, words, folder):
    """The report says loads and capacity of the table, and how full the vehicles are."""
    path = os.path.join(folder, "report.html")
    out, errors, status = tool("report", *words, "-o", path)
    demand((out, status) == (b"", 0), "report: status %d, %r" % (status, errors))
    page, whole = got(path).decode(), table.load(range(1, table.count + 1))
    bars = re.findall(r'<i style="width:([0-9]+)%"></i><b>([0-9.]+) of ([0-9.]+)</b>', page)
    right = [("%d" % (100 * table.load(route) // table.capacity), told(table.load(route), tens),
              told(table.capacity, tens)) for route in plan]
    demand(bars == right, "report: %r, and %r is right" % (bars, right))
    share = "%.1f %%" % float(100 * whole / (len(plan) * table.capacity))
    for part in ("of capacity %s, each" % told(table.capacity, tens), share, "<td>%s, and a vehicle holds %s</td>" % (
            told(whole, tens), told(table.capacity, tens))):
        demand(part in page, "report: no %r" % part)


def demand_sheets(table, plan, tens, words, folder):
    """The sheets have what is handed over and what is left, and a visit where nothing is."""
    path = os.path.join(folder, "drivers.html")
    out, errors, status = tool("sheets", *words, "-o", path)
    demand((out, status) == (b"", 0), "sheets: status %d, %r" % (status, errors))
    cells = re.findall(r'data-what="(hand over|left in vehicle)">([^<]*)</td>', got(path).decode())
    right = []
    for route in plan:
        right += [("hand over", ""), ("left in vehicle", told(table.load(route), tens))]
        for at, i in enumerate(route, 1):
            own = table.rows[i][DEMAND]
            right += [("hand over", told(own, tens) if own else "a visit"),
                      ("left in vehicle", told(table.load(route[at:]), tens))]
        right += [("hand over", ""), ("left in vehicle", told(0, tens))]
    demand(cells == right, "sheets: %r, and %r is right" % (cells, right))


def demand_reasons(table, tens, words, errors):
    """Where demands are too much it is told, in the numbers of the table, by `why` and by the note."""
    out, _, _ = tool("why", words[0], *words[2:])
    heavy = [row[DEMAND] for row in table.rows[1:] if row[DEMAND] > table.capacity]
    whole = table.load(range(1, table.count + 1))
    for own in heavy:
        right = "met a demand of %s, wanted at most %s, which a vehicle holds" % (
            told(own, tens), told(table.capacity, tens))
        demand(right in out.decode(), "why: %r, and no %r" % (out, right))
    right = "met a demand of %s, wanted at most %s, which " % (told(whole, tens), told(
        table.fleet * table.capacity, tens))
    is_much = whole > table.fleet * table.capacity
    demand(("the fleet can't serve all: " + right in out.decode()) == is_much, "why: %r, and %s is right" % (
        out, is_much))
    right = "the demands are %s together, and %s of %s hold%s %s\n" % (
        told(whole, tens), "1 vehicle" if table.fleet == 1 else "%d vehicles" % table.fleet,
        told(table.capacity, tens), "s" * (table.fleet == 1), told(table.fleet * table.capacity, tens))
    demand((right in errors) == (is_much and not heavy), "convert: %r" % errors)


def judge_visits(folder, random):
    """A table with any number of stops without demand, by all plans, and what a tool shows of it."""
    table = table_drawn(random)
    if wrong_line(table) is not None:
        return "beyond the limits, " + judge_counted(folder, random, table)
    source, target, names, plan = (os.path.join(folder, name) for name in (
        "table.csv", "instance.txt", "names.csv", "plan.txt"))
    put(source, table.text(random))
    came = tool("convert", source, target, "--names", names, "--vehicles", str(table.fleet), "--capacity",
                str(table.capacity))
    out, errors, status = came
    demand((out, status) == (b"", 0), "convert: status %d, %r" % (status, errors))
    demand_notes("convert", errors)
    instance = read(got(target))
    demand(instance.due(0) == 10 * table.scale * table.rows[0][DUE], "another scale")
    found, tens, words = demand_plans(table, instance), power_for([row[DEMAND] for row in table.rows]), [target, plan]
    if random.randrange(4) == 0:
        demand_reasons(table, tens, [*words, "--names", names], errors)
    if not found:
        return "no plan"
    shown = random.choice(found)
    put(plan, plan_text(instance, shown))
    words += ["--names", names]
    kind = random.randrange(9)
    if kind == 0:
        demand_timetable(table, shown, tens, words)
    elif kind == 1:
        demand_page(table, shown, tens, words, folder)
    elif kind == 2:
        demand_sheets(table, shown, tens, words, folder)
    return "with visits" if table.visits() else "without visits"


KINDS = {
    "visits": Kind("a table with stops without demand, by convert: what fits there fits here, by all plans", 30,
                   tools_by(judge_visits)),
}
