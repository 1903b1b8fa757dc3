"""One run of `convert` on a table with loads that no power of ten makes whole within the limits: what fits in the
instance fits in the table, by all plans, and no load counts more than is told; the tools show the table's loads."""
import csv
import math
import os
import re
from fractions import Fraction

from cases.exact_tables import DEMAND, ExactTable, all_plans, power_for, spelled
from judges.judging_layouts import demand_notes, tool
from judges.judging_tables import plan_text
from judges.kind import Kind, tools_by
from judges.running import demand, got, put
from reference.instances import is_plan, read

MOST = 10_000
LOST = re.compile(r"loads are counted in parts of the capacity, ([0-9]+) of it: each load counts up to ([0-9.]+) more")
EXACT = "loads are counted in other units, so they fit exactly where they did"


def table_drawn(random):
    """A table of 1 to 5 customers, with loads of many digits, or above the limit, or with a measure in common; now and
    then exactly full, or with visits."""
    count, parts = random.choice([1, 2, 3, 3, 4, 5]), random.choice([1, 10, 100, 1000])
    high = random.choice([20, 1000, 9000, 200_000])
    measure = random.choice([1, 1, 1, 250, Fraction(2, 5)])
    demands = [measure * Fraction(random.randint(1, max(1, int(high * parts / measure))), parts) for _ in range(count)]
    demands = [Fraction(int(own * 1000), 1000) or Fraction(1) for own in demands]
    for i in random.sample(range(count), random.choice([0, 0, 1]) % (count + 1)):
        demands[i] = Fraction(0)
    whole = sum(random.sample(demands, random.randint(1, count))) or Fraction(5, 2)
    capacity = max([whole, *demands]) + random.choice([0, 0, Fraction(1, parts), high])
    if random.randrange(6) == 0 and max(demands) <= MOST:
        capacity = Fraction(max(1, int(max(demands) / 2)))
    rows = [(Fraction(0),) * 4 + (Fraction(1000), Fraction(0))] + [
        (*(Fraction(random.randint(0, 30)) for _ in "xy"), own, Fraction(0), Fraction(1000), Fraction(0))
        for own in demands]
    return ExactTable(rows, random.randint(1, 3), capacity)


def finest(table):
    """The parts of the capacity in which loads are to be counted, and whether that is refused by their sum."""
    loads, visits = [row[DEMAND] for row in table.rows], len(table.visits())
    most = (MOST - visits) // (visits + 1)
    parts = math.floor(most * table.capacity / max(table.capacity, *loads))
    counts = [math.ceil(load * parts / table.capacity) for load in loads] if parts else []
    return parts, sum(loads) <= table.fleet * table.capacity and sum(counts) > table.fleet * parts


def demand_law(table, instance, errors):
    """What the instance allows the table allows, the same where that is told; answers the plans."""
    found = []
    for plan in all_plans(table.count):
        here, there = is_plan(instance, plan), table.fits(plan)
        demand(there if here else not there or EXACT not in errors and LOST.search(errors),
               "%r: %s, and %s in the table: %r" % (plan, here, there, errors))
        found += [plan] if here else []
    return found


def demand_lost(table, instance, errors):
    """No load counts more than is told, and one does nearly; the parts are the finest."""
    told, visits = LOST.search(errors), len(table.visits())
    if told is None:
        return
    parts = finest(table)[0]
    demand(int(told[1]) == parts and instance.capacity == parts * (visits + 1) + visits, "%d is the capacity, and %d "
           "parts are right" % (instance.capacity, parts))
    more = [Fraction(instance.demand(i) // (visits + 1), parts) * table.capacity - table.rows[i][DEMAND]
            for i in range(1, table.count + 1) if table.rows[i][DEMAND]]
    demand(max(more) <= Fraction(told[2]) <= max(more) * Fraction(11, 10) and min(more) >= 0, "%r: %s" % (
        list(map(float, more)), errors))


def demand_shown(table, instance, plan, folder):
    """The timetable has the loads of the table, and convert makes the same instance of its object."""
    paths = [os.path.join(folder, name) for name in ("i.txt", "p.txt", "n.csv", "o.json", "again.txt")]
    put(paths[1], plan_text(instance, plan))
    words = ["timetable", *paths[:2], "--names", paths[2]]
    rows = csv.DictReader(tool(*words, "--csv", "--dialect", "plain")[0].decode().split("\n\n")[0].splitlines())
    shown = [Fraction(row["load"]) for row in rows]
    right = [table.load(route[:at]) for route in plan for at in [*range(1, len(route) + 1), len(route)]]
    demand(shown == right, "%r, and %r is right" % (list(map(float, shown)), list(map(float, right))))
    put(paths[3], tool(*words, "--json")[0])
    out, errors, status = tool("convert", paths[3], paths[4])
    again = status == 0 and read(got(paths[4]))
    demand(again and (again.rows, again.capacity) == (instance.rows, instance.capacity), "of the object: %r" % errors)
    page = os.path.join(folder, "page.html")
    out, errors, status = tool("report", *paths[:2], "--names", paths[2], "-o", page)
    held = got(page).decode().partition("and a vehicle holds ")[2].split("<")[0]
    demand(status == 0 and Fraction(held) == table.capacity, "report: %r, %r" % (held, errors))


def judge_loads(folder, random):
    """A drawn table."""
    return judge_counted(folder, random, table_drawn(random))


def judge_counted(folder, random, table):
    """A table, converted or refused."""
    source, target, names = (os.path.join(folder, name) for name in ("t.csv", "i.txt", "n.csv"))
    put(source, table.text(random))
    out, errors, status = tool("convert", source, target, "--vehicles", str(table.fleet), "--capacity", spelled(
        table.capacity), "--names", names)
    tens = power_for([table.capacity, *(row[DEMAND] for row in table.rows)])
    if status:
        is_one = "fit once they are rounded" in errors and errors.count("\n") == 1
        demand(finest(table)[1] and is_one and got(target) is None, "refused: %r" % errors)
        return "refused"
    demand_notes("convert", errors)
    instance = read(got(target))
    found = demand_law(table, instance, errors)
    demand(not (LOST.search(errors) and finest(table)[1]), "not refused: %r" % errors)
    demand_lost(table, instance, errors)
    if found and random.randrange(3) == 0 and (EXACT in errors or LOST.search(errors)):
        demand_shown(table, instance, random.choice(found), folder)
    return "rounded" if LOST.search(errors) else "counted" if EXACT in errors else "by %d" % tens


KINDS = {
    "loads": Kind("a table with loads that the limits don't hold, by convert: what fits here fits there, by all plans",
                  30, tools_by(judge_loads)),
}
