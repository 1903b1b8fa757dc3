"""One run of `plan` on few customers with a fleet near the edge: the least cost, or why there is no plan and a plan of
those that are served; and one of `sheets`."""
import csv
import io
import os
from judges.kind import Kind, program_by, tools_by
from xml.etree import ElementTree

from cases.edges import edge_words
from cases.exact_tables import all_plans
from cases.random_texts import laid_out
from judges.judging_breaks import standing
from judges.judging_layouts import tool
from judges.judging_partial import demand_most, demand_no_room
from judges.judging_plans import NAMES, drawn
from judges.judging_tables import plan_text
from judges.judging_visits import table_drawn, wrong_line
from judges.running import demand, got, put
from reference import checking
from reference.instances import Instance, read, walk
from reference.optimum import least_cost
from reference.texts import read_solution
from tools.names import clean, table_of
from tools.timing import stops
from tools.units import Units

MOST_CUSTOMERS = 6


def alone(instance, i):
    """The instance of one customer, with the ways over others left out."""
    return Instance(instance.name, instance.fleet, instance.capacity, [instance.rows[0], instance.rows[i]])


def numbers_of(instance, others):
    """By the numbers of an instance of some those of the whole one, in their order."""
    found, rest = [], list(range(1, instance.count + 1))
    for row in others.rows[1:]:
        while rest and instance.rows[rest[0]] != row:
            rest.pop(0)
        demand(rest, "a row of nobody: %r" % (row,))
        found.append(rest.pop(0))
    return found


def told_out(into):
    """The rows of the table of those that are left out."""
    text = got(os.path.join(into, "now", "left_out.csv")).decode()
    return list(csv.DictReader(io.StringIO(text)))


def demand_advice(instance, advice):
    """What would do does, by all plans: vehicles more or that hold more; a due date by the row of its customer."""
    for words in advice:
        number = [word for word in words.split() if word.isdigit()]
        if not words.endswith("vehicles") and "that hold" not in words:
            continue
        is_room = "that hold" in words
        other = Instance(instance.name, instance.fleet if is_room else int(number[0]),
                         int(number[0]) if is_room else instance.capacity, instance.rows)
        demand(least_cost(other) is not None, "%s wouldn't do" % words)


def demand_due(instance, routes, i, words):
    """A due date does for one who is left out, in the plan that stands."""
    due = round(10 * float(words.split()[1]))
    rows = [row[:4] + (due,) + row[5:] if at == i else row for at, row in enumerate(instance.rows)]
    other = Instance(instance.name, instance.fleet, instance.capacity, rows)
    longer = [route[:at] + [i] + route[at:] for route in routes for at in range(len(route) + 1)]
    longer += [[i]] if len(routes) < instance.fleet else []
    demand(any(walk(other, route) for route in longer), "%s doesn't do for %d" % (words, i))


def judge_others(program, folder, instance, into, out):
    """Those who are left out are as few as can be or one more, each told with its reason, and the others' plan is one,
    by the check."""
    served, rows = os.path.join(into, "now", "served"), told_out(into)
    if not os.path.isdir(served):
        demand(all(least_cost(alone(instance, i)) is None for i in range(1, instance.count + 1)),
               "nobody is served: %r" % out)
        return "nobody served"
    text, kind, cost, _ = standing(program, folder, served)
    others = read(text)
    numbers = numbers_of(instance, others)
    demand(kind in ("BEST", "GAP") and len(rows) == instance.count - others.count > 0, "the others: %s" % kind)
    left = [i for i in range(1, instance.count + 1) if i not in numbers]
    routes = [[numbers[i - 1] for i in route] for route in read_solution(got(os.path.join(served, "plan.txt")))[0]]
    demand_no_room(instance, routes, left)
    demand_most(instance, [0] * (instance.count + 1), numbers)
    demand("Left out: %d customer" % len(left) in out and all(row["reason"] in out for row in rows[:10]),
           "who is left out isn't told: %r" % out)
    demand(kind != "BEST" or least_cost(others) == cost, "the others' plan isn't the cheapest")
    return "%d of %d served" % (others.count, instance.count), left, routes, rows


def judge_advice(instance, out, found):
    """What is said to do does."""
    if isinstance(found, str):
        return found
    told, left, routes, rows = found
    advice = [line.split(": ", 1)[1].rstrip(".").split(", or ") for line in out.split("\n")
              if line.startswith("What would do: ")]
    demand_advice(instance, advice[0] if advice else [])
    for i, row in zip(left, rows):
        if row["would_do"]:
            demand_due(instance, routes, i, row["would_do"])
    return told


def instance_given(folder, random):
    """An instance with a fleet near the edge: the words that give it, and its least cost by all plans, or None."""
    text, source = laid_out(random, edge_words(random, random.randint(1, MOST_CUSTOMERS))), os.path.join(
        folder, "source.txt")
    put(source, text)
    return [source], least_cost(read(text))


def table_given(folder, random):
    """The same of a table with stops without demand, whose least cost follows from its own numbers."""
    table = table_drawn(random)
    while wrong_line(table) is not None:
        table = table_drawn(random)
    source = os.path.join(folder, "source.csv")
    put(source, table.text(random))
    return [source, "--vehicles", str(table.fleet), "--capacity", str(table.capacity)], min(
        (10 * table.scale * table.cost(plan) for plan in all_plans(table.count) if table.fits(plan)), default=None)


def judge_served(program, folder, random):
    """A plan by the command, or a plan of the others."""
    words, least = random.choice([instance_given, instance_given, table_given])(folder, random)
    into = os.path.join(folder, "monday")
    out, errors, status = tool("plan", *words, "--into", into, "--seconds", "30", "--program", program)
    out = out.decode()
    demand("Traceback" not in errors, "plan: %r" % errors)
    text, kind, cost, _ = standing(program, folder, os.path.join(into, "now"))
    if least is not None:
        demand(status == 0 and cost is not None and cost >= least and (kind != "BEST" or cost == least),
               "status %d, %s %s, and the least cost is %d" % (status, kind, cost, least))
        return kind
    demand(status == 1 and kind in ("NO PLAN", "OPEN"), "status %d, %s, and there is no plan" % (status, kind))
    found = judge_others(program, folder, read(text), into, out)
    return judge_advice(read(text), out, found) if len(words) == 1 else found[0] if len(found) == 4 else found


def texts_in(element):
    return [text.strip() for text in element.itertext() if text.strip()]


# What a customer without a name, a window and a sheet's heading are called in each language.
SPOKEN = {"en": ("customer %d", "%s to %s", "Vehicle %d"), "de": ("Kunde %d", "%s bis %s", "Fahrzeug %d"),
          "fr": ("client %d", "%s à %s", "Véhicule %d")}


def judge_sheet(section, instance, route, names, units, spoken):
    """Each stop of a vehicle in its order, with what is handed over, and what is left falls to nothing; whoever is
    loaded last is served first."""
    rows = [row for row in section.iter() if row.tag.endswith("}tr")][1:]
    demand(len(rows) == len(route) + 2, "%d rows for %d stops" % (len(rows), len(route)))
    left, called = sum(instance.demand(i) for i in route), []
    for row, i, stop in zip(rows[1:-1], route, stops(instance, route)):
        cells, left = list(row), left - instance.demand(i)
        told = [" ".join(texts_in(cell)) for cell in cells]
        called.append(names[i] if names and names[i] != str(i) else spoken[0] % i)
        demand(texts_in(cells[1])[0] == called[-1], "%r, and %r is right" % (told, called[-1]))
        demand(told[2] == spoken[1] % (units.moment(instance.ready(i)), units.moment(instance.due(i))), "%r" % told)
        demand(units.moment(stop.begin) in told[3], "%r, and it begins at %s" % (told, units.moment(stop.begin)))
        demand(told[5] == units.moment(stop.end), "%r, and it leaves at %s" % (told, units.moment(stop.end)))
        demand(told[6:8] == [units.load(instance.demand(i)), units.load(left)], "%r, and %d are left" % (told, left))
    demand(texts_in(list(rows[-1])[7]) == [units.load(0)], "something comes back")
    loaded = [" ".join(texts_in(item)) for item in section.iter() if item.tag.endswith("}li")]
    right = ["%s: %s" % (name, units.load(instance.demand(i))) for name, i in zip(called, route)][::-1]
    demand(loaded == (right if len(route) > 1 else []), "%r, and %r is right" % (loaded, right))


def vehicles_drawn(random, count, path):
    """A table of vehicles, and what their sheets say of them."""
    rows = [("Van %d" % i, random.choice(["", "Ann & Co"]), random.choice(["", "05:45"])) for i in range(count)]
    put(path, ("name,driver,start\n" + "".join(",".join(row) + "\n" for row in rows)).encode())
    return rows


def judge_sheets(folder, random):
    """The sheets of a random plan, with names or none, by times as they are or of the day, in a language."""
    instance, _, path, routes = drawn(folder, random, 9)
    plan, table, target, vans = (os.path.join(folder, name) for name in ("solution", "names", "page.html", "vans"))
    put(plan, plan_text(instance, routes))
    units = random.choice([Units(), Units(clock=1), Units(scale=10, clock=1, speed=30), Units(scale=10)])
    names = [random.choice(NAMES) or (str(i) if i else "depot") for i in range(instance.count + 1)]
    has_names, language = random.randrange(4) > 0, random.choice(list(SPOKEN))
    put(table, table_of(names, units=units).encode())
    vehicles = vehicles_drawn(random, len(routes), vans) if random.randrange(2) else None
    words = ["sheets", path, plan, "-o", target, "--lang", language, "--title", "<Round>", "--date", "1 May",
             *(["--names", table] if has_names else []), *(["--vehicles-csv", vans] if vehicles else [])]
    out, errors, status = tool(*words)
    if checking.plan_defect(instance, routes):
        demand((out, status, got(target)) == (b"", 1, None), "no plan: status %d, %r" % (status, errors))
        return "refused"
    demand((out, errors, status) == (b"", "", 0), "sheets: status %d, %r" % (status, errors))
    root = ElementTree.fromstring(got(target))
    sections = [part for part in root.iter() if part.tag.endswith("}section")]
    demand(len(sections) == len(routes), "%d sheets for %d routes" % (len(sections), len(routes)))
    for place, (section, route) in enumerate(zip(sections, routes), 1):
        judge_sheet(section, instance, route, [clean(name) for name in names] if has_names else None,
                    units if has_names else Units(), SPOKEN[language])
        judge_head(section, SPOKEN[language][2] % place, vehicles and vehicles[place - 1])
    return "with names" if has_names else "by numbers"


def judge_head(section, called, vehicle):
    """Title, date, vehicle and driver stand above the stops."""
    head = texts_in(section)[:3]
    demand(head[0] == "<Round>, 1 May", "%r" % head)
    demand(head[1] == (called + ": " + vehicle[0] if vehicle else called), "%r" % head)
    demand(not vehicle or all(word in head[2] for word in vehicle[1:]), "%r, and %r is right" % (head, vehicle))


KINDS = {
    "sheets": Kind("the drivers' sheets of a plan: each stop with its times, and what is left falls to nothing", 20,
                   tools_by(judge_sheets)),
    "served": Kind("plan with a fleet near the edge: the least cost, or why not, and a plan of the others", 6,
                   program_by(judge_served)),
}
