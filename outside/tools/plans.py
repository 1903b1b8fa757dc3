"""Our texts as the tools read them: an instance, and a solution that serves each of its customers once."""
from reference.instances import Fault, plan_cost, read
from reference.set_texts import is_of_sets, read_either
from reference.texts import TextFault, read_solution, shown
from tools.headings import FEW, FIRST_LINES, known
from tools.naming import Numbering
from tools.respelling import customers
from tools.timing import EARLY, stops
from tools.tool import Found, Refused, Text, quoted, remember, told_path


# What leaves a text empty.
EMPTY = {"a solution": "a plan (solve leaves the file empty after NO PLAN, OPEN and each fault)",
         "a certificate": "a certificate (solve leaves the file empty after each fault)"}
WITH_SETS = "a certificate with sets"
# How the names of tables end.
TABLES = (".csv", ".tsv")


def of_ours(text, reader, what):
    """What our reader reads; its fault is told with its name, and with the line that has it."""
    try:
        return reader(text.held)
    except (Fault, TextFault) as fault:
        name, _, place = str(fault).partition(" ")
        kind, _, number = place.partition(" ")
        line = int(number) if kind == "line" else text.line_of(int(number)) if kind else text.last()
        if what == "an instance" and is_table(text):
            text.refuse(1, "a table", "an instance: convert it first (outside/convert %s instance.txt), or use "
                        "outside/plan" % text.path)
        if not text.held and what in EMPTY:
            text.refuse(1, "an empty file", EMPTY[what])
        judge_ends(text, line, name, what)
        text.refuse(line, "%s (%s)" % (quoted(text.lines[line - 1]), name), told_place(what))


def is_table(text):
    """Whether a text is a table of customers."""
    lines = [line for _, line in text.filled()][:FIRST_LINES]
    return text.path.lower().endswith(TABLES) or any(known(line, {}) >= FEW for line in lines)


def told_place(what):
    """What a text should be, and the page that tells it."""
    return "%s of docs/formats.md" % what


def judge_ends(text, line, name, what):
    """Refuses a line that our reader doesn't take for its end alone: a carriage return, or no line feed."""
    if what == "an instance" or name not in ("BadLine", "Truncated"):
        return
    lines = text.held.split(b"\n")
    held = lines[line - 1] if line <= len(lines) else lines[-1]
    if b"\r" in held:
        text.refuse(line, "%s with a carriage return behind it (%s)" % (quoted(text.lines[line - 1]), name),
                    "lines that end in a line feed alone")
    if name == "Truncated" and held:
        text.refuse(line, "%s without a line feed behind it (Truncated)" % quoted(text.lines[line - 1]),
                    told_place(what))


def instance_of(path):
    text = Text(path)
    found = of_ours(text, read, "an instance")
    found.held = text.held
    return found


def certificate_of(path):
    return certificate_in(Text(path))


def certificate_in(text):
    """The certificate of a text that was read."""
    found = of_ours(text, read_either, WITH_SETS if is_of_sets(text.held) else "a certificate")
    found.held = text.held
    return found


def respelled_ends(text):
    """Takes a plan whose lines end as Windows has them, or whose last one doesn't end, as one of ours; that is
    noted."""
    held = text.held.replace(b"\r\n", b"\n")
    if held != text.held:
        remember("%s: lines end in a carriage return and a line feed; vrptw itself takes a line feed alone" % text.path)
    if held and not held.endswith(b"\n"):
        held += b"\n"
        remember("%s: the last line has no line feed, which vrptw itself asks for" % text.path)
    text.held = held


def plan_of(instance, path):
    """Routes and cost of a solution; it serves each customer once, at the cost that it tells."""
    text = Text(path)
    respelled_ends(text)
    routes, cost = of_ours(text, read_solution, "a solution")
    found = [[Found(i, line) for i in route] for line, route in enumerate(routes, 1)]
    customers(text, found, Numbering(1, instance.count))
    if plan_cost(instance, routes) != cost:
        text.refuse(text.last(), "a cost of %s" % shown(cost), "%s" % shown(plan_cost(instance, routes)))
    return routes, cost


def defects(instance, routes):
    """Why routes that serve each customer once are no plan: the number of a route, and what is wrong with it."""
    for place, route in enumerate(routes, 1):
        load = sum(instance.demand(i) for i in route)
        late = next((stop for stop in stops(instance, route, EARLY) if stop.slack < 0), None)
        if load > instance.capacity:
            yield place, "a route with a load of %d, and a vehicle holds %d" % (load, instance.capacity)
        elif late:
            yield place, "a route that comes too late: to %s at %s, which is due at %s" % (
                "customer %d" % late.stop if late.stop else "the depot", shown(late.begin),
                shown(late.begin + late.slack))
        if place == instance.fleet + 1:
            yield place, "one route more than the %d vehicles" % instance.fleet


def demand_plan(instance, routes, path):
    """Refuses routes that are no plan, with the line of the first one that isn't right."""
    for place, defect in defects(instance, routes):
        raise Refused("%s: line %d: met %s, wanted a plan of the instance" % (told_path(path), place, defect))


def noted_defects(instance, routes):
    return ["no plan of this instance: route %d is %s" % defect for defect in defects(instance, routes)]
