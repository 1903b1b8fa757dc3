"""Solutions as other solvers spell them, whole and with one thing wrong in a known line."""
from math import fsum, hypot

from cases.tool_texts import Line, pick
from reference.building import build

BLOCKS = [["Instance name : x", "Authors : A. Solver", "Date : 2020", "Reference : none", "Solution"],
          ["Solution results", "================", "    # routes: 10", "   objective: %s", "    distance: 5", "Routes",
           "------"]]
COST_LINES = ["Cost %s", "Cost: %s", "cost : %s", "COST %s", "Objective: %s"]


def partition(random, instance):
    """Routes that serve each customer once, often a plan."""
    if random.randrange(2):
        routes, left = build(instance)
        return [list(route) for route in routes] + [[i] for i in left]
    rest, routes = random.sample(range(1, instance.count + 1), instance.count), []
    while rest:
        size = random.randint(1, len(rest))
        routes.append(rest[:size])
        rest = rest[size:]
    return routes


def lengths(instance, routes, scale):
    """The lengths of all arcs as a machine has them, where coordinates weren't multiplied by the scale."""
    rows = instance.rows
    return [hypot(rows[a][0] - rows[b][0], rows[a][1] - rows[b][1]) / scale
            for route in routes for a, b in zip([0] + route, route + [0])]


def cost_told(random, instance, routes, cost, scale):
    """A cost as it is told elsewhere, or None, and what the note on it says of the reason."""
    found = lengths(instance, routes, scale)
    whole, ours = fsum(found), ("%d.%d" if scale == 1 else "%d.%02d") % divmod(cost, 10 * scale)
    kinds = [(None, None), (ours, None), (ours + "00", None),
             ("%d" % cost, "the same"), ("%.2f" % whole, "the exact sum is rounded to a hundredth"),
             ("%.6f" % whole, "the exact sum is rounded to a 6th digit"), (repr(whole), "the exact sum is rounded"),
             ("%d" % sum(int(length + 0.5) for length in found),
              "each arc is rounded to the nearest whole unit"), ("%d.5" % (7 * cost + 1), "no usual rounding")]
    word, reason = random.choice(kinds)
    return word, reason if word is not None and float(word) != float(ours) else None


def with_depots(random, stops, first, last):
    """The stops with the depot at one end or both, or at none."""
    begin, end = random.choice([([], []), ([first], [last]), ([first], []), ([], [last])])
    return begin + stops + end


def spelled(random, count, routes, word, from_zero):
    """The lines of a solution."""
    shift = 1 if from_zero else 0
    depots = (count, count) if from_zero else (0, random.choice([0, count + 1]))
    stops = [with_depots(random, [i - shift for i in route], *depots) for route in routes]
    kind = random.choice(["named", "named", "lists", "list each", "one line"])
    if kind == "named":
        form = random.choice(["Route #%d: %s", "Route %d : %s", "route %d: %s", "Route #%d : %s", "  Route #%d:\t%s"])
        between = random.choice([" ", "  ", ",", ", ", "\t"])
        lines = [Line("route", form % (place, between.join(str(stop) for stop in route)))
                 for place, route in enumerate(stops, 1)]
    elif kind == "one line":
        lines = [Line("route", str(stops))]
    else:
        lines = [Line("route", str(route) + random.choice(["", ","] if kind == "lists" else [""])) for route in stops]
        if kind == "lists":
            lines = [Line("open", "["), *lines, Line("close", "]")]
    return around(random, lines, word, kind == "named")


def around(random, lines, word, is_named):
    """The lines with a cost, and with what stands around them elsewhere."""
    block = random.choice([[], [], *BLOCKS])
    is_told = word is not None and any("%s" in told for told in block)
    head = [Line("around", told % word if "%s" in told else told) for told in block if word or "%s" not in told]
    cost = [] if word is None or is_told else [Line("cost", random.choice(COST_LINES) % word)]
    if cost and random.randrange(4) == 0:
        return head + cost + lines
    return head + lines + cost


def wrong_stop(random, lines, count):
    line = pick(random, lines, "route")
    wrong = random.choice(["x", "1.5", "-1", str(count + 2), "1/2", "9999999999", "|"])
    put_in(random, line, wrong)
    return line


def put_in(random, line, word):
    """Puts a word between the stops of a route, where its spelling has them."""
    at = max(line.text.rfind(":"), line.text.rfind("[")) + 1
    between = ", " if "[" in line.text else " "
    rest = line.text[at:].lstrip()
    empty = not rest or rest[0] == "]"
    line.text = line.text[:at] + " " + word + ("" if empty else between) + rest


def twice(random, lines, count):
    """A customer again, in a line of its own behind the others."""
    last = [line for line in lines if line.role == "route"][-1]
    copy = Line("route", "Route 99: 1" if "[" not in last.text else "[1]")
    is_inside = any(line.role == "close" for line in lines)
    lines.insert(lines.index(last) + 1, copy)
    if is_inside and not last.text.endswith(","):
        last.text += ","
    return copy


def lacking(random, lines, count):
    """No route: told at the end, as a customer that is missing."""
    lines[:] = [line for line in lines if line.role != "route"] or [Line("blank", "")]


def wrong_cost(random, lines, count):
    """A cost that is none, or a second one."""
    line = Line("cost", random.choice(["Cost x", "Cost", "Cost: 1,5", "Objective: INFEASIBLE", "Cost 1 2", "Cost nan"]))
    if not any(other.role == "cost" or "objective" in other.text for other in lines) and random.randrange(2):
        lines.append(Line("cost", "Cost 5"))
        line.text = "Cost 5"
    lines.append(line)
    return line


def stray(random, lines, count):
    line = Line("stray", random.choice(["hello", "Routes 5 5", "1 2 3", "Route 1 2 3", "]", "Route #x: 1", "{}"]))
    lines.append(line)
    return line


def brackets(random, lines, count):
    """A third bracket within two, or one that isn't closed: told at the end."""
    if random.randrange(2):
        lines.append(Line("stray", "[[[1]]]"))
        return lines[-1]
    lines.append(Line("stray", "[[1], [2]"))


def wrong_byte(random, lines, count):
    line = random.choice(lines)
    line.text += "\udcff"
    return line


CHANGES = [wrong_stop, wrong_stop, twice, lacking, wrong_cost, stray, brackets, wrong_byte]
