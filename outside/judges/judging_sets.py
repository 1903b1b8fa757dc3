"""Certificates with sets: what sets need, bounds and texts, by all routes and all plans of a few customers."""
import os
import re
from itertools import permutations

from cases.mutating import changed_bytes, changed_number
from cases.random_texts import laid_out, plan_of, solution_of
from cases.set_cases import drawn_set, forged, set_certificate, set_words, spoilt_line
from cases.set_rows import BY_HAND, SET_ROWS
from judges.judging import said_of
from judges.judging_layouts import text_of, tool
from judges.kind import Kind, number_by, program_by, tools_by
from judges.running import demand, put, run_check
from reference import bounding, checking
from reference.instances import plan_cost, read, walk, walk_times
from reference.bounding import PricedSet
from reference.needs import entries, need
from reference.optimum import least_cost
from reference.pricing import Pricing, leaves
from reference.set_texts import FIRST_SET, read_either, written
from reference.texts import shown
from tools.tool import Refused
from tools.tree_texts import TreeText

# How many sets, certificates and texts with some bytes changed a run has.
SETS, CERTIFICATES, CHANGED = 4, 8, 40
NEVER = float("inf")
FAULT = re.compile(r"(Truncated|Extra|(BadLine|NeedRange|BadSet|BadRow|PriceRange|BadArc|ArcDecided) line (\d+))\Z")


def said_by_recheck(folder, instance, certificate, solution=b""):
    """The line of recheck; of a refusal what is said of the certificate."""
    paths = [os.path.join(folder, name) for name in ("instance", "certificate", "solution")]
    for path, text in zip(paths, (instance, certificate, solution)):
        put(path, text)
    out, errors, status = tool("recheck", *(paths if solution else paths[:2]), "--jobs", "1")
    head = "outside/recheck: %s: " % paths[1]
    if status == 0:
        demand(errors == "" and out.count(b"\n") == 1, "recheck: %r, %r" % (out, errors))
        return out.decode()[:-1]
    demand((out, status, errors.count("\n")) == (b"", 1, 1) and errors.startswith(head), "recheck: %r" % errors)
    return errors[len(head):-1]


def demand_read(text, said):
    """The reader says this of a text; one of which nothing is said is written again as it was."""
    found = said_of(read_either, text)
    demand(found == said, "%r: %r, and %r is right" % (text[-200:], found, said))
    demand_streamed(text, said)
    demand(said or written(read_either(text)) == text, "written again: %r" % text[-200:])


def demand_streamed(text, said):
    """What goes through a text node by node says the same of it, with the line."""
    came = ""
    try:
        list(TreeText("text", text).rest())
    except Refused as refused:
        came = str(refused)
    name, _, line = said.partition(" line ")
    is_right = "(%s)" % name in came and (not line or came.startswith("text: line %s: met " % line))
    demand(is_right or not text if said else not came, "node by node: %r, and %r is right" % (came, said))


def program_says(said):
    """How the program's check begins what recheck or the reader says: on both streams."""
    line = re.match(r"line (\d+): met a (need|bound) of", said)
    if line:
        return "", "vrptw: check: " + ("NeedTooGreat line %s\n" % line[1] if line[2] == "need" else "BoundDiffers ")
    fault = re.match(r"line (\d+): met .* \((\w+)\), wanted a certificate", said)
    if fault:
        return "", "vrptw: certificate: %s line %s\n" % (fault[2], fault[1])
    return said + "\n", ""


def demand_checked(program, folder, instance, certificate, said, solution=b""):
    """The program's check says of three texts what recheck says."""
    out, errors, _ = run_check(program, folder, instance, certificate, solution or None)
    wanted = program_says(said)
    demand(out == wanted[0] and errors.startswith(wanted[1]) and bool(errors) == bool(wanted[1]),
           "check: %r, %r, and %r is right" % (out, errors, wanted))


def judge_set_row(program, folder, seed, rows=SET_ROWS):
    """A line of a table that was worked out by hand."""
    kind, *texts, said = rows[seed]
    texts = [text.encode() for text in texts]
    if kind == "read":
        demand_read(texts[0], said)
        errors = run_check(program, folder, BY_HAND["three"].encode(), texts[0], None)[1]
        demand(errors == "vrptw: certificate: %s\n" % said if said else not errors.startswith("vrptw: certificate"),
               "check: %r, and %r is right" % (errors, said))
        return "read: %s" % (said.split(" ")[0] or "whole")
    came = said_by_recheck(folder, *texts)
    demand(came == said, "%r: %r, and %r is right" % (texts[1], came, said))
    demand_checked(program, folder, texts[0], texts[1], said, texts[2])
    return "recheck: %s" % (said.split(" ")[0])


def drawn(random, least, most):
    return read(laid_out(random, set_words(random, random.randint(least, most))))


def entered(customers, route):
    """How often a route enters a set, by letters: D for the depot, O for a stop outside, I for one inside."""
    return len(re.findall("[DO]I", "D" + "".join("I" if i in customers else "O" for i in route)))


def fewest_entries(instance, routes, customers):
    """How often all routes of a plan enter a set at the least, by all plans; None where there is none."""
    by_served, best = {}, {(0, 0): 0}
    for route in routes:
        served, times = sum(1 << i - 1 for i in route), entered(customers, route)
        by_served[served] = min(times, by_served.get(served, times))
    whole = (1 << instance.count) - 1
    for served in range(whole):
        for used in range(instance.fleet if served else 1):
            for more, times in by_served.items() if (served, used) in best else ():
                if served & more == 0:
                    key = (served | more, used + 1)
                    best[key] = min(best.get(key, NEVER), best[served, used] + times)
    return min((times for (served, _), times in best.items() if served == whole), default=None)


def ways_by_rounds(instance):
    """The shortest ways over one row more each round."""
    rows = range(instance.count + 1)
    way = [[0 if i == j else instance.arc[i][j] for j in rows] for i in rows]
    for _ in rows:
        way = [[min(way[i][k] + (0 if k == j else instance.arc[k][j]) for k in rows) for j in rows] for i in rows]
    return way


def is_order_in_time(instance, way, order):
    """Whether customers in this order are in time on these ways."""
    at, time = 0, instance.ready(0)
    for i in order:
        begin = max(time + way[at][i], instance.ready(i))
        if begin > instance.due(i):
            return False
        at, time = i, begin + instance.service(i)
    return time + way[at][0] <= instance.due(0)


def judge_needs(folder, random):
    """What some sets of up to 7 customers need: by all orders, by all routes that are in time, and by all plans."""
    instance = drawn(random, 2, 7)
    orders = [list(order) for size in range(1, instance.count + 1)
              for order in permutations(range(1, instance.count + 1), size)]
    in_time = [order for order in orders if walk_times(instance, order)]
    routes, way, came = [route for route in in_time if walk(instance, route)], ways_by_rounds(instance), set()
    for customers in {drawn_set(random, instance.count) for _ in range(SETS)}:
        by_load = (sum(instance.demand(i) for i in customers) + instance.capacity - 1) // instance.capacity
        by_time = 1 if any(is_order_in_time(instance, way, order) for order in permutations(customers)) else 2
        found = need(instance, customers)
        demand(found == max(by_load, by_time), "%r needs %d: %d by load, %d by time" % (
            customers, found, by_load, by_time))
        demand(by_time == 1 or not any(set(customers) <= set(order) for order in in_time), "%r in time" % (customers,))
        for route in orders:
            demand(entries(customers, route) == entered(customers, route), "%r enters %r" % (route, customers))
        fewest = fewest_entries(instance, routes, customers)
        demand(fewest is None or fewest >= found, "%r needs %d, and a plan enters it %r times" % (
            customers, found, fewest))
        came.add("no plan" if fewest is None else "by time" if by_time > by_load else "by load" if by_load > 1 else "1")
    return ", ".join(sorted(came))


def judge_set_bounds(folder, random, make=set_certificate):
    """The bounds of some texts: at most the least cost of all plans; each leaf's value by labels is that by all
    relaxed routes. One of them goes through recheck."""
    instance = drawn(random, 1, 6)
    cost, came = least_cost(instance), set()
    for _ in range(CERTIFICATES):
        found = make(random, instance)
        pricing, most = Pricing(instance, found.neighbours, 2), instance.ceiling() + 1
        values = []
        for region, prices, priced in leaves(instance.count, found.tree):
            values.append(min(most, value_by_routes(instance, region, prices, priced, found.neighbours)))
            by_labels = min(most, bounding.leaf_value(instance, region, prices, found.neighbours, 2,
                                                      bounding.least_by_labels, priced))
            again = pricing.value(region, prices, priced)
            demand(values[-1] == by_labels == again, "%r %r: %d by all routes, %d and %r by labels" % (
                prices, priced, values[-1], by_labels, again))
        found.bound = min(values)
        demand(found.bound <= (most if cost is None else cost), "a bound of %d, and a plan costs %r" % (
            found.bound, cost))
        came.add("no plan" if cost is None else "the cost" if found.bound == cost else "below it")
    demand_rechecked(folder, instance, written(found))
    return ", ".join(sorted(came))


def value_by_routes(instance, region, prices, priced, neighbours):
    """A leaf's value in tenths, by the least reduced cost of all relaxed routes."""
    least = bounding.least_by_routes(instance, region, prices, neighbours, priced) or 0
    vehicles = instance.fleet if least < 0 else instance.fewest_routes()
    grains = vehicles * least
    for price in prices:
        grains += price
    for one in priced:
        grains += one.need * one.price if isinstance(one, PricedSet) else -one.price
    return max(0, (grains + 999) // 1000)


def wanted_of(instance, text):
    """What recheck is to say of a text that is read: the first need that is too great, another bound, or the bound."""
    found = read_either(text)
    for line, one in enumerate(found.sets, FIRST_SET):
        if one.need > need(instance, one.customers):
            return "line %d: met a need of %d (NeedTooGreat), wanted at most %d" % (
                line, one.need, need(instance, one.customers))
    bound = checking.tree_bound(instance, found, bounding.least_by_routes)
    if bound != found.bound:
        return "line 5: met a bound of %s, wanted that of the tree, %s" % (shown(found.bound), shown(bound))
    return "NO PLAN" if bound == instance.ceiling() + 1 else "BOUND " + shown(bound)


def demand_rechecked(folder, instance, text):
    """The text through recheck, which says what it is to say. Answers that."""
    came, wanted = said_by_recheck(folder, text_of(instance), text), wanted_of(instance, text)
    demand(came == wanted, "recheck: %r, and %r is right" % (came, wanted))
    return wanted


def judge_set_text(folder, random, make=set_certificate, spoil=spoilt_line, forge=forged):
    """A text: read and written again; with bytes changed the same, or a fault in a line that is there; with a line
    spoilt the fault of that; with a forged number what is right of it."""
    instance = drawn(random, 1, 5)
    for _ in range(CERTIFICATES):
        found = make(random, instance)
        found.bound = checking.tree_bound(instance, found, bounding.least_by_routes)
        if found.bound > 0:
            break
    text, again = written(found), read_either(written(found))
    demand((again.sets, again.rows, again.tree, again.bound) == (found.sets, found.rows, found.tree, found.bound),
           "read: %r" % text)
    demand_read(text, "")
    for _ in range(CHANGED):
        other = random.choice([changed_bytes, changed_bytes, changed_number])(random, text)
        said = said_of(read_either, other)
        fault = FAULT.match(said)
        demand(not said or fault and int(fault[3] or 0) <= other.count(b"\n"), "%r of %r" % (said, other))
        demand(said or not other.startswith((b"VRPTW-SETS", b"VRPTW-ROWS")) or written(read_either(other)) == other, "%r" % other)
    other, said = spoil(random, found, text)
    demand_read(other, said)
    kind, other = forge(random, found, text)
    came = demand_rechecked(folder, instance, other)
    return "%s: %s" % (kind, "NeedTooGreat" if "NeedTooGreat" in came else came.split(" ")[0])


def changed(random, found, text, spoil=spoilt_line, forge=forged):
    """A certificate's text whole, or with something wrong or forged."""
    way = random.randrange(5)
    if way == 0:
        return text
    if way == 1:
        return spoil(random, found, text)[0]
    if way == 2:
        return forge(random, found, text)[1]
    for _ in range(random.choice([1, 1, 3])):
        text = random.choice([changed_bytes, changed_number])(random, text)
    return text


def judge_set_check(program, folder, random, make=set_certificate, spoil=spoilt_line, forge=forged):
    """A certificate with sets and often a plan, whole or with something wrong, through check, beside the reference."""
    instance = drawn(random, 1, 5)
    found = make(random, instance)
    found.bound = max(0, checking.tree_bound(instance, found, bounding.least_by_routes) + random.choice([0, 0, 0, 1, -1]))
    certificate, solution = changed(random, found, written(found), spoil, forge), None
    if random.randrange(2):
        routes = plan_of(random, instance)
        cost = plan_cost(instance, [[i for i in route if i <= instance.count] for route in routes])
        solution = "".join(line + "\n" for line in solution_of(routes, cost)).encode()
    try:
        wanted = checking.check(text_of(instance), certificate, solution, bounding.least_by_labels)
    except bounding.TooLong:
        return "too many labels"
    got = run_check(program, folder, text_of(instance), certificate, solution)
    demand(got == wanted, "check: %r, and %r is right" % (got, wanted))
    return " ".join(word for word in (wanted[0] or wanted[1]).split() if word.isalpha() or word.endswith(":"))


KINDS = {
    "needs": Kind("what sets of up to 7 customers need, by all orders, by all routes and by all plans", 40,
                  tools_by(judge_needs)),
    "set_bounds": Kind("bounds with prices of sets: below each plan's cost, the same by labels and by all routes", 24,
                       tools_by(judge_set_bounds)),
    "set_texts": Kind("texts with sets, read and written, and with something wrong or forged, by recheck", 24,
                      tools_by(judge_set_text)),
    "set_checks": Kind("certificates with sets and plans, right or with something wrong, through check", 40,
                       program_by(judge_set_check)),
    "set_rows": Kind("certificates with sets, and what recheck and the reader say of them, by hand", len(SET_ROWS),
                     number_by(judge_set_row), is_fixed=True),
}
