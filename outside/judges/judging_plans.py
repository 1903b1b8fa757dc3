"""One run of `respell`, `timetable` or `draw`: what they make of random plans, by the reference and the program."""
import json
import os
from collections import Counter
from judges.kind import Kind, program_by, tools_by
from xml.etree import ElementTree

from cases.random_texts import certificate_of, instance_words, laid_out, solution_of, tree_of
from cases.spelled_cases import CHANGES, cost_told, partition, spelled
from cases.tool_texts import joined, number_of, with_blanks
from judges.judging_layouts import demand_notes, demand_refusal, tool
from judges.running import demand, got, put, run_check
from reference import bounding, checking
from reference.instances import plan_cost, read, route_cost, walk_times
from reference.pricing import leaves
from reference.texts import read_certificate, shown
from tools.names import table_of
from tools.timing import Stop, Sums

NAMES = ["Café", "a & b", "<School>", 'the "Mill"', "O'Neill", "", "x" * 60, "\u65e5\u672c", "\U0001f600", "]]>", "--"]


def drawn(folder, random, most=12):
    """A random instance, its text, its path, and routes that serve each customer once."""
    text = laid_out(random, instance_words(random, random.randint(1, most)))
    path = os.path.join(folder, "instance")
    put(path, text)
    instance = read(text)
    return instance, text, path, partition(random, instance)


def text_of(lines):
    return "".join(line + "\n" for line in lines).encode()


def demand_reason(errors, word, reason):
    """The note on the cost that is told there: none where it is ours, else its reason."""
    notes = [line for line in errors.splitlines() if "the cost " in line]
    if reason is None:
        demand(not notes, "a cost of %s is noted: %r" % (word, notes))
    else:
        demand(len(notes) == 1 and reason in notes[0], "a cost of %s: %r, and it is: %s" % (word, notes, reason))


def judge_respelled(program, folder, random):
    """A solution in another spelling: our text at its cost, and the program's check of it says its first defect or its
    cost and the bound 0."""
    instance, text, path, routes = drawn(folder, random)
    cost, from_zero = plan_cost(instance, routes), random.randrange(3) == 0
    scale = random.choice([1, 1, 10])
    word, reason = cost_told(random, instance, routes, cost, scale)
    lines = spelled(random, instance.count, routes + [[]] * random.choice([0, 0, 1]), word, from_zero)
    source, certificate = os.path.join(folder, "elsewhere"), os.path.join(folder, "prices")
    put(source, joined(random, with_blanks(random, lines)))
    out, errors, status = tool("respell", path, source, "--certificate", certificate, "--scale", str(scale),
                               *(["--from-zero"] if from_zero else []))
    right = text_of(solution_of(routes, cost))
    demand((out, status) == (right, 0), "respell: %r, status %d, %r" % (out, status, errors))
    demand_notes("respell", errors)
    demand_reason(errors, word, reason)
    defect = checking.plan_defect(instance, routes)
    demand((defect is not None) == ("no plan of this instance" in errors), "%s: %r" % (defect, errors))
    came = run_check(program, folder, text, got(certificate), out)
    right = ("", "vrptw: plan: %s\n" % defect, 5) if defect else ("BEST 0.0\n", "", 0) if cost == 0 else (
        "GAP %s 0.0\n" % shown(cost), "", 1)
    demand(came == right, "check: %r, and %r is right" % (came, right))
    return defect or "plan"


def judge_wrong_spelling(folder, random):
    """A solution with one thing wrong: refused with its line, and no certificate is written."""
    instance, _, path, routes = drawn(folder, random)
    lines = spelled(random, instance.count, routes, random.choice([None, "7"]), False)
    change = random.choice(CHANGES)
    wrong = change(random, lines, instance.count)
    lines = with_blanks(random, lines)
    source, certificate = os.path.join(folder, "elsewhere"), os.path.join(folder, "prices")
    put(source, joined(random, lines))
    came = tool("respell", path, source, "--certificate", certificate)
    demand_refusal("respell", source, number_of(lines, wrong), came)
    demand(got(certificate) is None, "respell wrote a certificate after a refusal")
    return change.__name__


def by_walk(instance, place, route):
    """The rows of a route that is in time, from the times of its walk."""
    begins, finish = walk_times(instance, route)
    leaves_at = [instance.ready(0)] + [begin + instance.service(i) for i, begin in zip(route, begins)]
    load = 0
    for (i, begin), before, left in zip(zip(route + [0], begins + [finish]), [0] + route, leaves_at):
        load += instance.demand(i)
        arrival = left + instance.arc[before][i]
        end = begin + instance.service(i)
        yield [str(place), str(i), shown(arrival), shown(begin - arrival), shown(begin), shown(end), str(load),
               shown(instance.due(i) - begin)]


def judge_object(text, stops, sums, shares):
    """The object has the numbers of the table."""
    told = json.loads(text)
    for route, (place, *row) in zip(told["routes"], sums[:-1]):
        right = [valued(Stop._fields, stop[1:]) for stop in stops if stop[0] == place]
        came = [{name: stop[name] for name in Stop._fields} for stop in route["stops"]]
        demand(came == right and {**route, "route": int(place), **valued(Sums._fields, row)} == route, "%r" % route)
    plan = told["plan"]
    demand({**plan, **valued(Sums._fields, sums[-1][1:]), **valued(*shares)} == plan and
           len(told["routes"]) == len(sums) - 1, "%r" % told)


def valued(names, words):
    """Numbers by their names."""
    return {name: float(word) for name, word in zip(names, words)}


def judge_timetable(folder, random):
    """The table of a plan: each stop as its walk has it, sums as they are defined; both forms have the same words."""
    instance, _, path, routes = drawn(folder, random)
    solution = os.path.join(folder, "solution")
    put(solution, text_of(solution_of(routes, plan_cost(instance, routes))))
    words = ["timetable", path, solution, "--depart", "early"]
    (out, errors, status), (table, _, other) = tool(*words), tool(*words, "--csv")
    demand((status, other) == (0, 0), "timetable: status %d and %d: %r" % (status, other, errors))
    demand_notes("timetable", errors)
    stops, sums, shares = ([line.split(",") for line in part.splitlines()] for part in table.decode().split("\n\n"))
    demand(out.decode().split() == [word for row in stops + sums + shares for word in row], "both forms differ")
    judge_object(tool(*words, "--json")[0], stops[1:], sums[1:], shares)
    late = set()
    for place, route in enumerate(routes, 1):
        rows = [row for row in stops[1:] if row[0] == str(place)]
        if walk_times(instance, route) is None:
            late.add(place)
            demand(any(row[7].startswith("-") for row in rows), "route %d is late: %r" % (place, rows))
            continue
        demand(rows == list(by_walk(instance, place, route)), "route %d: %r" % (place, rows))
        waits, finish = sum(float(row[3]) for row in rows), walk_times(instance, route)[1]
        right = [str(place), shown(route_cost(instance, route)), shown(finish - instance.ready(0))]
        demand(sums[place][:3] == right and abs(float(sums[place][3]) - waits) < 0.01, "sums: %r" % sums[place])
    for column in (1, 2, 3):
        whole = sum(float(row[column]) for row in sums[1:-1])
        demand(sums[-1][0] == "plan" and abs(float(sums[-1][column]) - whole) < 0.01, "the plan's sums: %r" % sums[-1])
    demand(bool(checking.plan_defect(instance, routes)) == bool(errors), "notes %r" % errors)
    return "late" if late else "in time"


def demand_room(element, wide):
    """A text's ends are within a picture so wide, as far as letters have their usual widths."""
    if not element.tag.endswith("}text"):
        return
    long = 0.52 * float(element.get("font-size", 9)) * len(element.text)
    left = float(element.get("x")) - {"middle": long / 2, "end": long}.get(element.get("text-anchor"), 0)
    demand(-1 <= left and left + long <= wide + 1, "%r is cut: from %.0f to %.0f of %.0f" % (
        element.text, left, left + long, wide))


def pictured(folder, *words):
    """The texts of a picture, how often each stands there, and its titles; all that has a place stands within it."""
    out, errors, status = tool("draw", *words)
    demand((errors, status) == ("", 0), "draw: status %d, %r" % (status, errors))
    root = ElementTree.fromstring(out)
    wide, high = float(root.get("width")), float(root.get("height"))
    for element in root.iter():
        for name, most in (("x", wide), ("cx", wide), ("y", high), ("cy", high)):
            demand(0 <= float(element.get(name, 0)) <= most, "out of the picture: %r" % element.attrib)
        demand_room(element, wide)
    texts = Counter(element.text for element in root.iter() if element.tag.endswith("}text"))
    return texts, [element.text for element in root.iter() if element.tag.endswith("}title")]


def judge_picture(folder, random):
    """The three pictures of a plan, or the refusal of what is none."""
    instance, _, path, routes = drawn(folder, random, 6)
    solution, certificate = os.path.join(folder, "solution"), os.path.join(folder, "certificate")
    put(solution, text_of(solution_of(routes, plan_cost(instance, routes))))
    if checking.plan_defect(instance, routes):
        out, errors, status = tool("draw", path, solution)
        demand((out, status) == (b"", 1) and errors.count("\n") == 1, "draw of no plan: %r" % errors)
        return "refused"
    table = os.path.join(folder, "names")
    put(table, table_of([random.choice(NAMES) for _ in range(instance.count + 1)]).encode())
    for words in ([], ["--times"], ["--names", table], ["--times", "--names", table]):
        texts, titles = pictured(folder, path, solution, *words)
        legend = Counter(shown(route_cost(instance, route)) for route in routes)
        demand(not legend - texts, "the legend: %r, and %r is right" % (texts, legend))
        demand(all(texts[str(number)] for number in range(1, len(routes) + 1)), "numbers of routes: %r" % texts)
        told = [title for title in titles if title.startswith("Route ")]
        demand(len(told) == len(routes), "routes: %r" % told)
        for i in range(1, instance.count + 1):
            demand(sum(title.startswith("Customer %d, " % i) for title in titles) == 1, "customer %d isn't there" % i)
            times = sum(title.startswith(("Service of customer %d:" % i, "Customer %d: " % i)) for title in titles)
            demand(times == (2 if "--times" in words else 0), "times of customer %d: %d" % (i, times))
    return judge_tree(instance, path, solution, certificate, folder, random)


def judge_tree(instance, path, solution, certificate, folder, random):
    """The picture of a random tree has each leaf with its value; a bound that isn't the tree's is refused."""
    lines = certificate_of(random, instance, tree_of(random, instance))
    found = read_certificate(text_of(lines))
    least = bounding.least_by_routes if found.neighbours >= 8 else bounding.least_by_labels
    values = [bounding.leaf_value(instance, region, prices, found.neighbours, found.version, least)
              for region, prices in leaves(instance.count, found.tree)]
    bound = checking.tree_bound(instance, found, least)
    put(certificate, text_of(lines[:4] + ["BOUND " + shown(bound)] + lines[5:]))
    titles = pictured(folder, path, solution, "--tree", certificate)[1]
    told = [title.split()[5].rstrip(",") for title in titles if title.startswith("Leaf ")]
    right = [shown(min(value, instance.ceiling() + 1)) for value in values]
    demand(sorted(told) == sorted(right), "leaves: %r, and %r is right" % (told, right))
    demand(sum(title.startswith("Split ") for title in titles) == 2 * (len(values) - 1), "splits")
    told = "NO PLAN" if bound == instance.ceiling() + 1 else "BOUND " + shown(bound)
    demand(tool("recheck", path, certificate) == ((told + "\n").encode(), "", 0), "recheck")
    put(certificate, text_of(lines[:4] + ["BOUND " + shown(bound + 1)] + lines[5:]))
    for words in (["draw", path, solution, "--tree", certificate], ["recheck", path, certificate]):
        demand_refusal(words[0], certificate, 5, tool(*words))
    return "drawn"


KINDS = {
    "respelled": Kind("a plan as other solvers spell it, by respell, and the check of what comes", 30,
                      program_by(judge_respelled)),
    "wrong_spellings": Kind("another solver's spelling with one thing wrong: refused with its line", 40,
                            tools_by(judge_wrong_spelling)),
    "timetables": Kind("a plan's times by timetable, against the walks of its routes", 25, tools_by(judge_timetable)),
    "pictures": Kind("what draw draws of a plan and of a tree, and what recheck tells of that", 12,
                     tools_by(judge_picture)),
}
