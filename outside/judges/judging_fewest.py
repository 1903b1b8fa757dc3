"""One run of `fewest` on few customers, against all plans: the number is right whenever one is printed, and so are cost
and bound; the folder is judged again, and a text that was changed is refused."""
import os
import re

from cases.edges import edge_words
from cases.random_texts import laid_out
from judges.judging_layouts import tool
from judges.kind import Kind, program_by
from judges.running import demand, got, put
from reference.instances import Instance, is_plan, read
from reference.optimum import least_cost
from reference.texts import read_solution, tenths

MOST_CUSTOMERS = 8
# Where the fleet stands among an instance's words, and by how many vehicles more it may be larger.
FLEET, MORE = 4, 4
COUNT, COST = r"([1-9][0-9]*)", r"([0-9]+\.[0-9])"
LINES = [(kind, re.compile(pattern + r"\Z")) for kind, pattern in (
    ("BEST", "FEWEST %s BEST %s" % (COUNT, COST)), ("GAP", "FEWEST %s GAP %s %s" % (COUNT, COST, COST)),
    ("to", "FEWEST %s to %s" % (COUNT, COUNT)), ("OPEN", "FEWEST %s OPEN" % COUNT), ("NO PLAN", "NO PLAN"))]


def fewest_of(instance):
    """The fewest vehicles that do, and the least cost with so many; None for both where the fleet doesn't do."""
    for fleet in range(1, min(instance.fleet, instance.count) + 1):
        cost = least_cost(Instance(instance.name, fleet, instance.capacity, instance.rows))
        if cost is not None:
            return fleet, cost
    return None, None


def judge_line(line, instance):
    """The kind of the first line, which says nothing that isn't so."""
    kind, found = next(((kind, pattern.match(line)) for kind, pattern in LINES if pattern.match(line)), (None, None))
    demand(found, "another line: %r" % line)
    fewest, cost = fewest_of(instance)
    numbers = [tenths(word.encode()) if "." in word else int(word) for word in found.groups()]
    is_right = {
        "BEST": lambda: numbers == [fewest, cost],
        "GAP": lambda: numbers[0] == fewest and numbers[2] <= cost <= numbers[1],
        "to": lambda: fewest is not None and numbers[0] <= fewest <= numbers[1] and numbers[0] < numbers[1],
        "OPEN": lambda: fewest is None or numbers[0] <= fewest,
        "NO PLAN": lambda: fewest is None}[kind]()
    demand(is_right, "%s, and the fewest vehicles are %s at %s" % (line, fewest, cost))
    return kind


def change(random, into):
    """Changes a digit of a number that a text claims; answers whether there was one."""
    names = sorted(name for name in os.listdir(into) if name.endswith((".plan", ".certificate")))
    if not names:
        return False
    path = os.path.join(into, random.choice(names))
    text = got(path)
    head = b"Cost " if path.endswith(".plan") else b"BOUND "
    at = text.index(head) + len(head)
    put(path, text[:at] + b"1" + text[at:])
    return True


def judge_planned(program, folder, source, instance):
    """The same instance by `plan --fewest` and `report`: the fewest vehicles at the least cost, on the page too, or no
    plan."""
    into, (fewest, cost) = os.path.join(folder, "planned"), fewest_of(instance)
    out, errors, status = tool("plan", source, "--into", into, "--program", program, "--fewest", "--seconds", "20",
                               "--searchers", "1", "--bounders", "1")
    told = out.decode()
    if fewest is None:
        is_told = told.startswith(("There is no plan", "No plan was found"))
        demand(status == 1 and is_told, "plan: %r, %r" % (told, errors))
        return
    demand(status == 0, "plan: %r, %r" % (told, errors))
    into = os.path.join(into, "now")
    own, plan = (got(os.path.join(into, name)) for name in ("instance.txt", "plan.txt"))
    own, (routes, its) = read(own), read_solution(plan)
    demand(is_plan(own, routes) and own.rows == instance.rows and own.fleet >= fewest, "plan: %r" % told)
    known = tool("fewest", source, "--into", os.path.join(into, "fewest"), "--program", program, "--check")[0].decode()
    is_shown, is_closed = " to " not in known.split("\n")[0], " BEST " in known
    demand(("Fewer vehicles don't do" in told) == (is_shown and fewest > 1), "plan: %r, and %r" % (told, known))
    demand(("do isn't known" in told or "does isn't known" in told) != is_shown, "plan: %r, and %r" % (told, known))
    demand(not is_closed or "no plan with so few is shorter" in told, "plan: %r, and %r" % (told, known))
    if not is_closed:
        return
    demand((len(routes), own.fleet, its) == (fewest, fewest, cost), "plan: %r, and the fewest are %d at %d" % (
        told, fewest, cost))
    paths = [os.path.join(into, name) for name in ("instance.txt", "plan.txt", "certificate.txt")]
    page, errors, status = tool("report", *paths, "--program", program, "--fewest", os.path.join(into, "fewest"))
    demand((errors, status) == ("", 0), "report: %r" % errors)
    for held in (page, got(os.path.join(into, "report.html"))):
        demand((b"Fewer vehicles don" in held) == (fewest > 1), "the page says nothing of fewer vehicles")


def judge_fewest(program, folder, random):
    """A run, the same by --check, and perhaps one with a text that was changed."""
    words = edge_words(random, random.randint(1, MOST_CUSTOMERS))
    words[FLEET] = str(min(1000, int(words[FLEET]) + random.choice([0, 0, 1, MORE])))
    text = laid_out(random, words)
    source, into, instance = os.path.join(folder, "source.txt"), os.path.join(folder, "fewest"), read(text)
    put(source, text)
    began = [source, "--into", into, "--program", program]
    solving = [*began, "--seconds", "20", "--searchers", "1", "--bounders", "1"]
    out, errors, status = tool("fewest", *solving)
    demand(out and not errors, "fewest: %r, %r" % (out, errors))
    kind = judge_line(out.decode().split("\n")[0], instance)
    demand(status == (0 if kind in ("BEST", "GAP", "NO PLAN") else 1), "%s, and status %d" % (kind, status))
    again = tool("fewest", *began, "--check")
    demand(again == (out, "", status), "--check: %r, after %r" % (again, out))
    if random.randrange(4) == 0 and kind in ("BEST", "NO PLAN"):
        again = tool("fewest", *solving)
        demand(again == (out, "", status), "the same words: %r, after %r" % (again, out))
    if random.randrange(3) == 0:
        judge_planned(program, folder, source, instance)
    if random.randrange(4) == 0 and change(random, into):
        out, errors, status = tool("fewest", *began, "--check")
        demand((out, status) == (b"", 1) and "vrptw check says" in errors, "taken: %r, %r" % (out, errors))
        mended, _, _ = tool("fewest", *solving)
        again = tool("fewest", *began, "--check")
        demand(again[0] == mended and again[2] in (0, 1), "--check: %r, after %r was mended" % (again, mended))
        judge_line(mended.decode().split("\n")[0], instance)
    return kind


KINDS = {
    "fewest": Kind("fewest on 1 to 8 customers: the fewest vehicles and the least cost with them, by all plans", 12,
                   program_by(judge_fewest)),
}
